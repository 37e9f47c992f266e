//! A summary as a file: a head, the entries as the library takes them, and the names of their recordings.
//!
//! `docs/TOOL.md` has the layout.

use crate::crc64::checksum;
use crate::trouble::Trouble;
use crate::{input, tin};
use mill::sys::MILL_ENTRY_BYTES;
use std::path::Path;

/// No recording begins with it, nor with it and 8 bits of it changed; see `tin::MAGIC`, from which 16 bits part it.
const MAGIC: [u8; 16] = *b"\x89mill sum\r\n\x1a\nSUM";
const FORMAT: u32 = 1;

/// Where the entries begin.
const HEAD_BYTES: usize = 32;
const CHECKSUM_AT: usize = 24;

#[derive(Clone, PartialEq, Eq, Debug, Default)]
pub struct Summary {
    pub entries: Vec<[u8; MILL_ENTRY_BYTES]>,
    /// As many as there are entries.
    pub names: Vec<Vec<u8>>,
}

/// Whether the bytes are to be read as a summary, whole, damaged or cut off.
pub fn is_one(bytes: &[u8]) -> bool {
    tin::begins(bytes, &MAGIC)
}

/// The summary in a file.
pub fn in_file(file: &Path) -> Result<Summary, Trouble> {
    Summary::read(&input::whole(file)?).map_err(|why| Trouble::of_file(file, why))
}

impl Summary {
    /// An entry and the name of its recording; one of that name is replaced.
    pub fn put(&mut self, name: Vec<u8>, entry: [u8; MILL_ENTRY_BYTES]) {
        match self.names.iter().position(|there| *there == name) {
            Some(at) => self.entries[at] = entry,
            None => {
                self.names.push(name);
                self.entries.push(entry);
            }
        }
    }

    pub fn bytes(&self) -> Vec<u8> {
        let length = |number: usize| (number as u32).to_le_bytes();
        let names = self.names.iter().flat_map(|name| [&length(name.len())[..], name].concat());
        let body: Vec<u8> = self.entries.as_flattened().iter().copied().chain(names).collect();
        let head = [&MAGIC[..], &FORMAT.to_le_bytes(), &length(self.entries.len())].concat();
        let sum = checksum(&[&head, &body]).to_le_bytes();
        [head, sum.to_vec(), body].concat()
    }

    /// The summary of these bytes, or what is wrong with them.
    pub fn read(bytes: &[u8]) -> Result<Summary, String> {
        if !is_one(bytes) {
            return Err("is no summary: 'mill entry -o' writes one; --raw reads bare entries".to_string());
        }
        let damaged = || "is a damaged summary".to_string();
        let (head, body) = bytes.split_first_chunk::<HEAD_BYTES>().ok_or_else(damaged)?;
        let number = |at: usize| u32::from_le_bytes(std::array::from_fn(|byte| head[at + byte]));
        let sum = u64::from_le_bytes(std::array::from_fn(|byte| head[CHECKSUM_AT + byte]));
        if !head.starts_with(&MAGIC) || checksum(&[&head[..CHECKSUM_AT], body]) != sum {
            return Err(damaged());
        }
        if number(16) != FORMAT {
            return Err(format!("is a summary of format {}, and this version of mill reads format {FORMAT}", number(16)));
        }
        let summary = parts(number(20) as usize, body).ok_or_else(damaged)?;
        Ok(summary)
    }
}

fn parts(count: usize, body: &[u8]) -> Option<Summary> {
    let (entries, mut rest) = body.split_at_checked(count.checked_mul(MILL_ENTRY_BYTES)?)?;
    let mut names = Vec::new();
    for _ in 0..count {
        let (length, behind) = rest.split_first_chunk()?;
        let (name, behind) = behind.split_at_checked(u32::from_le_bytes(*length) as usize)?;
        names.push(name.to_vec());
        rest = behind;
    }
    let (entries, _) = entries.as_chunks();
    rest.is_empty().then(|| Summary { entries: entries.to_vec(), names })
}

#[test]
fn a_summary_comes_back_and_any_flipped_bit_or_cut_is_noticed() {
    let mut summary = Summary::default();
    summary.put(b"r1.rec".to_vec(), [7; 32]);
    summary.put(b"".to_vec(), [9; 32]);
    summary.put(b"r1.rec".to_vec(), [8; 32]);
    assert_eq!(summary.entries, [[8; 32], [9; 32]]);
    let bytes = summary.bytes();
    assert_eq!(Summary::read(&bytes), Ok(summary));
    for bit in 0..bytes.len() * 8 {
        let mut flipped = bytes.clone();
        flipped[bit / 8] ^= 1 << (bit % 8);
        assert!(Summary::read(&flipped).is_err(), "bit {bit}");
    }
    for end in 0..bytes.len() {
        assert!(Summary::read(&bytes[..end]).is_err(), "{end} bytes");
    }
}
