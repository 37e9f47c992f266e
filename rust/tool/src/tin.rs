//! A tin: kept readings in one file, behind a head that tells their marks and a checksum.
//!
//! `docs/TOOL.md` has the layout. In every format the first 20 bytes are the magic word and the format, and bytes 120 to 127 the
//! checksum of all others; so a tin of a later format that is whole is known as that.

use crate::crc64::checksum;
use mill::sys::{MILL_MAX_MARK, MILL_MAX_MARKS, MILL_MAX_RECORDS, MILL_RECORD_BYTES};

/// Read as a reading, bytes 12 to 15 would be slopes, a pigment and a zero. At least 9 bits of these must change to make them so:
/// whatever 8 bits of it change, a file that begins with it is no recording.
pub const MAGIC: [u8; 16] = *b"\x89mill tin\r\n\x1a\nTIN";

/// As many changed bits as a magic word may have to be known as a damaged one.
const NEAR: u32 = 8;

pub const FORMAT: u32 = 1;

/// The kept rule of this library, as its states name it: that of document 01 was 1, and Papers 1, 3 and 5 changed it.
pub const RULE: u32 = 4;

/// Where the readings begin.
pub const HEAD_BYTES: usize = 128;

/// The most bytes of a tin.
pub const MOST_BYTES: usize = HEAD_BYTES + MILL_MAX_RECORDS * MILL_RECORD_BYTES;

const CHECKSUM_AT: usize = 120;

/// Instead of a number of readings taken: nobody counted.
const UNCOUNTED: u64 = u64::MAX;

#[derive(Clone, PartialEq, Eq, Debug)]
pub struct Tin {
    /// Ascending, none twice.
    pub marks: Vec<u32>,
    /// How many readings were taken in all; none where it was begun before that was counted.
    pub taken: Option<u64>,
    /// How many of the readings were put back by choice.
    pub pins: u32,
    pub readings: Vec<u8>,
}

/// Whether the bytes are to be read as a tin: they begin with its magic word, whole, damaged or cut off.
pub fn is_one(bytes: &[u8]) -> bool {
    begins(bytes, &MAGIC)
}

/// Whether the bytes begin with a magic word, whole, damaged or cut off.
pub fn begins(bytes: &[u8], magic: &[u8; 16]) -> bool {
    let differing = |first: &[u8; 16]| first.iter().zip(magic).map(|(byte, magic)| (byte ^ magic).count_ones()).sum::<u32>();
    match bytes.first_chunk() {
        Some(first) => differing(first) <= NEAR,
        None => !bytes.is_empty() && magic.starts_with(bytes),
    }
}

impl Tin {
    pub fn held(&self) -> usize {
        self.readings.len() / MILL_RECORD_BYTES
    }

    pub fn bytes(&self) -> Vec<u8> {
        let mut head = [0; HEAD_BYTES];
        let marks = self.marks.iter().copied().chain(std::iter::repeat(0)).take(MILL_MAX_MARKS);
        let numbers = [FORMAT, RULE, self.marks.len() as u32, self.held() as u32, self.pins, 0];
        let numbers = numbers.into_iter().flat_map(u32::to_le_bytes);
        let taken = self.taken.unwrap_or(UNCOUNTED).to_le_bytes();
        let fields = MAGIC.into_iter().chain(numbers).chain(taken).chain(marks.flat_map(u32::to_le_bytes));
        head.iter_mut().zip(fields).for_each(|(byte, field)| *byte = field);
        let sum = checksum(&[&head[..CHECKSUM_AT], &self.readings]).to_le_bytes();
        head[CHECKSUM_AT..].copy_from_slice(&sum);
        [&head, &self.readings[..]].concat()
    }

    /// The tin of these bytes, or what is wrong with them.
    pub fn read(bytes: &[u8]) -> Result<Tin, String> {
        let (head, readings) = checked(bytes)?;
        let fields = Fields { head };
        let (format, rule) = (fields.number(16), fields.number(20));
        if format != FORMAT {
            return Err(format!("is a tin of format {format}, and this version of mill reads format {FORMAT}"));
        }
        if rule != RULE {
            return Err(format!("is a tin of the kept rule {rule}, and this version of mill keeps by rule {RULE}"));
        }
        let tin = fields.tin(readings).ok_or("is a damaged tin: its head does not fit together")?;
        match tin.is_kept() {
            Ok(true) => Ok(tin),
            Ok(false) => Err("is a damaged tin: its readings are not those kept under its marks".to_string()),
            Err(refusal) => Err(format!("is a damaged tin: {}", refusal.sentence())),
        }
    }

    /// Whether thinning under its marks leaves the readings but for the pins.
    fn is_kept(&self) -> Result<bool, mill::Refusal> {
        let kept = mill::thin(&self.readings, &self.marks)?.len() / MILL_RECORD_BYTES;
        Ok(kept + self.pins as usize == self.held())
    }
}

/// Head and readings of a tin whose magic word and checksum are right.
fn checked(bytes: &[u8]) -> Result<(&[u8; HEAD_BYTES], &[u8]), String> {
    let Some((head, readings)) = bytes.split_first_chunk::<HEAD_BYTES>() else {
        return Err("is a damaged tin: it ends within its head".to_string());
    };
    if !head.starts_with(&MAGIC) {
        return Err("is a damaged tin: its first bytes are not those of a tin".to_string());
    }
    let fields = Fields { head };
    if checksum(&[&head[..CHECKSUM_AT], readings]) == fields.long(CHECKSUM_AT) {
        return Ok((head, readings));
    }
    Err(match fields.number(16) {
        FORMAT => "is a damaged tin: its checksum does not fit".to_string(),
        other => format!("is a damaged tin, or one of format {other}: its checksum does not fit"),
    })
}

struct Fields<'a> {
    head: &'a [u8; HEAD_BYTES],
}

impl Fields<'_> {
    fn number(&self, at: usize) -> u32 {
        u32::from_le_bytes(std::array::from_fn(|byte| self.head[at + byte]))
    }

    fn long(&self, at: usize) -> u64 {
        u64::from_le_bytes(std::array::from_fn(|byte| self.head[at + byte]))
    }

    /// The tin, if its head is the one that would be written.
    fn tin(&self, readings: &[u8]) -> Option<Tin> {
        let count = self.number(24) as usize;
        let marks: Vec<u32> = (0..MILL_MAX_MARKS).map(|place| self.number(48 + 4 * place)).take(count).collect();
        let taken = Some(self.long(40)).filter(|taken| *taken != UNCOUNTED);
        let tin = Tin { marks, taken, pins: self.number(32), readings: readings.to_vec() };
        let ascending = tin.marks.is_sorted_by(|one, next| one < next) && tin.marks.iter().all(|mark| *mark <= MILL_MAX_MARK);
        let counted = tin.taken.is_none_or(|taken| taken >= tin.held() as u64) && tin.pins as usize <= tin.held();
        let whole = readings.len() % MILL_RECORD_BYTES == 0 && tin.held() <= MILL_MAX_RECORDS;
        (ascending && counted && whole && tin.bytes().starts_with(self.head)).then_some(tin)
    }
}
