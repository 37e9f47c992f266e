//! Files and standard input, read with bounds on what is held in memory and on how long a stream may be.

use crate::tin;
use crate::trouble::Trouble;
use mill::sys::{MILL_MAX_TEXT, MILL_RECORD_BYTES};
use std::ffi::OsStr;
use std::fs::File;
use std::io::{self, Read};
use std::os::unix::ffi::OsStrExt;
use std::path::Path;

/// The most bytes of a piece, of a CSV file, of a summary, of an order sheet or of a stream.
pub const LONGEST: u64 = 1 << 26;

/// The bytes of a recording or of a tin. Of one that is too long there are as many as get the same refusal: 1 where the length is
/// no multiple of 16, else 2. The length of a file is looked up; a stream is read to its end, up to the longest.
pub fn recording(file: &Path) -> Result<Vec<u8>, Trouble> {
    let most = (tin::MOST_BYTES + MILL_RECORD_BYTES) as u64;
    let (mut bytes, more) = from(file, |source, size| {
        let mut bytes = Vec::new();
        source.take(most).read_to_end(&mut bytes)?;
        let more = match size {
            Some(size) => size.saturating_sub(bytes.len() as u64),
            None => io::copy(&mut source.take(LONGEST + 1), &mut io::sink())?,
        };
        Ok((bytes, more))
    })?;
    if more > LONGEST && !is_file(file) {
        return Err(too_long(file));
    }
    bytes.extend((0..more % MILL_RECORD_BYTES as u64).map(|_| 0));
    Ok(bytes)
}

/// All bytes of a file, which may be long.
pub fn whole(file: &Path) -> Result<Vec<u8>, Trouble> {
    let bytes = from(file, |source, size| {
        if size.is_some_and(|size| size > LONGEST) {
            return Ok(None);
        }
        let mut bytes = Vec::new();
        source.take(LONGEST + 1).read_to_end(&mut bytes)?;
        Ok(Some(bytes).filter(|bytes| bytes.len() as u64 <= LONGEST))
    })?;
    bytes.ok_or_else(|| too_long(file))
}

pub fn too_long(file: &Path) -> Trouble {
    Trouble::of_file(file, format!("is longer than {LONGEST} bytes"))
}

/// All bytes of a file, none where there is no such file.
pub fn if_there(file: &Path) -> Result<Option<Vec<u8>>, Trouble> {
    match file.try_exists() {
        Ok(false) => Ok(None),
        _ => whole(file).map(Some),
    }
}

/// The text of a question: the operand itself, or for `-` what standard input holds, a final newline dropped. Of one that is too
/// long no more is read than tells so.
pub fn text(operand: &OsStr) -> Result<Vec<u8>, Trouble> {
    if operand != "-" {
        return Ok(operand.as_bytes().to_vec());
    }
    from(Path::new("-"), |source, _| {
        let mut text = Vec::new();
        source.take(MILL_MAX_TEXT as u64 + 2).read_to_end(&mut text)?;
        if text.len() <= MILL_MAX_TEXT + 1 && text.last() == Some(&b'\n') {
            text.pop();
        }
        Ok(text)
    })
}

/// Without the byte order mark that some programs put before a text.
pub fn without_mark(bytes: &[u8]) -> &[u8] {
    bytes.strip_prefix(b"\xef\xbb\xbf").unwrap_or(bytes)
}

fn is_file(file: &Path) -> bool {
    file != Path::new("-") && file.is_file()
}

/// What is read of a file, whose size is known where it is a plain one, or of standard input.
fn from<R>(file: &Path, read: impl FnOnce(&mut dyn Read, Option<u64>) -> io::Result<R>) -> Result<R, Trouble> {
    let found = match file == Path::new("-") {
        true => read(&mut io::stdin().lock(), None),
        false => File::open(file).and_then(|mut opened| {
            let there = opened.metadata()?;
            read(&mut opened, there.is_file().then(|| there.len()))
        }),
    };
    found.map_err(|error| Trouble::io(file, error))
}
