//! The marks of kept readings. Before there were tins they stood in a small file beside the readings, which is still read.
//!
//! `NAME.marks` is text: the line `mill marks`, and then each mark on a line of its own, ascending, none twice.

use crate::replace::named_beside;
use crate::trouble::{shown, Trouble};
use crate::{input, tin};
use mill::sys::{MILL_MAX_MARK, MILL_MAX_MARKS};
use std::ffi::OsStr;
use std::os::unix::ffi::OsStrExt;
use std::path::{Path, PathBuf};

const HEAD: &str = "mill marks";

pub fn beside(file: &Path) -> PathBuf {
    named_beside(file, ".marks")
}

/// The marks that stand beside a file; none where no file of marks is there.
pub fn stored(file: &Path) -> Result<Option<Vec<u32>>, Trouble> {
    let name = beside(file);
    let Some(bytes) = input::if_there(&name)? else { return Ok(None) };
    match parsed(&bytes) {
        Some(marks) => Ok(Some(marks)),
        None => Err(Trouble::of_file(&name, "holds no list of marks")),
    }
}

/// The kept readings of which a file is the list of marks or the lock, or has the name of it, if it does.
pub fn kept_of(file: &Path) -> Option<PathBuf> {
    let name = file.as_os_str().as_bytes();
    let kept = name.strip_suffix(b".lock").or_else(|| name.strip_suffix(b".marks"))?;
    let kept = PathBuf::from(OsStr::from_bytes(kept));
    // What can't be read may be a list of marks, or a tin.
    let is =
        |file: &Path, one: fn(&[u8]) -> bool| input::if_there(file).map_or(true, |bytes| bytes.is_some_and(|bytes| one(&bytes)));
    let listed = is(&beside(&kept), |bytes| parsed(bytes).is_some());
    (listed || is(&kept, tin::is_one)).then_some(kept)
}

/// Takes the list of marks away that stands beside a file, where it says what the tin in its place says.
pub fn remove(file: &Path, marks: &[u32]) {
    if matches!(stored(file), Ok(Some(stored)) if stored == marks) {
        // Where this fails the list stays, and says what is so.
        let _ = std::fs::remove_file(beside(file));
    }
}

/// The marks that a tin has, which those that are given must be, if any are.
pub fn agreed(file: &Path, own: Vec<u32>, given: &[u32]) -> Result<Vec<u32>, Trouble> {
    agreed_by(file, own, given, "")
}

/// The same of the marks that stand beside a file.
pub fn agreed_beside(file: &Path, own: Vec<u32>, given: &[u32]) -> Result<Vec<u32>, Trouble> {
    agreed_by(file, own, given, &format!(" as {} says,", shown(&beside(file))))
}

fn agreed_by(file: &Path, own: Vec<u32>, given: &[u32], who_says: &str) -> Result<Vec<u32>, Trouble> {
    if given.is_empty() || plain(given) == own {
        return Ok(own);
    }
    let [own, given] = [own, plain(given)].map(|marks| listed(&marks));
    Err(Trouble::of_file(file, format!("its marks are {own},{who_says} and not {given}")))
}

/// Ascending, none twice: what is kept is the same.
pub fn plain(marks: &[u32]) -> Vec<u32> {
    let mut plain = marks.to_vec();
    plain.sort_unstable();
    plain.dedup();
    plain
}

pub fn listed(marks: &[u32]) -> String {
    match marks {
        [] => "none".to_string(),
        marks => marks.iter().map(u32::to_string).collect::<Vec<_>>().join(" "),
    }
}

fn written(marks: &[u32]) -> String {
    let lines = marks.iter().map(|mark| format!("{mark}\n"));
    format!("{HEAD}\n{}", lines.collect::<String>())
}

/// The marks of which these bytes are the writing.
fn parsed(bytes: &[u8]) -> Option<Vec<u32>> {
    let text = std::str::from_utf8(bytes).ok()?;
    let marks: Vec<u32> = text.lines().skip(1).map(|line| line.parse().ok()).collect::<Option<_>>()?;
    let fit = marks.len() <= MILL_MAX_MARKS && marks.iter().all(|mark| *mark <= MILL_MAX_MARK);
    (fit && plain(&marks) == marks && written(&marks) == text).then_some(marks)
}
