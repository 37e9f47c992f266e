//! A tin that is worked on: it is locked, read, and put in its place anew.
//!
//! The new tin goes beside the file, to disk, and in its place, so that the file is at every moment what it was or what it becomes.
//! Readings with a list of marks beside them, as files were before, become a tin in the same way; then the list is taken away.

use crate::arguments::usage;
use crate::lock::locked;
use crate::replace::{is_new, new_beside, real, replace};
use crate::tin::{self, Tin};
use crate::trouble::{shown, Trouble};
use crate::{input, marks, summary};
use mill::Thinning;
use std::fs::File;
use std::path::{Path, PathBuf};

/// Whether the operand that a command calls `name` can be the name of a tin.
pub fn can_be_kept(command: &str, name: &str, kept: &Path) -> Result<(), Trouble> {
    if kept == Path::new("-") || kept == Path::new("") {
        return Err(usage(command, &format!("{name} must be a file")));
    }
    match is_new(kept) {
        true => Err(usage(command, &format!("{name} must not end with .mill-new"))),
        false => Ok(()),
    }
}

pub struct Store {
    file: PathBuf,
    _lock: File,
}

impl Store {
    /// Waits for the lock of the file.
    pub fn open(kept: &Path) -> Result<Store, Trouble> {
        let file = real(kept)?;
        if let Some(of) = marks::kept_of(&file) {
            return Err(Trouble::of_file(kept, format!("belongs to the kept readings of {}", shown(&of))));
        }
        let lock = locked(&file)?;
        Ok(Store { file, _lock: lock })
    }

    /// The tin that is there, or one that is begun with these marks. Marks that are given must be its own.
    pub fn tin(&self, given: &[u32]) -> Result<Tin, Trouble> {
        match input::if_there(&self.file)? {
            Some(bytes) if tin::is_one(&bytes) => {
                let tin = Tin::read(&bytes).map_err(|why| Trouble::of_file(&self.file, why))?;
                marks::agreed(&self.file, tin.marks.clone(), given)?;
                Ok(tin)
            }
            Some(bytes) if summary::is_one(&bytes) => Err(Trouble::of_file(&self.file, "is a summary, and no tin")),
            readings => self.before(readings.unwrap_or_default(), given),
        }
    }

    /// A tin of what was kept before there were tins: readings with a list of marks beside them; a list of marks alone, which a run
    /// that was stopped left; or nothing.
    fn before(&self, readings: Vec<u8>, given: &[u32]) -> Result<Tin, Trouble> {
        let stored = marks::stored(&self.file)?;
        if stored.is_none() && !readings.is_empty() {
            let marks = shown(&marks::beside(&self.file));
            let why = format!("holds readings, and {marks}, which would tell their marks, is not there");
            return Err(Trouble::of_file(&self.file, why));
        }
        let marks = match stored {
            Some(stored) => marks::agreed_beside(&self.file, stored, given)?,
            None => given.to_vec(),
        };
        let begun = Thinning::start(&marks).and_then(|_| Thinning::start(&marks::plain(&marks)));
        let begun = begun.map_err(|refusal| Trouble::refused(&self.file, refusal))?;
        let taken = readings.is_empty().then_some(0);
        match mill::thin(&readings, begun.marks()) {
            Ok(kept) if kept == readings => Ok(Tin { marks: begun.marks().to_vec(), taken, pins: 0, readings }),
            Ok(_) => Err(Trouble::of_file(&self.file, "holds readings that are not those kept under its marks")),
            Err(refusal) => Err(Trouble::of_file(&self.file, format!("holds no readings: {}", refusal.sentence()))),
        }
    }

    /// Puts the tin in its place.
    pub fn put(&self, tin: &Tin) -> Result<(), Trouble> {
        replace(&self.file, &new_beside(&self.file), &tin.bytes())?;
        marks::remove(&self.file, &tin.marks);
        Ok(())
    }
}
