//! A recording as a file holds it: bare readings, readings with their marks beside them, or a tin.

use crate::marks;
use crate::replace::real;
use crate::tin::{self, Tin};
use crate::trouble::{shown, Trouble};
use crate::{input, summary};
use std::path::Path;

pub struct Source {
    pub readings: Vec<u8>,
    pub kept: Kept,
}

/// What is known of how the readings were kept.
pub enum Kept {
    /// Nothing: they may be all, or some.
    Unknown,
    /// They are those kept under these marks, in a tin or with the marks beside them.
    Under { marks: Vec<u32>, tin: Option<Counts> },
    /// Marks stand beside them that are not theirs, for this reason.
    Doubtful(String),
}

/// What the head of a tin counts.
#[derive(Clone, Copy)]
pub struct Counts {
    pub taken: Option<u64>,
    pub pins: u32,
}

/// What a file holds. A tin is checked; where it does not fit, a line says so.
pub fn read(file: &Path) -> Result<Source, Trouble> {
    Opened::new(file, input::recording)?.source()
}

/// The same of a file that may be longer than a recording: a piece of one, or all of a long run.
pub fn long(file: &Path) -> Result<Source, Trouble> {
    Opened::new(file, input::whole)?.source()
}

/// The same for a question, of which an empty file is no recording: it may be what is left of a tin.
pub fn asked(file: &Path) -> Result<Source, Trouble> {
    Opened::new(file, input::recording)?.asked()
}

/// The bytes of a file, and the list of marks that stands beside it.
pub struct Opened<'a> {
    file: &'a Path,
    bytes: Vec<u8>,
    marks: Result<Option<Vec<u32>>, Trouble>,
}

impl Opened<'_> {
    /// The list of marks is looked for first. Where another run makes a tin of readings with such a list, it puts the tin in their
    /// place and then takes the list away: who finds no list reads the tin, and never these readings as bare ones.
    pub fn new(file: &Path, read: fn(&Path) -> Result<Vec<u8>, Trouble>) -> Result<Opened<'_>, Trouble> {
        let marks = match file == Path::new("-") {
            true => Ok(None),
            false => real(file).map_or(Ok(None), |real| marks::stored(&real)),
        };
        Ok(Opened { file, bytes: read(file)?, marks })
    }

    pub fn asked(self) -> Result<Source, Trouble> {
        let file = self.file;
        let source = self.source()?;
        match (source.readings.is_empty(), &source.kept) {
            (true, Kept::Unknown | Kept::Doubtful(_) | Kept::Under { tin: None, .. }) => {
                Err(Trouble::of_file(file, "is empty: neither a recording nor a tin"))
            }
            _ => Ok(source),
        }
    }

    fn source(self) -> Result<Source, Trouble> {
        if tin::is_one(&self.bytes) {
            let Tin { marks, taken, pins, readings } = Tin::read(&self.bytes).map_err(|why| Trouble::of_file(self.file, why))?;
            return Ok(Source { readings, kept: Kept::Under { marks, tin: Some(Counts { taken, pins }) } });
        }
        if summary::is_one(&self.bytes) {
            return Err(Trouble::of_file(self.file, "is a summary, and no recording"));
        }
        let kept = self.kept();
        Ok(Source { readings: self.bytes, kept })
    }

    /// What the list of marks says of bare readings.
    fn kept(&self) -> Kept {
        match &self.marks {
            Ok(None) => Kept::Unknown,
            Err(_) => {
                let real = real(self.file).unwrap_or_else(|_| self.file.to_path_buf());
                Kept::Doubtful(format!("{} holds no list of marks", shown(&marks::beside(&real))))
            }
            Ok(Some(marks)) => match mill::thin(&self.bytes, marks) {
                Ok(kept) if kept == self.bytes => Kept::Under { marks: marks.clone(), tin: None },
                _ => Kept::Doubtful("its readings are not those kept under its marks".to_string()),
            },
        }
    }
}

impl Source {
    /// The marks to read it with: its own, which those that are given must be, if any are; else those that are given.
    pub fn marks(&self, file: &Path, given: &[u32]) -> Result<Vec<u32>, Trouble> {
        match &self.kept {
            Kept::Under { marks, tin: Some(_) } => marks::agreed(file, marks.clone(), given),
            Kept::Under { marks, tin: None } => marks::agreed_beside(file, marks.clone(), given),
            Kept::Unknown => Ok(given.to_vec()),
            Kept::Doubtful(_) => match marks::stored(&real(file)?)? {
                Some(stored) => marks::agreed_beside(file, stored, given),
                None => Ok(given.to_vec()),
            },
        }
    }

    pub fn counts(&self) -> Option<Counts> {
        match self.kept {
            Kept::Under { tin, .. } => tin,
            _ => None,
        }
    }
}
