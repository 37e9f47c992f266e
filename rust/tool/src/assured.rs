//! Whether an answer from kept readings is the one that the recording gave. The library says so; the reason, where it does not, is
//! the tool's own.

use crate::arguments::Arguments;
use crate::marks::listed;
use crate::options::Opt;
use crate::source::{Kept, Source};
use crate::trouble::{not_assured, Trouble};
use crate::{json, text};
use mill::sys::{MILL_MAX_MARK, MILL_MAX_MARKS};
use std::path::Path;

#[derive(Clone, Debug)]
pub enum Assurance {
    /// Bare readings: nothing tells whether they are all.
    Unknown,
    Assured,
    /// No promise, for this reason. The answer may still be the same.
    Not(String),
}

/// Why nothing is known of bare readings.
const BARE: &str = "it is no tin, and nothing tells which readings it lacks";

impl Assurance {
    /// Of the answer that the readings of a file give to a text that they answer.
    pub fn of(source: &Source, text: &[u8]) -> Assurance {
        match &source.kept {
            Kept::Unknown => Assurance::Unknown,
            Kept::Doubtful(why) => Assurance::Not(why.clone()),
            Kept::Under { marks, .. } => match mill::assured(text, marks) {
                Ok(true) => Assurance::Assured,
                Ok(false) => Assurance::Not(reason(text, marks)),
                Err(refusal) => Assurance::Not(refusal.sentence().to_string()),
            },
        }
    }

    /// With `--assured` only what is assured is answered.
    pub fn allows(&self, arguments: &Arguments, file: &Path) -> Result<(), Trouble> {
        let reason = match self {
            Assurance::Not(reason) => reason,
            Assurance::Unknown => BARE,
            Assurance::Assured => return Ok(()),
        };
        match arguments.has(Opt::Assured) {
            true => Err(Trouble::NotAssured { file: file.to_path_buf(), reason: reason.to_string() }),
            false => Ok(()),
        }
    }

    /// The line for standard error.
    pub fn note(&self, file: &Path) -> Option<String> {
        match self {
            Assurance::Not(reason) => Some(not_assured(file, reason)),
            _ => None,
        }
    }

    pub fn put_in(&self, object: &mut json::Object) {
        object.raw("assured", self.word(["true", "false", "null"]));
    }

    /// The word for assured, for not assured, and for what is not known.
    pub fn word(&self, [assured, not, unknown]: [&'static str; 3]) -> &'static str {
        match self {
            Assurance::Assured => assured,
            Assurance::Not(_) => not,
            Assurance::Unknown => unknown,
        }
    }
}

/// Why a text is not assured under these marks.
pub fn reason(text: &[u8], marks: &[u32]) -> String {
    let Ok(parts) = text::read(text) else { return "it may depend on readings that were not kept".to_string() };
    let no_marks: Vec<i64> =
        parts.after.iter().copied().filter(|time| !marks.iter().any(|mark| i64::from(*mark) == *time)).collect();
    if !no_marks.is_empty() && (parts.temporal.is_empty() || would_do(text, &parts.after)) {
        return not_marked(&no_marks, marks);
    }
    let alone = |part: &&std::ops::Range<usize>| mill::assured(&text[(*part).clone()], marks) == Ok(true);
    match parts.temporal.iter().find(|part| !alone(part)) {
        Some(part) => format!("{} may depend on readings that were not kept", cut(&text[part.clone()])),
        None => "its parts together may depend on readings that were not kept: ask them one by one".to_string(),
    }
}

/// Whether the text would be assured if its after-times were the marks.
fn would_do(text: &[u8], after: &[i64]) -> bool {
    let marks: Option<Vec<u32>> =
        after.iter().map(|time| u32::try_from(*time).ok().filter(|time| *time <= MILL_MAX_MARK)).collect();
    marks.is_some_and(|marks| marks.len() <= MILL_MAX_MARKS && mill::assured(text, &marks) == Ok(true))
}

fn not_marked(times: &[i64], marks: &[u32]) -> String {
    let own = match marks {
        [] => "it has no marks".to_string(),
        marks => format!("its marks are {}", listed(marks)),
    };
    match times {
        [time] => format!("{time} is no mark of it; {own}"),
        times => {
            let times: Vec<String> = times.iter().map(i64::to_string).collect();
            format!("{} are no marks of it; {own}", times.join(" and "))
        }
    }
}

/// A part of a text, cut where it is long.
fn cut(part: &[u8]) -> String {
    const SHOWN: usize = 24;
    let part = String::from_utf8_lossy(part);
    match part.len() > SHOWN {
        true => format!("{}..)", &part[..SHOWN - 3]),
        false => part.into_owned(),
    }
}
