//! The bad lines of a table or of a sheet.

use crate::trouble::{shown, Trouble};
use std::path::Path;

/// The most lines that are named; of more only the count is told.
pub const NAMED: usize = 100;

/// The most characters that are quoted of what a file holds.
const QUOTED: usize = 40;

#[derive(Debug, Default)]
pub struct BadLines {
    /// Each with its number, counted from 1, and what is wrong with it.
    named: Vec<(usize, String)>,
    more: usize,
}

impl BadLines {
    pub fn one(number: usize, why: String) -> BadLines {
        BadLines { named: vec![(number, why)], more: 0 }
    }

    pub fn push(&mut self, number: usize, why: String) {
        match self.named.len() < NAMED {
            true => self.named.push((number, why)),
            false => self.more += 1,
        }
    }

    pub fn is_empty(&self) -> bool {
        self.named.is_empty()
    }

    /// A line about each that is named, and one about the others.
    pub fn of(self, file: &Path) -> Trouble {
        let file = shown(file);
        let mut lines: Vec<String> = self.named.iter().map(|(number, why)| format!("{file}: line {number}: {why}")).collect();
        if self.more > 0 {
            lines.push(format!("{file}: {} more lines are bad", self.more));
        }
        Trouble::Files(lines)
    }
}

/// In quotes, on one line, and cut where it is long.
pub fn quoted(text: &str) -> String {
    let cut = text.char_indices().nth(QUOTED).map(|(at, _)| at);
    match cut.and_then(|at| text.get(..at)) {
        Some(head) => format!("'{}..'", head.escape_debug()),
        None => format!("'{}'", text.escape_debug()),
    }
}
