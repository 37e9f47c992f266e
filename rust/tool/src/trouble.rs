//! Why a command gives no answer, and the lines and the exit status that say so.

use crate::hints::Hint;
use crate::json;
use mill::Refusal;
use std::io;
use std::path::{Path, PathBuf};

#[derive(Debug)]
pub enum Trouble {
    /// The command line is not understood.
    Usage(String),
    /// Files, each line naming one: they can't be read or written, or hold something else.
    Files(Vec<String>),
    /// The library refused.
    Refused(Refused),
    /// An answer that is not assured is not wanted.
    NotAssured { file: PathBuf, reason: String },
    /// Nobody reads the answer any more.
    Unread,
}

#[derive(Debug)]
pub struct Refused {
    pub refusal: Refusal,
    /// The file that it was asked about, and its line where one is to blame.
    pub file: Option<PathBuf>,
    pub line: Option<usize>,
    pub hint: Option<Hint>,
}

impl Trouble {
    /// One line about one file.
    pub fn of_file(file: &Path, why: impl std::fmt::Display) -> Trouble {
        Trouble::Files(vec![format!("{}: {why}", shown(file))])
    }

    pub fn io(file: &Path, error: io::Error) -> Trouble {
        Trouble::of_file(file, reason(&error))
    }

    /// The refusal of a call about this file.
    pub fn refused(file: &Path, refusal: Refusal) -> Trouble {
        Trouble::Refused(Refused { refusal, file: Some(file.to_path_buf()), line: None, hint: None })
    }

    /// The refusal of a call about no file.
    pub fn refused_alone(refusal: Refusal) -> Trouble {
        Trouble::Refused(Refused { refusal, file: None, line: None, hint: None })
    }

    /// The same refusal, and what to do about it.
    pub fn hinting(mut self, hint: Option<Hint>) -> Trouble {
        if let Trouble::Refused(refused) = &mut self {
            refused.hint = hint;
        }
        self
    }

    /// Where the library refuses to read the text, the hint is of it.
    pub fn of_text(self, text: &[u8]) -> Trouble {
        match &self {
            Trouble::Refused(Refused { refusal: Refusal::NoReading, .. }) => self.hinting(Hint::of_text(text)),
            _ => self,
        }
    }

    pub fn status(&self) -> u8 {
        match self {
            Trouble::Unread => 0,
            Trouble::Refused(_) | Trouble::NotAssured { .. } => 1,
            Trouble::Usage(_) | Trouble::Files(_) => 2,
        }
    }

    /// What goes to standard error, a line each.
    pub fn lines(&self) -> Vec<String> {
        match self {
            Trouble::Unread => Vec::new(),
            Trouble::Usage(why) => vec![format!("mill: {why}")],
            Trouble::Files(lines) => lines.iter().map(|line| format!("mill: {line}")).collect(),
            Trouble::NotAssured { file, reason } => vec![not_assured(file, reason)],
            Trouble::Refused(refused) => refused.lines(),
        }
    }

    /// What it says of a file, on one line and without the file's name.
    pub fn about(&self, file: &Path) -> String {
        let line = self.lines().join(" ");
        line.strip_prefix(&format!("mill: {}: ", shown(file))).unwrap_or(&line).to_string()
    }

    /// What is told as JSON; other troubles have lines on standard error only.
    pub fn json(&self) -> Option<String> {
        match self {
            Trouble::Refused(refused) => Some(refused.json()),
            Trouble::NotAssured { file, reason } => {
                let mut object = json::Object::new();
                object.truth("assured", false);
                object.string("reason", reason);
                object.string("file", &plain(file));
                Some(object.line())
            }
            _ => None,
        }
    }
}

/// The line that says so.
pub fn not_assured(file: &Path, reason: &str) -> String {
    format!("mill: {}: not assured: {reason}", shown(file))
}

impl Refused {
    fn lines(&self) -> Vec<String> {
        let file = self.file.as_ref().map(|file| format!("{}: ", shown(file))).unwrap_or_default();
        let line = self.line.map(|line| format!("line {line}: ")).unwrap_or_default();
        let mut lines = vec![format!("mill: {file}{line}{}", words(self.refusal))];
        lines.extend(self.hint.iter().flat_map(|hint| hint.lines(&file)).map(|line| format!("mill: {line}")));
        lines
    }

    fn json(&self) -> String {
        let mut object = json::Object::new();
        object.number("refused", self.refusal.number());
        object.number("place", self.refusal.place());
        object.string("sentence", self.refusal.sentence());
        if let Some(file) = &self.file {
            object.string("file", &plain(file));
        }
        if let Some(line) = self.line {
            object.number("line", line);
        }
        if let Some(hint) = &self.hint {
            hint.put_in(&mut object);
        }
        object.line()
    }
}

/// A refusal by its number, its place and its sentence.
pub fn words(refusal: Refusal) -> String {
    format!("refused {} {}: {}", refusal.number(), refusal.place(), refusal.sentence())
}

/// The words of an error, without its number.
pub fn reason(error: &io::Error) -> String {
    let words = error.to_string();
    match words.find(" (os error") {
        Some(end) => words[..end].to_string(),
        None => words,
    }
}

/// A file's name on one line: `-` is standard input, and control characters are written out.
pub fn shown(file: &Path) -> String {
    if file == Path::new("") {
        return "''".to_string();
    }
    let mut line = String::new();
    for c in plain(file).chars() {
        match c.is_control() {
            true => line.extend(c.escape_default()),
            false => line.push(c),
        }
    }
    line
}

/// A file's name as it is, for JSON and for files.
pub fn plain(file: &Path) -> String {
    match file == Path::new("-") {
        true => "standard input".to_string(),
        false => file.to_string_lossy().into_owned(),
    }
}
