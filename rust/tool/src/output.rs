//! What a command answers, on standard output or in a file.

use crate::arguments::Arguments;
use crate::marks;
use crate::options::Opt;
use crate::replace;
use crate::trouble::{reason, shown, Trouble};
use std::fs;
use std::io::{self, IsTerminal, Write};
use std::os::unix::fs::MetadataExt;
use std::path::Path;

#[derive(Debug)]
pub struct Answer {
    body: Body,
    /// Lines for standard error, without the `mill: ` before them.
    notes: Vec<String>,
    pub status: u8,
}

#[derive(Debug)]
enum Body {
    Text(String),
    /// Bytes that are no text.
    Bytes(Vec<u8>),
}

/// The status of `--exit-code` where nothing is found, met or fits.
const NOTHING: u8 = 3;

impl Answer {
    pub fn text(text: String) -> Answer {
        Answer { body: Body::Text(text), notes: Vec::new(), status: 0 }
    }

    pub fn bytes(bytes: Vec<u8>) -> Answer {
        Answer { body: Body::Bytes(bytes), notes: Vec::new(), status: 0 }
    }

    /// The same with these lines for standard error, each whole.
    pub fn noting(mut self, notes: impl IntoIterator<Item = String>) -> Answer {
        self.notes.extend(notes);
        self
    }

    /// The same; where there is something or not, which `--exit-code` tells.
    pub fn of_something(mut self, arguments: &Arguments, something: bool) -> Answer {
        if !something && arguments.has(Opt::ExitCode) {
            self.status = NOTHING;
        }
        self
    }

    pub fn with_status(mut self, status: u8) -> Answer {
        self.status = status;
        self
    }

    /// The notes to standard error, and the answer to standard output.
    pub fn say(&self) -> Result<(), Trouble> {
        tell(&self.notes);
        let mut out = io::stdout().lock();
        if matches!(self.body, Body::Bytes(_)) && out.is_terminal() {
            let why = "is a terminal, and the answer is no text: name a file with -o";
            return Err(Trouble::Files(vec![format!("standard output: {why}")]));
        }
        written(out.write_all(self.in_bytes()).and_then(|()| out.flush()))
    }

    fn in_bytes(&self) -> &[u8] {
        match &self.body {
            Body::Text(text) => text.as_bytes(),
            Body::Bytes(bytes) => bytes,
        }
    }
}

/// What became of writing to standard output.
pub fn written(written: io::Result<()>) -> Result<(), Trouble> {
    match written {
        Ok(()) => Ok(()),
        Err(error) if error.kind() == io::ErrorKind::BrokenPipe => Err(Trouble::Unread),
        Err(error) => Err(Trouble::Files(vec![format!("standard output: {}", reason(&error))])),
    }
}

/// Lines to standard error. Where it can't be written the status alone tells.
pub fn tell(lines: &[String]) {
    let text: String = lines.iter().map(|line| format!("{line}\n")).collect();
    let _ = io::stderr().write_all(text.as_bytes());
}

/// Where a command makes a file: with `-o` the file is written and the figures are the answer, else the file itself is.
pub fn made(arguments: &Arguments, file: Answer, figures: impl FnOnce() -> String) -> Result<Answer, Trouble> {
    let Some(name) = &arguments.output else { return Ok(file) };
    save(arguments, name, file.in_bytes())?;
    Ok(Answer::text(figures()).noting(file.notes))
}

/// Writes the file of `-o`, if it may be.
pub fn save(arguments: &Arguments, name: &Path, bytes: &[u8]) -> Result<(), Trouble> {
    may_write(arguments, name)?;
    replace::output(name, bytes, arguments.has(Opt::Force))
}

/// Whether the file of `-o` may be written: one that is not there, or with `--force` another; never one that the command reads, nor
/// one that `add` keeps with marks beside it.
pub fn may_write(arguments: &Arguments, name: &Path) -> Result<(), Trouble> {
    // Only a plain file can be one that `add` keeps, and only that has a name to look beside: a link may lead to a pipe.
    match fs::metadata(name) {
        Ok(there) if !there.is_file() => return Ok(()),
        Ok(there) => {
            let same = |file: &Path| fs::metadata(file).is_ok_and(|read| (read.dev(), read.ino()) == (there.dev(), there.ino()));
            if arguments.all().chain([Path::new("/dev/stdin")]).any(same) {
                return Err(Trouble::of_file(name, "is a file that this command reads, and is not written over"));
            }
        }
        Err(_) => (),
    }
    not_of_add(name, &replace::real(name)?)?;
    match name.exists() && !arguments.has(Opt::Force) {
        true => Err(replace::there_already(name)),
        false => Ok(()),
    }
}

/// Refuses the files that `add` keeps beside its own: readings with marks beside them, those marks, and a lock.
pub fn not_of_add(name: &Path, real: &Path) -> Result<(), Trouble> {
    let refused = |what: String| Err(Trouble::of_file(name, format!("{what}: only 'mill add' writes it")));
    let marks = marks::beside(real);
    if marks.symlink_metadata().is_ok() {
        return refused(format!("holds kept readings with marks, those of {}", shown(&marks)));
    }
    if replace::is_new(real) {
        return refused("is a name for what is not yet in its place".to_string());
    }
    match marks::kept_of(real) {
        Some(kept) => refused(format!("belongs to the kept readings of {}", shown(&kept))),
        None => Ok(()),
    }
}
