//! A folder of its own for each test, and the tool run in it.

use super::tin::Tin;
use crate::support::r1::r1_bytes;
use crate::support::r2::r2_bytes;
use crate::support::r3::r3_bytes;
use std::ffi::OsStr;
use std::io::Write;
use std::path::{Path, PathBuf};
use std::process::{Child, Command, Stdio};
use std::sync::atomic::{AtomicUsize, Ordering};

pub const MILL: &str = env!("CARGO_BIN_EXE_mill");

/// Removed with all that it holds when the test ends.
pub struct Folder {
    pub path: PathBuf,
}

impl Folder {
    /// Empty.
    pub fn new(name: &str) -> Folder {
        Folder::under(Path::new(env!("CARGO_TARGET_TMPDIR")), name)
    }

    /// Empty, in this folder. No two have the same name, whatever the tests call them.
    pub fn under(above: &Path, name: &str) -> Folder {
        static MADE: AtomicUsize = AtomicUsize::new(0);
        let made = MADE.fetch_add(1, Ordering::Relaxed);
        let path = above.join(format!("mill-{name}-{}-{made}", std::process::id()));
        let _ = std::fs::remove_dir_all(&path);
        std::fs::create_dir_all(&path).expect("a folder for the test");
        Folder { path }
    }

    /// With R1 to R3, a recording that is refused with 1, one that is refused with 3 at 2, and an empty one.
    pub fn with_recordings(name: &str) -> Folder {
        let folder = Folder::new(name);
        folder.put("r1.rec", &r1_bytes());
        folder.put("r2.rec", &r2_bytes());
        folder.put("r3.rec", &r3_bytes());
        folder.put("short.rec", &r1_bytes()[..17]);
        let mut bad = r1_bytes();
        bad[2 * 16 + 12] = 3;
        folder.put("bad.rec", &bad);
        folder.put("empty.rec", b"");
        folder
    }

    pub fn at(&self, name: &str) -> PathBuf {
        self.path.join(name)
    }

    pub fn put(&self, name: &str, bytes: &[u8]) {
        std::fs::write(self.at(name), bytes).expect("a file for the test");
    }

    pub fn read(&self, name: &str) -> Option<Vec<u8>> {
        std::fs::read(self.at(name)).ok()
    }

    /// The readings of the tin that a file is.
    #[track_caller]
    pub fn kept(&self, name: &str) -> Option<Vec<u8>> {
        self.tin(name).map(|tin| tin.readings)
    }

    /// The tin that a file is, none where there is no file.
    #[track_caller]
    pub fn tin(&self, name: &str) -> Option<Tin> {
        self.read(name).map(|bytes| Tin::read(&bytes).unwrap_or_else(|| panic!("{name} is no tin")))
    }

    /// The names of all that is there, ascending.
    pub fn names(&self) -> Vec<String> {
        let entries = std::fs::read_dir(&self.path).expect("the folder of the test");
        let mut names: Vec<String> = entries.map(|entry| entry.unwrap().file_name().to_string_lossy().into_owned()).collect();
        names.sort();
        names
    }

    pub fn command<W: AsRef<OsStr>>(&self, program: &Path, words: &[W]) -> Command {
        let mut command = Command::new(program);
        command.args(words).current_dir(&self.path);
        command.stdin(Stdio::null()).stdout(Stdio::piped()).stderr(Stdio::piped());
        command
    }

    pub fn mill<W: AsRef<OsStr>>(&self, words: &[W]) -> Ran {
        Ran::of(self.command(Path::new(MILL), words).spawn().expect("the tool starts"), words)
    }

    /// With these bytes on standard input.
    pub fn mill_reads<W: AsRef<OsStr>>(&self, words: &[W], bytes: &[u8]) -> Ran {
        let mut child = self.command(Path::new(MILL), words).stdin(Stdio::piped()).spawn().expect("the tool starts");
        // The tool may end without reading all.
        let _ = child.stdin.take().expect("a pipe").write_all(bytes);
        Ran::of(child, words)
    }

    /// A C program of the tests, compiled here.
    pub fn compiled(&self, name: &str) -> PathBuf {
        let source = Path::new(env!("CARGO_MANIFEST_DIR")).join("tests").join(format!("{name}.c"));
        let program = self.at(name);
        let done = Command::new("gcc")
            .args(["-std=gnu11", "-O1", "-Wall", "-Wextra", "-Werror", "-o"])
            .arg(&program)
            .arg(source)
            .status();
        assert!(done.expect("gcc starts").success(), "{name}.c is compiled");
        program
    }
}

impl Drop for Folder {
    fn drop(&mut self) {
        let _ = std::fs::remove_dir_all(&self.path);
    }
}

/// What a run left.
#[derive(Debug)]
pub struct Ran {
    pub words: String,
    pub status: Option<i32>,
    pub out: Vec<u8>,
    pub err: String,
}

impl Ran {
    pub fn of<W: AsRef<OsStr>>(child: Child, words: &[W]) -> Ran {
        let output = child.wait_with_output().expect("the run ends");
        let words: Vec<String> = words.iter().map(|word| word.as_ref().to_string_lossy().into_owned()).collect();
        let err = String::from_utf8_lossy(&output.stderr).into_owned();
        Ran { words: words.join(" "), status: output.status.code(), out: output.stdout, err }
    }

    pub fn text(&self) -> &str {
        std::str::from_utf8(&self.out).unwrap_or("no text")
    }

    /// Status 0, nothing on standard error, and this on standard output.
    #[track_caller]
    pub fn answers(&self, text: &str) {
        assert_eq!((self.status, self.text(), self.err.as_str()), (Some(0), text, ""), "mill {}", self.words);
    }

    /// Status 0, nothing on standard error, and these bytes on standard output.
    #[track_caller]
    pub fn gives(&self, bytes: &[u8]) {
        assert_eq!((self.status, self.err.as_str()), (Some(0), ""), "mill {}", self.words);
        assert!(self.out == bytes, "mill {}: {} bytes are not the {} expected", self.words, self.out.len(), bytes.len());
    }

    /// Status 1, nothing on standard output, and one line with file, number, place and a sentence; with 6 also where reading stops.
    #[track_caller]
    pub fn refused(&self, file: &str, number: u32, place: u32) {
        let lines = self.refused_in_lines(file, number, place);
        assert_eq!(lines.len(), if number == 6 { 2 } else { 0 }, "mill {}: {}", self.words, self.err);
        assert!(number != 6 || lines[1].trim_start().starts_with("mill:   "), "mill {}: {}", self.words, self.err);
    }

    /// The same with this hint below it.
    #[track_caller]
    pub fn refused_with(&self, file: &str, number: u32, hint: &[&str]) {
        let lines = self.refused_in_lines(file, number, 0);
        let hint: Vec<String> = hint.iter().map(|line| format!("mill: {line}")).collect();
        assert_eq!(lines, hint, "mill {}", self.words);
    }

    /// The lines below that with the refusal.
    #[track_caller]
    fn refused_in_lines(&self, file: &str, number: u32, place: u32) -> Vec<&str> {
        assert_eq!((self.status, self.text()), (Some(1), ""), "mill {}: {}", self.words, self.err);
        let file = if file.is_empty() { String::new() } else { format!("{file}: ") };
        let head = format!("mill: {file}refused {number} {place}: ");
        let mut lines = self.err.lines();
        let sentence = lines.next().and_then(|line| line.strip_prefix(&head));
        assert!(self.err.ends_with('\n') && sentence.is_some_and(|words| words.len() > 10), "mill {}: {}", self.words, self.err);
        lines.collect()
    }

    /// Status 0, this on standard output, and this one line on standard error.
    #[track_caller]
    pub fn answers_noting(&self, text: &str, line: &str) {
        let said = (self.status, self.text(), self.err.as_str());
        assert_eq!(said, (Some(0), text, format!("mill: {line}\n").as_str()), "mill {}", self.words);
    }

    /// This status, nothing on standard error, and this on standard output.
    #[track_caller]
    pub fn with_status(&self, status: i32, text: &str) {
        assert_eq!((self.status, self.text(), self.err.as_str()), (Some(status), text, ""), "mill {}", self.words);
    }

    /// This status, nothing on standard output, and one line that begins so on standard error.
    #[track_caller]
    pub fn with_lines(&self, status: i32, begin: &str) {
        assert_eq!(
            (self.status, self.text(), self.err.lines().count()),
            (Some(status), "", 1),
            "mill {}: {}",
            self.words,
            self.err
        );
        assert!(self.err.starts_with(begin), "mill {}: {}", self.words, self.err);
    }

    /// Status 2, nothing on standard output, and this one line on standard error.
    #[track_caller]
    pub fn troubles(&self, line: &str) {
        let said = (self.status, self.text(), self.err.as_str());
        assert_eq!(said, (Some(2), "", format!("mill: {line}\n").as_str()), "mill {}", self.words);
    }

    /// Status 2, nothing on standard output, and one line with this in it.
    #[track_caller]
    pub fn troubles_with(&self, part: &str) {
        assert_eq!((self.status, self.text()), (Some(2), ""), "mill {}: {}", self.words, self.err);
        assert!(self.err.starts_with("mill: ") && self.err.lines().count() == 1, "mill {}: {}", self.words, self.err);
        assert!(self.err.contains(part), "mill {}: {} lacks {part}", self.words, self.err);
    }
}
