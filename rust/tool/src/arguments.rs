//! The words behind a command: options, which may stand anywhere before `--`, and operands.

use crate::options::Opt;
use crate::similar;
use crate::trouble::Trouble;
use std::ffi::{OsStr, OsString};
use std::os::unix::ffi::{OsStrExt, OsStringExt};
use std::path::{Path, PathBuf};

#[derive(Debug, Default)]
pub struct Arguments {
    pub help: bool,
    pub json: bool,
    pub marks: Vec<u32>,
    /// The file of `-o`; `-` is standard output and counts as none.
    pub output: Option<PathBuf>,
    flags: Vec<Opt>,
    values: Vec<(Opt, OsString)>,
    operands: Vec<OsString>,
}

impl Arguments {
    /// The words of a command that takes these options, beside `--json` and `--help`.
    pub fn read(command: &str, takes: &[Opt], words: impl IntoIterator<Item = OsString>) -> Result<Arguments, Trouble> {
        let mut read = Arguments::default();
        let mut words = words.into_iter();
        let mut options = true;
        while let Some(word) = words.next() {
            let bytes = word.as_bytes();
            if !options || !looks_like_option(bytes) {
                read.operands.push(word);
            } else if bytes == b"--" {
                options = false;
            } else {
                read.option(command, takes, &word, &mut words)?;
            }
        }
        Ok(read)
    }

    fn option(
        &mut self,
        command: &str,
        takes: &[Opt],
        word: &OsStr,
        words: &mut impl Iterator<Item = OsString>,
    ) -> Result<(), Trouble> {
        let (name, value) = split(word);
        let all = || takes.iter().chain(&[Opt::Json, Opt::Help]).map(|opt| opt.form());
        let unknown = || {
            let typed = word.to_string_lossy();
            let words: Vec<String> = all().map(|form| format!("--{}", form.word)).collect();
            let hint = similar::hint(&typed, words.iter().map(String::as_str));
            usage(command, &format!("no option '{}'{hint}", typed.escape_debug()))
        };
        let form = all().find(|form| form.is(&name)).ok_or_else(unknown)?;
        if form.value.is_none() && value.is_some() {
            return Err(unknown());
        }
        let value = match form.value {
            Some(_) => value.or_else(|| words.next()),
            None => None,
        };
        match (form.opt, value) {
            (Opt::Help, _) => self.help = true,
            (Opt::Json, _) => self.json = true,
            (Opt::Mark, value) => self.marks.push(mark(command, value)?),
            (Opt::Output, value) => {
                let Some(file) = value.filter(|file| !file.is_empty()) else {
                    return Err(usage(command, "-o wants the name of a file"));
                };
                self.output = (file != "-").then(|| PathBuf::from(file));
            }
            (opt, Some(value)) => self.values.push((opt, value)),
            (opt, None) if form.value.is_none() => self.flags.push(opt),
            (_, None) => return Err(usage(command, &format!("--{} wants a value", form.word))),
        }
        Ok(())
    }

    pub fn has(&self, opt: Opt) -> bool {
        self.flags.contains(&opt)
    }

    /// The value of an option, the last where it is given twice.
    pub fn value(&self, opt: Opt) -> Option<&OsStr> {
        self.values.iter().rev().find(|(given, _)| *given == opt).map(|(_, value)| value.as_os_str())
    }

    pub fn first(&self) -> Option<&OsStr> {
        self.operands.first().map(OsString::as_os_str)
    }

    /// All operands: among them are the files that the command reads.
    pub fn all(&self) -> impl Iterator<Item = &Path> {
        self.operands.iter().map(Path::new)
    }

    pub fn count(&self) -> usize {
        self.operands.len()
    }

    /// The operands, which must be as many as there are names. What a name stands for is said where one is missing.
    pub fn operands<const N: usize>(&self, command: &str, names: [&str; N]) -> Result<[&OsStr; N], Trouble> {
        self.at_least(command, names)?;
        if let Some(more) = self.operands.get(N) {
            return Err(usage(command, &format!("'{}' is one operand too many", more.to_string_lossy().escape_debug())));
        }
        self.one_standard_input(command)?;
        Ok(self.first_of())
    }

    /// The same, where one or more files follow; `file` is the name of one.
    pub fn operands_then_files<const N: usize>(
        &self,
        command: &str,
        names: [&str; N],
        file: &str,
    ) -> Result<([&OsStr; N], Vec<&OsStr>), Trouble> {
        self.at_least(command, names)?;
        let rest: Vec<&OsStr> = self.operands.iter().skip(N).map(OsString::as_os_str).collect();
        if rest.is_empty() {
            return Err(usage(command, &format!("{file} is missing")));
        }
        self.one_standard_input(command)?;
        Ok((self.first_of(), rest))
    }

    fn first_of<const N: usize>(&self) -> [&OsStr; N] {
        let mut found = [OsStr::new(""); N];
        for (place, operand) in found.iter_mut().zip(&self.operands) {
            *place = operand;
        }
        found
    }

    fn at_least<const N: usize>(&self, command: &str, names: [&str; N]) -> Result<(), Trouble> {
        match names.get(self.operands.len()) {
            Some(missing) => Err(usage(command, &format!("{missing} is missing"))),
            None => Ok(()),
        }
    }

    fn one_standard_input(&self, command: &str) -> Result<(), Trouble> {
        match self.operands.iter().filter(|operand| *operand == "-").count() {
            0 | 1 => Ok(()),
            _ => Err(usage(command, "'-', standard input, can be read only once")),
        }
    }
}

impl crate::options::Form {
    /// Whether the word is this option's, with its dashes.
    fn is(&self, name: &[u8]) -> bool {
        match name.strip_prefix(b"--") {
            Some(word) => word == self.word.as_bytes(),
            None => self.letter.is_some_and(|letter| name == format!("-{letter}").as_bytes()),
        }
    }
}

/// `-5` is a number, and `-` standard input.
fn looks_like_option(word: &[u8]) -> bool {
    matches!(word, [b'-', next, ..] if !next.is_ascii_digit())
}

/// `--name=value` and `-nvalue` in two.
fn split(word: &OsStr) -> (Vec<u8>, Option<OsString>) {
    let bytes = word.as_bytes();
    if bytes.starts_with(b"--") {
        return match bytes.iter().position(|byte| *byte == b'=') {
            Some(at) => (bytes[..at].to_vec(), Some(OsString::from_vec(bytes[at + 1..].to_vec()))),
            None => (bytes.to_vec(), None),
        };
    }
    match bytes {
        [dash, name, _, ..] => (vec![*dash, *name], Some(OsString::from_vec(bytes[2..].to_vec()))),
        _ => (bytes.to_vec(), None),
    }
}

pub fn usage(command: &str, why: &str) -> Trouble {
    Trouble::Usage(format!("{command}: {why}; see 'mill {command} --help'"))
}

/// A whole number of any size. One that 64 bits don't hold is the nearest that they hold: either is off every limit.
pub fn whole(command: &str, name: &str, word: &OsStr) -> Result<i64, Trouble> {
    let wrong = || usage(command, &format!("{name} '{}' is not a whole number", word.to_string_lossy().escape_debug()));
    let text = word.to_str().ok_or_else(wrong)?;
    decimal(text).ok_or_else(wrong)
}

/// The digits of a whole number, with or without a minus.
pub fn decimal(text: &str) -> Option<i64> {
    let digits = text.strip_prefix('-').unwrap_or(text);
    if digits.is_empty() || !digits.bytes().all(|byte| byte.is_ascii_digit()) {
        return None;
    }
    let limit = if text.starts_with('-') { i64::MIN } else { i64::MAX };
    Some(text.parse().unwrap_or(limit))
}

fn mark(command: &str, word: Option<OsString>) -> Result<u32, Trouble> {
    let Some(word) = word else { return Err(usage(command, "--mark wants a time")) };
    match whole(command, "mark", &word)? {
        below if below < 0 => Err(usage(command, &format!("mark {below} is below 0"))),
        time => Ok(u32::try_from(time).unwrap_or(u32::MAX)),
    }
}

/// `A` or `B`.
pub fn curve(command: &str, word: &OsStr) -> Result<mill::Curve, Trouble> {
    match word.as_bytes() {
        b"A" => Ok(mill::Curve::A),
        b"B" => Ok(mill::Curve::B),
        _ => Err(usage(command, &format!("curve '{}' is neither A nor B", word.to_string_lossy().escape_debug()))),
    }
}
