//! The grammar of questions, for two uses of the tool's own: to show where reading a text stops, and to name what of a text kept
//! readings may not answer. Whether a text has a reading the library alone decides.

use mill::sys::{MILL_AXIS_HIGH, MILL_AXIS_LOW, MILL_MAX_PIGMENT};
use std::ops::Range;

/// Where reading stops, and what is wrong there.
#[derive(Clone, PartialEq, Eq, Debug)]
pub struct Stop {
    pub at: usize,
    pub why: String,
}

/// What stands behind a name.
#[derive(Clone, Copy)]
enum Behind {
    Nothing,
    Curve,
    CurveAndTime,
    Pigment,
}

/// The listed questions.
const LISTED: [(&str, Behind); 13] = [
    ("high", Behind::Curve),
    ("low", Behind::Curve),
    ("lowafter", Behind::CurveAndTime),
    ("capafter", Behind::CurveAndTime),
    ("peaks", Behind::Curve),
    ("dips", Behind::Curve),
    ("cross", Behind::Nothing),
    ("crossup", Behind::Nothing),
    ("dose", Behind::Pigment),
    ("ampl", Behind::Curve),
    ("gaps", Behind::Curve),
    ("steps", Behind::Curve),
    ("lag", Behind::Nothing),
];

/// All words of the language.
pub fn names() -> impl Iterator<Item = &'static str> {
    LISTED.iter().map(|(name, _)| *name).chain(["fall", "rise"])
}

/// What a text is made of.
#[derive(Default, Debug)]
pub struct Parts {
    /// The k of `lowafter(c,k)`, `capafter(c,k)` and `T>k`, each once, in their order.
    pub after: Vec<i64>,
    /// The outermost parts F(..), G(..), X(..), U(..) and W(..).
    pub temporal: Vec<Range<usize>>,
    /// Where the first listed name stands.
    listed: Option<usize>,
}

/// The parts of a text, or where reading it stops.
pub fn read(text: &[u8]) -> Result<Parts, Stop> {
    let mut reader = Reader { text, at: 0, inside: 0, parts: Parts::default() };
    reader.or()?;
    if reader.at < text.len() {
        return Err(reader.left_over());
    }
    match (reader.parts.listed, reader.parts.temporal.first()) {
        (Some(at), Some(_)) => Err(Stop { at, why: "a name like this does not go with F, G, X, U or W".to_string() }),
        _ => Ok(reader.parts),
    }
}

struct Reader<'a> {
    text: &'a [u8],
    at: usize,
    /// How many of F, G, X, U and W are open.
    inside: usize,
    parts: Parts,
}

type Read = Result<(), Stop>;

impl Reader<'_> {
    fn stops<T>(&self, why: &str) -> Result<T, Stop> {
        Err(Stop { at: self.at, why: self.of_byte().unwrap_or(why).to_string() })
    }

    /// What is wrong with a byte that no text has.
    fn of_byte(&self) -> Option<&'static str> {
        match self.text.get(self.at)? {
            b' ' | b'\t' => Some("a text has no blanks"),
            b'\r' => Some("a text has no carriage return"),
            b'\n' => Some("a text is one line"),
            _ => None,
        }
    }

    fn left_over(&self) -> Stop {
        let why = match self.text.get(self.at) {
            Some(b')') => "this bracket closes none",
            Some(b'.') => "numbers are whole",
            Some(b',') => "a comma stands only within lowafter, capafter, U and W",
            _ => "one of | and & is wanted here, or the end",
        };
        Stop { at: self.at, why: self.of_byte().unwrap_or(why).to_string() }
    }

    fn next(&self) -> Option<u8> {
        self.text.get(self.at).copied()
    }

    fn takes(&mut self, word: &str) -> bool {
        let is = self.text[self.at..].starts_with(word.as_bytes());
        self.at += if is { word.len() } else { 0 };
        is
    }

    fn wants(&mut self, word: &str) -> Read {
        match (self.takes(word), self.next()) {
            (true, _) => Ok(()),
            (false, None) => self.stops(&format!("the text ends where {word} is wanted")),
            (false, Some(b'.')) => self.stops("numbers are whole"),
            (false, _) => self.stops(&format!("{word} is wanted here")),
        }
    }

    fn or(&mut self) -> Read {
        self.and()?;
        while self.takes("|") {
            self.and()?;
        }
        Ok(())
    }

    fn and(&mut self) -> Read {
        self.not()?;
        while self.takes("&") {
            self.not()?;
        }
        Ok(())
    }

    fn not(&mut self) -> Read {
        while self.takes("!") {}
        match self.next() {
            Some(b'(') => self.bracketed(),
            Some(b'F' | b'G' | b'X' | b'U' | b'W') => self.temporal(),
            Some(b'A' | b'B' | b'T') => self.comparison(),
            Some(b'P') => self.added(),
            Some(b'a'..=b'z') => self.name(),
            None => self.stops("the text ends where a question is wanted"),
            Some(_) => self.stops("a question is wanted here"),
        }
    }

    fn bracketed(&mut self) -> Read {
        self.wants("(")?;
        self.or()?;
        self.wants(")")
    }

    fn temporal(&mut self) -> Read {
        let from = self.at;
        let two = matches!(self.next(), Some(b'U' | b'W'));
        self.at += 1;
        self.inside += 1;
        self.wants("(")?;
        self.or()?;
        if two {
            self.wants(",")?;
            self.or()?;
        }
        self.wants(")")?;
        self.inside -= 1;
        if self.inside == 0 {
            self.parts.temporal.push(from..self.at);
        }
        Ok(())
    }

    fn comparison(&mut self) -> Read {
        let field = self.next();
        self.at += 1;
        let Some(relation) = [">=", "<=", ">", "<", "="].into_iter().find(|relation| self.takes(relation)) else {
            return self.stops("one of >= <= > < = is wanted here");
        };
        if self.takes("v") || field == Some(b'A') && self.takes("B") {
            return Ok(());
        }
        let number = self.number("v or a number is wanted here")?;
        if field == Some(b'T') && relation == ">" {
            self.after(number);
        }
        Ok(())
    }

    fn after(&mut self, time: i64) {
        if !self.parts.after.contains(&time) {
            self.parts.after.push(time);
        }
    }

    fn number(&mut self, wanted: &str) -> Result<i64, Stop> {
        let from = self.at;
        let minus = self.takes("-");
        let digits = self.digits();
        let written = &self.text[from..self.at];
        let Ok(written) = std::str::from_utf8(written) else { return self.stops(wanted) };
        let leading = digits > 1 && written.trim_start_matches('-').starts_with('0') || written == "-0";
        match written.parse() {
            Ok(number) if (MILL_AXIS_LOW..=MILL_AXIS_HIGH).contains(&number) && !leading => Ok(number),
            _ if digits == 0 => self.stops(wanted),
            _ if leading => Err(Stop { at: from, why: "a number has no leading zero, and 0 no minus".to_string() }),
            _ => Err(Stop { at: from + usize::from(minus), why: format!("numbers go from {MILL_AXIS_LOW} to {MILL_AXIS_HIGH}") }),
        }
    }

    fn digits(&mut self) -> usize {
        let from = self.at;
        while self.next().is_some_and(|byte| byte.is_ascii_digit()) {
            self.at += 1;
        }
        self.at - from
    }

    fn added(&mut self) -> Read {
        self.at += 1;
        self.wants("=")?;
        self.pigment()
    }

    fn pigment(&mut self) -> Read {
        let from = self.at;
        self.digits();
        let written = std::str::from_utf8(&self.text[from..self.at]).unwrap_or_default();
        match written.parse::<u32>() {
            Ok(1..=MILL_MAX_PIGMENT_NUMBER) if !written.starts_with('0') => Ok(()),
            _ => Err(Stop { at: from, why: format!("a pigment is 1 to {MILL_MAX_PIGMENT}") }),
        }
    }

    fn curve(&mut self) -> Read {
        match self.takes("A") || self.takes("B") {
            true => Ok(()),
            false => self.stops("a curve is A or B"),
        }
    }

    fn name(&mut self) -> Read {
        let from = self.at;
        while self.next().is_some_and(|byte| byte.is_ascii_lowercase()) {
            self.at += 1;
        }
        let word = std::str::from_utf8(&self.text[from..self.at]).unwrap_or_default();
        if ["fall", "rise"].contains(&word) {
            return self.behind(Behind::Curve);
        }
        let Some((_, behind)) = LISTED.iter().find(|(name, _)| *name == word) else {
            return Err(Stop { at: from, why: format!("there is no name '{word}'") });
        };
        self.parts.listed.get_or_insert(from);
        self.behind(*behind)
    }

    fn behind(&mut self, behind: Behind) -> Read {
        if matches!(behind, Behind::Nothing) {
            return Ok(());
        }
        self.wants("(")?;
        match behind {
            Behind::Nothing => (),
            Behind::Pigment => self.pigment()?,
            Behind::Curve => self.curve()?,
            Behind::CurveAndTime => {
                self.curve()?;
                self.wants(",")?;
                let time = self.number("a time is wanted here")?;
                self.after(time);
            }
        }
        self.wants(")")
    }
}

const MILL_MAX_PIGMENT_NUMBER: u32 = MILL_MAX_PIGMENT as u32;
