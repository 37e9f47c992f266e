//! What to do about a refusal: where reading a text stops, and what to write instead. The library refuses; the hint is the tool's.

use crate::json;
use crate::similar::nearest;
use crate::text::{self, Stop};

/// As much of a text as is shown beside the place where reading stops.
const SHOWN: usize = 60;

#[derive(Debug)]
pub struct Hint {
    words: String,
    /// The text and the byte of it, where the hint is of one.
    text: Option<(Vec<u8>, usize)>,
}

impl Hint {
    pub fn of_words(words: impl Into<String>) -> Hint {
        Hint { words: words.into(), text: None }
    }

    /// Of a text that has no reading.
    pub fn of_text(text: &[u8]) -> Option<Hint> {
        let Stop { at, why } = text::read(text).err()?;
        let words = match repaired(text) {
            Some(better) => format!("{why}: write {better}"),
            None => why,
        };
        Some(Hint { words, text: Some((text.to_vec(), at)) })
    }

    /// Its lines; `file` begins that of words alone.
    pub fn lines(&self, file: &str) -> Vec<String> {
        match &self.text {
            None => vec![format!("{file}{}", self.words)],
            Some((text, at)) => {
                let (line, before) = window(text, *at);
                vec![format!("  {line}"), format!("  {}^ {}", " ".repeat(before), self.words)]
            }
        }
    }

    pub fn put_in(&self, object: &mut json::Object) {
        if let Some((_, at)) = &self.text {
            object.number("byte", at);
        }
        object.string("hint", &self.words);
    }
}

/// The text on a line, cut where it is long, and how many characters stand before the byte.
fn window(text: &[u8], at: usize) -> (String, usize) {
    let from = at.saturating_sub(SHOWN / 2);
    let to = text.len().min(from + SHOWN);
    let shown = |part: &[u8]| String::from_utf8_lossy(part).chars().flat_map(char::escape_debug).collect::<String>();
    let [head, tail] = [(from > 0), (to < text.len())].map(|cut| if cut { ".." } else { "" });
    let before = format!("{head}{}", shown(&text[from..at]));
    (format!("{before}{}{tail}", shown(&text[at..to])), before.chars().count())
}

/// A text near this one that has a reading: what people type is mended step by step.
fn repaired(text: &[u8]) -> Option<String> {
    let reads = |text: &String| text::read(text.as_bytes()).is_ok();
    let mut better = std::str::from_utf8(text).ok()?.to_string();
    for step in [signs, in_small_and_large, near_names, closed] {
        better = step(&better);
        if reads(&better) {
            return Some(better);
        }
    }
    let [below, above] = [0, 1].map(|more| whole_numbers(&better, more));
    match (reads(&below), below == above) {
        (false, _) => None,
        (true, true) => Some(below),
        (true, false) => Some(format!("{below} or {above}")),
    }
}

/// Without blanks, and with the signs of the language.
fn signs(text: &str) -> String {
    let plain: String = text.chars().filter(|c| !c.is_whitespace()).collect();
    let signs = [
        ("\u{2265}", ">="),
        ("\u{2264}", "<="),
        ("\u{2212}", "-"),
        ("=>", ">="),
        ("=<", "<="),
        ("==", "="),
        ("&&", "&"),
        ("||", "|"),
    ];
    signs.iter().fold(plain, |text, (typed, sign)| text.replace(typed, sign))
}

/// The words of a text, each given to `change`; all else stays.
fn words(text: &str, change: impl Fn(&str, Option<char>) -> String) -> String {
    let (mut better, mut rest) = (String::new(), text);
    while let Some(first) = rest.chars().next() {
        let letters = rest.find(|c: char| !c.is_ascii_alphabetic()).unwrap_or(rest.len());
        let (word, behind) = rest.split_at(if letters == 0 { first.len_utf8() } else { letters });
        better += &if letters == 0 { word.to_string() } else { change(word, behind.chars().next()) };
        rest = behind;
    }
    better
}

/// Names are small, curves and operators large.
fn in_small_and_large(text: &str) -> String {
    words(text, |word, behind| {
        let small = word.to_ascii_lowercase();
        match (small.as_str(), behind) {
            ("a" | "b" | "t" | "p", _) | ("f" | "g" | "x" | "u" | "w", Some('(')) => small.to_ascii_uppercase(),
            ("v", _) => small,
            (name, _) if text::names().any(|known| known == name) => small,
            _ => word.to_string(),
        }
    })
}

fn near_names(text: &str) -> String {
    words(text, |word, _| match word.len() > 2 && !text::names().any(|name| name == word) {
        true => nearest(word, text::names()).unwrap_or(word).to_string(),
        false => word.to_string(),
    })
}

/// Numbers without leading zeros, without a plus, and without a point: the whole number below one with a point, and `more`.
fn whole_numbers(text: &str, more: u64) -> String {
    let (mut better, mut rest) = (String::new(), text);
    while let Some(first) = rest.chars().next() {
        let length = rest.find(|c: char| !c.is_ascii_digit() && c != '.').unwrap_or(rest.len());
        let (number, behind) = rest.split_at(length.max(first.len_utf8()));
        let (whole, part) = number.split_once('.').unwrap_or((number, ""));
        match whole.parse::<u64>() {
            Ok(whole) => better += &(whole + if part.bytes().all(|digit| digit == b'0') { 0 } else { more }).to_string(),
            Err(_) if number != "+" => better += number,
            Err(_) => (),
        }
        rest = behind;
    }
    better
}

/// With the brackets closed that are open at the end.
fn closed(text: &str) -> String {
    let open = text.matches('(').count().saturating_sub(text.matches(')').count());
    format!("{text}{}", ")".repeat(open.min(16)))
}
