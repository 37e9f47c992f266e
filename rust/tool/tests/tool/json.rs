//! JSON read as its standard says, for what the tool prints.

use std::collections::BTreeMap;

#[derive(Clone, PartialEq, Debug)]
pub enum Value {
    Null,
    Truth(bool),
    /// As it is written.
    Number(String),
    String(String),
    List(Vec<Value>),
    Object(BTreeMap<String, Value>),
}

/// One value and a newline, and nothing else.
#[track_caller]
pub fn line(bytes: &[u8]) -> Value {
    let text = std::str::from_utf8(bytes).expect("JSON is UTF-8");
    let body = text.strip_suffix('\n').unwrap_or_else(|| panic!("no newline at the end: {text}"));
    read(body).unwrap_or_else(|| panic!("no JSON: {body}"))
}

impl Value {
    #[track_caller]
    pub fn at(&self, name: &str) -> &Value {
        match self {
            Value::Object(members) => members.get(name).unwrap_or_else(|| panic!("no {name} in {self:?}")),
            _ => panic!("{self:?} is no object"),
        }
    }

    #[track_caller]
    pub fn list(&self) -> &[Value] {
        match self {
            Value::List(values) => values,
            _ => panic!("{self:?} is no list"),
        }
    }
}

pub fn number(value: impl ToString) -> Value {
    Value::Number(value.to_string())
}

pub fn string(value: &str) -> Value {
    Value::String(value.to_string())
}

pub fn read(text: &str) -> Option<Value> {
    let mut reader = Reader { rest: text };
    let value = reader.value()?;
    reader.rest.is_empty().then_some(value)
}

struct Reader<'a> {
    rest: &'a str,
}

impl Reader<'_> {
    fn takes(&mut self, word: &str) -> Option<()> {
        self.rest = self.rest.strip_prefix(word)?;
        Some(())
    }

    fn value(&mut self) -> Option<Value> {
        match self.rest.chars().next()? {
            'n' => self.takes("null").map(|()| Value::Null),
            't' => self.takes("true").map(|()| Value::Truth(true)),
            'f' => self.takes("false").map(|()| Value::Truth(false)),
            '"' => self.string().map(Value::String),
            '[' => self.list(),
            '{' => self.object(),
            _ => self.number(),
        }
    }

    fn string(&mut self) -> Option<String> {
        self.takes("\"")?;
        let mut units: Vec<u16> = Vec::new();
        loop {
            let c = self.rest.chars().next()?;
            self.rest = &self.rest[c.len_utf8()..];
            match c {
                '"' => return String::from_utf16(&units).ok(),
                '\\' => units.push(self.escape()?),
                c if (c as u32) < 0x20 => return None,
                c => units.extend(c.encode_utf16(&mut [0; 2]).iter()),
            }
        }
    }

    fn escape(&mut self) -> Option<u16> {
        let c = self.rest.chars().next()?;
        self.rest = &self.rest[c.len_utf8()..];
        let plain = match c {
            '"' | '\\' | '/' => c,
            'n' => '\n',
            't' => '\t',
            'r' => '\r',
            'u' => {
                let digits = self.rest.get(..4).filter(|digits| digits.bytes().all(|byte| byte.is_ascii_hexdigit()))?;
                self.rest = &self.rest[4..];
                return u16::from_str_radix(digits, 16).ok();
            }
            _ => return None,
        };
        Some(plain as u16)
    }

    fn number(&mut self) -> Option<Value> {
        let end = self.rest.find(|c: char| !matches!(c, '0'..='9' | '-' | '.')).unwrap_or(self.rest.len());
        let (written, rest) = self.rest.split_at(end);
        let digits = written.strip_prefix('-').unwrap_or(written);
        let (whole, part) = digits.split_once('.').unwrap_or((digits, "0"));
        let all_digits = |part: &str| !part.is_empty() && part.bytes().all(|byte| byte.is_ascii_digit());
        let fits = all_digits(whole) && all_digits(part) && (whole == "0" || !whole.starts_with('0'));
        self.rest = rest;
        fits.then(|| Value::Number(written.to_string()))
    }

    fn list(&mut self) -> Option<Value> {
        self.takes("[")?;
        let mut values = Vec::new();
        while self.takes("]").is_none() {
            if !values.is_empty() {
                self.takes(",")?;
            }
            values.push(self.value()?);
        }
        Some(Value::List(values))
    }

    fn object(&mut self) -> Option<Value> {
        self.takes("{")?;
        let mut members = BTreeMap::new();
        while self.takes("}").is_none() {
            if !members.is_empty() {
                self.takes(",")?;
            }
            let name = self.string()?;
            self.takes(":")?;
            let value = self.value()?;
            if members.insert(name, value).is_some() {
                return None;
            }
        }
        Some(Value::Object(members))
    }
}

#[test]
fn the_reader_tells_json_from_other_text() {
    for good in ["null", "[]", "{}", "[1,-2,0.05]", "{\"a\":[true,false],\"b\":\"\\u0001\\\"x\"}", "0", "-0.5"] {
        assert!(read(good).is_some(), "{good}");
    }
    for bad in [
        "",
        "[1,]",
        "[1 2]",
        "{\"a\"}",
        "{\"a\":1,\"a\":2}",
        "01",
        "1.",
        ".5",
        "-",
        "\"\n\"",
        "\"\\x\"",
        "[1]]",
        "nul",
        "NaN",
        "inf",
    ] {
        assert!(read(bad).is_none(), "{bad}");
    }
}
