//! JSON as text: objects whose values are numbers, strings, truth values, null or JSON already written.

use std::fmt::{Display, Write};

pub struct Object {
    text: String,
}

impl Object {
    pub fn new() -> Object {
        Object { text: "{".to_string() }
    }

    pub fn raw(&mut self, name: &str, value: &str) {
        if self.text.len() > 1 {
            self.text.push(',');
        }
        self.text.push_str(&string(name));
        self.text.push(':');
        self.text.push_str(value);
    }

    /// A whole number, or a finite one.
    pub fn number(&mut self, name: &str, value: impl Display) {
        self.raw(name, &value.to_string());
    }

    pub fn string(&mut self, name: &str, value: &str) {
        self.raw(name, &string(value));
    }

    pub fn truth(&mut self, name: &str, value: bool) {
        self.raw(name, if value { "true" } else { "false" });
    }

    pub fn text(mut self) -> String {
        self.text.push('}');
        self.text
    }

    pub fn line(self) -> String {
        self.text() + "\n"
    }
}

/// A string with its quotes.
pub fn string(value: &str) -> String {
    let mut text = String::from("\"");
    for c in value.chars() {
        match c {
            '"' => text.push_str("\\\""),
            '\\' => text.push_str("\\\\"),
            c if c.is_control() => {
                let mut units = [0; 2];
                for unit in c.encode_utf16(&mut units) {
                    let _ = write!(text, "\\u{unit:04x}");
                }
            }
            c => text.push(c),
        }
    }
    text.push('"');
    text
}

pub fn list(values: impl IntoIterator<Item = String>) -> String {
    let values: Vec<String> = values.into_iter().collect();
    format!("[{}]", values.join(","))
}
