//! How a table writes its readings, as the options of `import` say it.

use crate::arguments::{usage, whole, Arguments};
use crate::options::Opt;
use crate::readings::COLUMNS;
use crate::trouble::Trouble;

pub struct Layout {
    pub delimiter: char,
    /// How the values are written: none where they are plain whole numbers.
    pub scale: Option<Scale>,
    /// The decimal sign of times in seconds.
    pub decimal: char,
    pub time: Time,
    /// What the table calls each column; without names of its own, as `COLUMNS` has them.
    pub names: [String; 6],
    /// Whether names were given: then other columns are let be.
    pub named: bool,
    /// Whether a column for the pigment was named, and must be there.
    pub pigment: bool,
    /// Slopes from the values: over so many units from one reading to the next.
    pub slopes: Option<i64>,
}

/// Values with decimals.
#[derive(Clone, Copy)]
pub struct Scale {
    pub decimal: char,
    /// How many decimals a value has at most: it goes in times 10 to this power.
    pub decimals: u32,
}

#[derive(Clone, Copy, PartialEq, Eq)]
pub enum Time {
    Tenths,
    Seconds,
    Clock,
}

impl Default for Layout {
    fn default() -> Layout {
        let names = COLUMNS.map(str::to_string);
        let (named, pigment, scale, slopes) = (false, false, None, None);
        Layout { delimiter: ',', scale, decimal: '.', time: Time::Tenths, names, named, pigment, slopes }
    }
}

impl Layout {
    pub fn of(arguments: &Arguments) -> Result<Layout, Trouble> {
        let mut layout = Layout::default();
        let word = |opt: Opt| arguments.value(opt).map(|value| value.to_string_lossy().into_owned());
        if let Some(word) = word(Opt::Delimiter) {
            layout.delimiter = delimiter(&word)?;
        }
        let decimal = word(Opt::Decimal).map(|word| decimal(&word)).transpose()?;
        let decimals = word(Opt::Scale).map(|word| decimals(&word)).transpose()?;
        layout.decimal = decimal.unwrap_or('.');
        if decimal.is_some() || decimals.is_some() {
            layout.scale = Some(Scale { decimal: layout.decimal, decimals: decimals.unwrap_or(0) });
        }
        if let Some(word) = word(Opt::Time) {
            layout.time = time(&word)?;
        }
        if let Some(word) = word(Opt::Columns) {
            layout.name(&word)?;
        }
        if let Some(value) = arguments.value(Opt::Slopes) {
            let dead = whole("import", "DEAD", value)?;
            if dead < 0 {
                return Err(usage("import", "DEAD is below 0"));
            }
            layout.slopes = Some(dead);
        }
        Ok(layout)
    }

    /// Takes names for columns: `column=NAME,..`.
    fn name(&mut self, map: &str) -> Result<(), Trouble> {
        let mut given = [false; 6];
        for pair in map.split(',') {
            let place =
                pair.split_once('=').and_then(|(column, name)| Some((COLUMNS.iter().position(|own| *own == column)?, name)));
            match place {
                Some((at, name)) if !given[at] && !name.trim().is_empty() => {
                    self.names[at] = name.trim().to_string();
                    given[at] = true;
                }
                _ => {
                    let columns = COLUMNS.join(" ");
                    return Err(usage(
                        "import",
                        &format!("'{}' is not column=NAME, each of {columns} once", pair.escape_debug()),
                    ));
                }
            }
        }
        (self.named, self.pigment) = (true, given[5]);
        Ok(())
    }
}

fn delimiter(word: &str) -> Result<char, Trouble> {
    let mut letters = word.chars();
    match (word, letters.next(), letters.next()) {
        ("tab", ..) => Ok('\t'),
        (_, Some(sign), None) if !sign.is_alphanumeric() && !['"', '-', '\n', '\r'].contains(&sign) => Ok(sign),
        _ => Err(usage("import", "--delimiter wants one character that is no letter, digit, quote or minus, or tab")),
    }
}

fn decimal(word: &str) -> Result<char, Trouble> {
    match word {
        "." => Ok('.'),
        "," => Ok(','),
        _ => Err(usage("import", "--decimal wants . or ,")),
    }
}

/// The power of ten that a scale is.
fn decimals(word: &str) -> Result<u32, Trouble> {
    let zeros = word.strip_prefix('1').filter(|zeros| zeros.len() <= 9 && zeros.bytes().all(|byte| byte == b'0'));
    zeros.map(|zeros| zeros.len() as u32).ok_or_else(|| usage("import", "--scale wants 1, 10, 100 .. or 1000000000"))
}

fn time(word: &str) -> Result<Time, Trouble> {
    match word {
        "tenths" => Ok(Time::Tenths),
        "seconds" => Ok(Time::Seconds),
        "clock" => Ok(Time::Clock),
        _ => Err(usage("import", "--time wants tenths, seconds or clock")),
    }
}

impl Scale {
    /// The number that a field writes, times the scale, exactly; none where it is no such number or has more decimals.
    pub fn number(self, field: &str) -> Option<i64> {
        let (minus, digits) = match field.strip_prefix('-') {
            Some(digits) => (true, digits),
            None => (false, field),
        };
        let (whole, part) = digits.split_once(self.decimal).unwrap_or((digits, ""));
        let all_digits = |digits: &str| digits.bytes().all(|byte| byte.is_ascii_digit());
        let part = part.trim_end_matches('0');
        let fits = !whole.is_empty() && !digits.ends_with(self.decimal) && part.len() <= self.decimals as usize;
        if !fits || !all_digits(whole) || !all_digits(part) {
            return None;
        }
        let zeros = "0".repeat(self.decimals as usize - part.len());
        let number: i64 = format!("{whole}{part}{zeros}").parse().unwrap_or(i64::MAX);
        Some(if minus { -number } else { number })
    }
}
