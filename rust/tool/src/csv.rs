//! Readings as a table: a line that names the columns, then a line for each reading.

use crate::arguments::decimal;
use crate::bad_lines::{quoted, BadLines};
use crate::input::without_mark;
use crate::layout::{Layout, Scale, Time};
use crate::readings::{fields, COLUMNS, SLOPES};
use mill::sys::{MILL_MAX_PIGMENT, MILL_MAX_TIME, MILL_MAX_VALUE, MILL_MIN_VALUE};
use mill::{Reading, Slope};

pub fn written(readings: &[Reading]) -> String {
    let mut text = COLUMNS.join(",") + "\n";
    for reading in readings {
        text.push_str(&fields(reading).join(","));
        text.push('\n');
    }
    text
}

/// The readings of a table, and the names of the columns that were let be.
pub struct Table {
    pub readings: Vec<Reading>,
    pub let_be: Vec<String>,
}

/// As many columns as are looked at in a table that has others too.
const MOST_COLUMNS: usize = 1000;

/// A table, or its bad lines.
pub fn parsed(bytes: &[u8], layout: &Layout) -> Result<Table, BadLines> {
    let bytes = without_mark(bytes);
    if bytes.is_empty() {
        return Err(BadLines::one(1, format!("no line names the columns {}", layout.names.join(","))));
    }
    let mut lines = bytes.strip_suffix(b"\n").unwrap_or(bytes).split(|byte| *byte == b'\n');
    let most = if layout.named { MOST_COLUMNS } else { COLUMNS.len() + 1 };
    let header = split(lines.next().unwrap_or_default(), layout, most);
    let columns = match header.and_then(|names| columns(&names, layout)) {
        Ok(columns) => columns,
        Err(why) => return Err(BadLines::one(1, why)),
    };
    let (mut readings, mut bad) = (Vec::<Reading>::new(), BadLines::default());
    for (number, line) in (2..).zip(lines) {
        let read =
            split(line, layout, columns.count.min(most)).and_then(|fields| reading(&columns, &fields, layout, readings.last()));
        match read.and_then(|reading| after(readings.last(), reading)) {
            Ok(reading) => readings.push(reading),
            Err(why) => bad.push(number, why),
        }
    }
    match bad.is_empty() {
        true => Ok(Table { readings, let_be: columns.let_be }),
        false => Err(bad),
    }
}

/// A reading on a line of its own, its fields in the order of the columns; the pigment may be left out.
pub fn line(line: &[u8]) -> Result<Reading, String> {
    let layout = Layout::default();
    let fields = split(line, &layout, COLUMNS.len())?;
    let count = if fields.count == COLUMNS.len() - 1 { fields.count } else { COLUMNS.len() };
    let places = std::array::from_fn(|at| (at < count).then_some(at));
    reading(&Columns { places, count, let_be: Vec::new() }, &fields, &layout, None)
}

/// The fields of a line, without blanks round them, and without the quotes that a field may have.
struct Fields<'a> {
    /// As many as are asked for: the next tell nothing more.
    first: Vec<&'a str>,
    count: usize,
}

fn split<'a>(line: &'a [u8], layout: &Layout, most: usize) -> Result<Fields<'a>, String> {
    let line = line.strip_suffix(b"\r").unwrap_or(line);
    let Ok(mut rest) = std::str::from_utf8(line) else { return Err("is no text".to_string()) };
    let mut fields = Fields { first: Vec::new(), count: 0 };
    loop {
        let end = field_end(rest, layout.delimiter);
        if fields.first.len() < most {
            fields.first.push(bare(&rest[..end]));
        }
        fields.count += 1;
        match rest[end..].strip_prefix(layout.delimiter) {
            Some(behind) => rest = behind,
            None => return Ok(fields),
        }
    }
}

/// Where a field ends: at the next delimiter, that behind its quotes if it begins with one.
fn field_end(rest: &str, delimiter: char) -> usize {
    let field = rest.trim_start_matches(|c: char| c.is_whitespace() && c != delimiter);
    let quotes = field.strip_prefix('"').and_then(|quoted| quoted.find('"'));
    let from = quotes.map_or(0, |close| rest.len() - field.len() + close + 2);
    rest[from..].find(delimiter).map_or(rest.len(), |at| from + at)
}

fn bare(field: &str) -> &str {
    let field = field.trim();
    field.strip_prefix('"').and_then(|field| field.strip_suffix('"')).unwrap_or(field)
}

/// The place of each column in a line, how many columns there are, and the names of those that are not looked at.
struct Columns {
    places: [Option<usize>; 6],
    count: usize,
    let_be: Vec<String>,
}

fn is_slope(column: usize) -> bool {
    ["slope_a", "slope_b"].contains(&COLUMNS[column])
}

fn columns(names: &Fields, layout: &Layout) -> Result<Columns, String> {
    let (mut places, mut let_be) = ([None; 6], Vec::new());
    for (at, name) in names.first.iter().enumerate() {
        match layout.names.iter().position(|column| column == name) {
            Some(column) if places[column].is_some() => return Err(format!("the column {name} is there twice")),
            Some(column) => {
                places[column] = Some(at);
                if is_slope(column) && layout.slopes.is_some() {
                    let_be.push(name.to_string());
                }
            }
            None if layout.named => let_be.push(name.to_string()),
            None => return Err(format!("{} is none of the columns {}", quoted(name), layout.names.join(","))),
        }
    }
    let wanted = |at: usize| match COLUMNS[at] {
        "pigment" => layout.pigment,
        _ => !is_slope(at) || layout.slopes.is_none(),
    };
    match (0..6).find(|at| places[*at].is_none() && wanted(*at)) {
        Some(missing) => Err(format!("the column {} is missing", layout.names[missing])),
        None => Ok(Columns { places, count: names.count, let_be }),
    }
}

fn reading(columns: &Columns, fields: &Fields, layout: &Layout, before: Option<&Reading>) -> Result<Reading, String> {
    if fields.count != columns.count {
        return Err(format!("has {} fields, and there are {} columns", fields.count, columns.count));
    }
    let found = columns.places.map(|place| place.and_then(|at| fields.first.get(at).copied()));
    let [time, a, b, slope_a, slope_b, pigment] = found.map(|field| field.unwrap_or_default());
    let (a, b) = (value("a", a, layout)?, value("b", b, layout)?);
    let (slope_a, slope_b) = match layout.slopes {
        None => (slope("slope_a", slope_a)?, slope("slope_b", slope_b)?),
        Some(dead) => (between(before.map(|before| before.a), a, dead), between(before.map(|before| before.b), b, dead)),
    };
    let pigment = if found[5].is_some() { pigment } else { "0" };
    Ok(Reading {
        time: time_of(time, layout, before.map(|before| before.time))?,
        a,
        b,
        slope_a,
        slope_b,
        pigment: number("pigment", pigment, 0, MILL_MAX_PIGMENT.into())?,
    })
}

/// A whole number between these ends, both included, which the type must hold.
fn number<N: TryFrom<i64>>(name: &str, field: &str, low: i64, high: i64) -> Result<N, String> {
    let found = decimal(field).filter(|number| (low..=high).contains(number)).and_then(|number| N::try_from(number).ok());
    found.ok_or_else(|| format!("{name} {} is not a whole number from {low} to {high}", quoted(field)))
}

fn value(name: &str, field: &str, layout: &Layout) -> Result<i32, String> {
    let (low, high) = (MILL_MIN_VALUE.into(), MILL_MAX_VALUE.into());
    let Some(scale) = layout.scale else { return number(name, field, low, high) };
    let found = scale.number(field).filter(|number| (low..=high).contains(number)).and_then(|number| i32::try_from(number).ok());
    let Scale { decimal, decimals } = scale;
    let times = 10_u32.pow(decimals);
    found.ok_or_else(|| {
        format!(
            "{name} {} times {times} is not a whole number from {low} to {high}; the decimal sign is {decimal}",
            quoted(field)
        )
    })
}

fn slope(name: &str, field: &str) -> Result<Slope, String> {
    let named = SLOPES.iter().find(|(word, slope)| *word == field || slope.to_byte().to_string() == field);
    named.map(|(_, slope)| *slope).ok_or_else(|| format!("{name} {} is none of falling, flat and rising", quoted(field)))
}

/// The slope from one value to the next, flat where they differ by no more than `dead`, and at the first reading.
fn between(before: Option<i32>, value: i32, dead: i64) -> Slope {
    let step = before.map_or(0, |before| i64::from(value) - i64::from(before));
    match step {
        step if step > dead => Slope::Rising,
        step if step < -dead => Slope::Falling,
        _ => Slope::Flat,
    }
}

fn time_of(field: &str, layout: &Layout, before: Option<u32>) -> Result<u32, String> {
    let in_seconds = Scale { decimal: layout.decimal, decimals: 1 };
    let (found, form) = match layout.time {
        Time::Tenths => return number("time", field, 0, MILL_MAX_TIME.into()),
        Time::Seconds => (in_seconds.number(field), "a number of seconds with at most one decimal"),
        Time::Clock => (clock(field, in_seconds).map(|time| past_midnight(time, before)), "a time hh:mm:ss"),
    };
    let found = found.filter(|time| (0..=MILL_MAX_TIME.into()).contains(time)).and_then(|time| u32::try_from(time).ok());
    found.ok_or_else(|| format!("time {} is not {form}", quoted(field)))
}

/// The tenths of a second since midnight.
fn clock(field: &str, in_seconds: Scale) -> Option<i64> {
    let mut parts = field.split(':');
    let (hours, minutes, seconds) = (parts.next()?, parts.next()?, parts.next()?);
    let below = |digits: &str, limit: i64| decimal(digits).filter(|number| (0..limit).contains(number) && digits.len() <= 2);
    let seconds =
        in_seconds.number(seconds).filter(|tenths| (0..600).contains(tenths) && seconds.as_bytes().get(1) != Some(&b':'))?;
    parts.next().is_none().then_some((below(hours, 24)? * 60 + below(minutes, 60)?) * 600 + seconds)
}

const DAY: i64 = 864_000;

/// A time of the day of the reading before, or of the next: of that where it would lie more than half a day back.
fn past_midnight(time: i64, before: Option<u32>) -> i64 {
    let Some(before) = before.map(i64::from) else { return time };
    let same_day = before - before % DAY + time;
    match before - same_day > DAY / 2 {
        true => same_day + DAY,
        false => same_day,
    }
}

/// Times strictly increase.
fn after(before: Option<&Reading>, reading: Reading) -> Result<Reading, String> {
    match before {
        Some(before) if reading.time <= before.time => Err(format!("time {} is not after {}", reading.time, before.time)),
        _ => Ok(reading),
    }
}
