//! Order sheets: lines of two numbers, a then b. No addition of b stands at or before the first addition of a; where a was never
//! added, any b breaks the line.

use super::recording::{Record, MOST_PIGMENT};
use super::Refused;

/// The most lines of a sheet.
pub const MOST_LINES: usize = 32;

/// Bytes of a line.
pub const LINE_BYTES: usize = 2;

/// A line: pigment a before pigment b.
#[derive(Clone, Copy, PartialEq, Eq, Debug)]
pub struct Line {
    pub a: u8,
    pub b: u8,
}

/// The lines of a sheet, or refusal 13.
pub fn accepted(sheet: &[u8]) -> Result<Vec<Line>, Refused> {
    let pigment = |number: &u8| 1 <= *number && *number <= MOST_PIGMENT;
    if sheet.len() % LINE_BYTES != 0 || sheet.len() > MOST_LINES * LINE_BYTES || !sheet.iter().all(pigment) {
        return Err(Refused::plain(13));
    }
    Ok(sheet.chunks(LINE_BYTES).map(|line| Line { a: line[0], b: line[1] }).collect())
}

/// The time of the first record whose addition breaks a line, and the number of the first line that this addition breaks.
pub fn first_break(records: &[Record], lines: &[Line]) -> Option<(u32, u32)> {
    let breaking = |index: usize| lines.iter().position(|line| breaks(records, *line, index)).map(|line| (index, line));
    let (index, line) = (0..records.len()).find_map(breaking)?;
    Some((records[index].time as u32, line as u32))
}

/// Whether the addition at the record breaks the line.
pub fn breaks(records: &[Record], line: Line, index: usize) -> bool {
    let first_of_a = records.iter().position(|record| record.pigment == line.a);
    records[index].pigment == line.b && first_of_a.is_none_or(|first| index <= first)
}
