//! Order sheets: accepted ones, and ones that 13 may refuse.

use super::random::Random;
use reference::recording::{Record, MOST_PIGMENT};

/// An accepted sheet of so many lines, of a few pigments or of all.
pub fn accepted(random: &mut Random, lines: usize) -> Vec<u8> {
    let most = random.pick(&[2, 3, 5, 16]).min(usize::from(MOST_PIGMENT));
    (0..2 * lines).map(|_| 1 + random.below(most) as u8).collect()
}

/// How many lines a sheet has: few, or up to the most.
pub fn length(random: &mut Random) -> usize {
    random.pick(&[0, 1, 1, 2, 2, 3, 5, 8, 31, 32])
}

/// Lines that the recording's first additions keep to, in any order: a earlier than b, or b never added.
pub fn met(random: &mut Random, records: &[Record], lines: usize) -> Vec<u8> {
    let first = |k: u8| records.iter().position(|record| record.pigment == k);
    let keeps = |a: u8, b: u8| match (first(a), first(b)) {
        (_, None) => true,
        (None, Some(_)) => false,
        (Some(a), Some(b)) => a < b,
    };
    let all = (1..=MOST_PIGMENT).flat_map(|a| (1..=MOST_PIGMENT).map(move |b| (a, b)));
    let fitting: Vec<(u8, u8)> = all.filter(|(a, b)| keeps(*a, *b)).collect();
    if fitting.is_empty() {
        return vec![];
    }
    (0..lines).flat_map(|_| <[u8; 2]>::from(random.pick(&fitting))).collect()
}

/// Any sheet, now and then of odd length, too long, or with a number that is no pigment.
pub fn any(random: &mut Random) -> Vec<u8> {
    let lines = length(random);
    let mut sheet = accepted(random, lines);
    match random.below(12) {
        0 => sheet.extend([1, 2].repeat(random.pick(&[1, 2, 33, 200]))),
        1 => sheet.push(1 + random.below(16) as u8),
        2 if !sheet.is_empty() => {
            let at = random.below(sheet.len());
            sheet[at] = random.pick(&[0, 17, 18, 128, 255]);
        }
        3 if !sheet.is_empty() => sheet.truncate(random.below(sheet.len())),
        _ => {}
    }
    sheet
}
