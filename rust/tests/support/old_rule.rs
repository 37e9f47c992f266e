//! The kept readings by the rules before Paper 5, for what lists of that time still answer. A top was a falling record after one that
//! does not fall, and its rise was not kept; a dip, from Paper 1 on, its mirror.

use reference::kept::is_extreme_after;
use reference::recording::{is_addition, is_crossing, is_upward_crossing, Record, FALLING, RISING};

#[derive(Clone, Copy, PartialEq, Eq, Debug)]
pub enum Rule {
    /// Tops and crossings, each with the record before it.
    Document01,
    /// Also dips and upward crossings, each with the record before it (Paper 1), and additions (Paper 3).
    Papers1And3,
}

/// The readings that the rule kept.
pub fn kept_by(rule: Rule, records: &[Record], marks: &[i64]) -> Vec<Record> {
    let goes_over_to = |slope: u8, i: usize| {
        i > 0 && (0..2).any(|curve| records[i].slope[curve] == slope && records[i - 1].slope[curve] != slope)
    };
    let event = |i: usize| {
        let later = rule == Rule::Papers1And3 && (goes_over_to(RISING, i) || is_upward_crossing(records, i));
        goes_over_to(FALLING, i) || is_crossing(records, i) || later
    };
    let extreme = |i: usize| {
        let mut after = marks.iter().copied().chain([i64::MIN]);
        after.any(|after| (0..2).any(|curve| is_extreme_after(records, curve, after, i)))
    };
    let kept = |i: usize| {
        let end = i == 0 || i + 1 == records.len();
        let addition = rule == Rule::Papers1And3 && is_addition(records, i);
        end || extreme(i) || event(i) || i + 1 < records.len() && event(i + 1) || addition
    };
    (0..records.len()).filter(|i| kept(*i)).map(|i| records[i]).collect()
}
