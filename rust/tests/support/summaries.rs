//! Entries of summaries, and levels that are sought in them.

use super::random::Random;
use super::recordings;
use reference::recording::{bytes, MOST_VALUE};
use reference::set::{HIGH, LOW};
use reference::summary::{Entry, ENTRY_BYTES};

/// The 32 bytes of an entry: mostly of a recording, else any.
pub fn entry(random: &mut Random) -> Vec<u8> {
    match random.below(6) {
        0 => (0..ENTRY_BYTES).map(|_| random.next() as u8).collect(),
        1 => vec![random.pick(&[0, 1, 127, 128, 255]); ENTRY_BYTES],
        _ => Entry::of(&recordings::any(random)).bytes().to_vec(),
    }
}

/// So many recordings, each with a record at least.
pub fn recordings(random: &mut Random, count: usize) -> Vec<Vec<u8>> {
    (0..count).map(|_| bytes(&recordings::any(random))).collect()
}

/// A level near a greatest value of some entry, near the ends of the axis, or anywhere.
pub fn level(random: &mut Random, entries: &[u8]) -> i64 {
    let whole = entries.len() / ENTRY_BYTES;
    match random.below(8) {
        0 => random.pick(&[LOW - 1, LOW, LOW + 1, HIGH - 1, HIGH, HIGH + 1, i64::MIN, i64::MAX, 1 << 32, -(1 << 32)]),
        1 => random.pick(&[-MOST_VALUE - 1, -MOST_VALUE, -1, 0, 1, MOST_VALUE, MOST_VALUE + 1]),
        2 => random.between(LOW, HIGH),
        _ if whole == 0 => 0,
        _ => {
            let at = ENTRY_BYTES * random.below(whole);
            let entry = Entry::read(&entries[at..at + ENTRY_BYTES]);
            i64::from(random.pick(&entry.greatest)) + random.between(-1, 1)
        }
    }
}
