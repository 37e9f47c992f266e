//! Slopes written as lines, and all lists of them.

use reference::recording::{FALLING, FLAT, RISING};

/// The slopes that the signs stand for: `-` flat, `/` rising, `\` falling.
pub fn written(signs: &str) -> Vec<u8> {
    let slope = |sign: char| match sign {
        '-' => FLAT,
        '/' => RISING,
        '\\' => FALLING,
        other => panic!("'{other}' is no slope"),
    };
    signs.chars().map(slope).collect()
}

/// Every list of 1 to `most` slopes.
pub fn every(most: u32) -> impl Iterator<Item = Vec<u8>> {
    (1..=most)
        .flat_map(|count| (0..3u32.pow(count)).map(move |code| (0..count).map(|i| (code / 3u32.pow(i) % 3) as u8).collect()))
}

/// Slopes of records at times 0, 1, .., the times of the tops, and those of the dips.
pub const TURNS: [(&str, &[i64], &[i64]); 18] = [
    ("/\\", &[1], &[]),
    ("\\/", &[], &[1]),
    // The first record falls, or nothing moved before: no top.
    ("\\\\", &[], &[]),
    ("-\\", &[], &[]),
    ("-/", &[], &[]),
    ("---", &[], &[]),
    // Shoulders.
    ("\\-\\", &[], &[]),
    ("/-/", &[], &[]),
    ("\\--\\-\\", &[], &[]),
    ("/\\-\\--\\", &[1], &[]),
    ("/\\/-/", &[1], &[2]),
    // Plateaus; the rise may be the first record.
    ("/-\\", &[2], &[]),
    ("\\----/", &[], &[5]),
    ("/--\\--/--\\", &[3, 9], &[6]),
    ("-/-/--\\-\\-/", &[6], &[10]),
    // Only the first fall after a rise.
    ("/\\\\\\", &[1], &[]),
    ("//\\\\//\\\\", &[2, 6], &[4]),
    ("/\\/\\/\\", &[1, 3, 5], &[2, 4]),
];

/// Slopes of one curve, and the places of the records that are kept of them, all values being equal.
pub const KEPT_SLOPES: [(&str, &[usize]); 11] = [
    // No turn: the ends, and the last that is not flat.
    ("-----", &[0, 4]),
    ("--/---", &[0, 2, 5]),
    ("-/-/--/--", &[0, 6, 8]),
    ("\\\\\\---\\\\\\", &[0, 8]),
    // A top: the last rise before it, the record before it, itself.
    ("--/---\\-", &[0, 2, 5, 6, 7]),
    ("//-/----\\\\\\-", &[0, 3, 7, 8, 10, 11]),
    // The first record is the rise.
    ("/----\\", &[0, 4, 5]),
    // A top and a dip: the fall of the dip is the top, or a later one.
    ("-/--\\--/--", &[0, 1, 3, 4, 6, 7, 9]),
    ("/-\\--\\--\\--/-/-", &[0, 1, 2, 8, 10, 11, 13, 14]),
    // A shoulder keeps nothing of its own.
    ("---\\---\\---", &[0, 7, 10]),
    ("////\\\\\\\\///", &[0, 3, 4, 7, 8, 10]),
];
