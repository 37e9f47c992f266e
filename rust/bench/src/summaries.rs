//! The entry of a recording, and the search for a level among entries.

use crate::calls::Grown;
use crate::measure::{wanted, writing};
use crate::recordings::{bytes, evenly, with_plateaus, with_tops, RECORDS};
use mill::{sys, Curve};

pub fn rows() {
    entries();
    entry_of_a_run();
    finds();
}

/// With few tops, with as many as there can be, and on plateaus.
fn entries() {
    let most_tops: Vec<usize> = (0..RECORDS / 2).map(|top| 2 * top + 1).collect();
    for (name, readings) in [
        ("64 tops", with_tops(&evenly(64, RECORDS), &evenly(64, RECORDS))),
        ("2,048 tops", with_tops(&most_tops, &most_tops)),
        ("plateaus of 62 readings", with_plateaus(62)),
    ] {
        let recording = bytes(&readings);
        let name = format!("entry, {name}");
        writing(&name, 2.0, |out| mill::entry_into(&recording, out), |out| plain::entry(&recording, out));
    }
}

/// That of a growing run, which plain Rust too works out from the readings that its run holds.
fn entry_of_a_run() {
    let name = "entry of a live run with 120 kept";
    if wanted(name) {
        let run = Grown::of(RECORDS, 119);
        assert_eq!(run.plain.kept().len(), 120 * sys::MILL_RECORD_BYTES, "{name}");
        writing(name, 2.0, |out| run.library.entry_into(out), |out| run.plain.entry(out));
    }
}

/// Entries whose greatest A are the numbers from 1,000,000 on, in no order.
pub fn summary(entries: usize) -> Vec<u8> {
    let entry = |number: usize| {
        let mut readings = with_tops(&[], &[]);
        readings.truncate(4);
        readings[3].a = (number * 1_237 % entries) as i32 + 1_000_000;
        mill::entry(&bytes(&readings)).expect("a recording").to_bytes()
    };
    (0..entries).flat_map(entry).collect()
}

/// Levels that none of the entries reaches, half of them, and all.
fn finds() {
    let summary = summary(sys::MILL_MAX_ENTRIES);
    for (name, level) in [("none", 2_000_000), ("half", 1_001_024), ("all", 0)] {
        let library = |out: &mut [u8]| mill::find_into(&summary, Curve::A, level, out);
        writing(&format!("find in 2,048 entries, {name}"), 1.2, library, |out| plain::find(&summary, 0, level, out));
    }
}
