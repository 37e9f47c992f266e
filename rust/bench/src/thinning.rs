//! The thinning call.

use crate::measure::writing;
use crate::recordings::{bytes, evenly, with_additions, with_plateaus, with_tops, RECORDS};

pub fn rows() {
    const MARKS: [u32; 8] = [1_000, 6_000, 11_000, 16_000, 21_000, 26_000, 31_000, 36_000];
    for tops in [0, 64, 256] {
        let recording = bytes(&with_tops(&evenly(tops, RECORDS), &[]));
        thinning(&format!("thin, {tops} tops, 0 marks"), &recording, &[]);
        thinning(&format!("thin, {tops} tops, 8 marks"), &recording, &MARKS);
    }
    of_all_events();
    // Sparse and dense pigments, and a pigment at every reading.
    for additions in [64, 2_048, RECORDS] {
        thinning(&format!("thin, 64 tops, {additions} additions, 0 marks"), &bytes(&with_additions(additions)), &[]);
    }
    // Rises and falls by turns, so many flat readings between them: the cost is that of the readings, however long the plateaus.
    for flat in [14, 62, RECORDS - 2] {
        thinning(&format!("thin, plateaus of {flat} readings, 0 marks"), &bytes(&with_plateaus(flat)), &[]);
    }
}

/// As many tops and dips of either curve and crossings both ways, apart from each other.
fn of_all_events() {
    for events in [64, 256] {
        let later = |by: usize| evenly(events, RECORDS).iter().map(|index| index + by).collect::<Vec<_>>();
        let mut readings = with_tops(&later(0), &later(4));
        for index in later(8) {
            readings[index].b = readings[index].a - 1;
        }
        thinning(&format!("thin, {events} of each event, 0 marks"), &bytes(&readings), &[]);
    }
}

fn thinning(name: &str, recording: &[u8], marks: &[u32]) {
    let marks: Vec<u8> = marks.iter().flat_map(|mark| mark.to_le_bytes()).collect();
    writing(name, 2.0, |out| mill::thin_into(recording, &marks, out), |out| plain::thin(recording, &marks, out));
}
