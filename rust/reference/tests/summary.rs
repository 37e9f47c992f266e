//! Covers: entries and their listing on the independent implementation: lines by hand, kept readings and selections with them, many tops,
//! the listing from entries against opening each recording.

use crate::support::cases::{cases, one_alone};
use crate::support::r1::r1_bytes;
use crate::support::r2::{r2, r2_bytes};
use crate::support::recordings::{self, with_many_events, with_most_tops, with_tops};
use crate::support::summaries;
use reference::kept::chosen;
use reference::recording::{bytes, Record};
use reference::summary::{accepted, found, found_by_opening, number_bytes, Entry};
use reference::{entry, find, question, Refused};

fn entry_of(recording: &[u8]) -> Entry {
    Entry::read(&entry(recording, 32).unwrap())
}

#[test]
fn entries_by_hand() {
    let r1 = Entry { first_time: 0, last_time: 70, greatest: [90, 50], least: [30, 50], tops: [2, 0] };
    assert_eq!(entry_of(&r1_bytes()), r1);
    // The fall at 60 stands on a shoulder.
    assert_eq!(entry_of(&r2_bytes()), Entry { first_time: 0, last_time: 80, greatest: [10, 0], least: [2, 0], tops: [1, 0] });
    let words: [u32; 8] = [0, 70, 90, 30, 50, 50, 2, 0];
    assert_eq!(entry(&r1_bytes(), 32).unwrap(), number_bytes(&words));
    let below = Record { time: 7, value: [-1, -1_000_000_000], slope: [0, 2], pigment: 0 };
    let words: [u32; 8] = [7, 7, u32::MAX, u32::MAX, 0xC465_3600, 0xC465_3600, 0, 0];
    assert_eq!(entry(&below.bytes(), 32).unwrap(), number_bytes(&words));
    assert_eq!(entry(&[], 0), Err(Refused::plain(4)));
    assert_eq!(entry(&r1_bytes(), 31), Err(Refused::plain(10)));
    assert_eq!(entry(&r1_bytes()[1..], 31), Err(Refused::plain(1)));
}

#[test]
fn kept_readings_and_selections_have_the_same_entry() {
    let mut dropped = 0;
    cases("kept readings have the same entry", 6_000, |random| {
        let records = if random.once_in(12) { with_many_events(random) } else { recordings::any(random) };
        let marks = recordings::marks(random, &records);
        let kept = chosen(&records, &marks);
        let some: Vec<bool> = kept.iter().map(|kept| *kept || random.once_in(3)).collect();
        for held in [kept, some] {
            let selected: Vec<Record> = records.iter().zip(&held).filter(|(_, held)| **held).map(|(record, _)| *record).collect();
            dropped += u64::from(selected.len() < records.len());
            assert_eq!(Entry::of(&selected), Entry::of(&records), "{marks:?} of {records:?}");
        }
    });
    assert!(one_alone() || dropped > 3_000, "readings were dropped in {dropped} cases only");
}

/// Number 9 is not for entries.
#[test]
fn many_tops_are_counted() {
    for tops in [255, 256, 257, 300] {
        let recording = bytes(&with_tops(4096, [tops, 7]));
        assert_eq!(entry_of(&recording).tops, [tops as u32, 7]);
        assert_eq!(question(&recording, b"gaps(A)", 1 << 20).is_err_and(|refused| refused.number == 9), tops > 256);
    }
    assert_eq!(entry_of(&bytes(&with_most_tops(1, 4096))).tops, [0, 2_048]);
    assert_eq!(Entry::of(&r2()).tops, [1, 0]);
}

#[test]
fn entries_list_what_opening_lists() {
    let (mut none, mut some, mut all) = (0, 0, 0);
    cases("entries list what opening lists", 4_000, |random| {
        let count = random.below(20);
        let recordings = summaries::recordings(random, count);
        let summary: Vec<u8> = recordings.iter().flat_map(|recording| entry(recording, 32).unwrap()).collect();
        for curve in 0..2 {
            let level = summaries::level(random, &summary).clamp(-2_000_000_000, 2_000_000_000);
            let opened = found_by_opening(&recordings, curve, level);
            assert_eq!(found(&accepted(&summary).unwrap(), curve, level), opened);
            assert_eq!(find(&summary, curve as u32, level, 4 * opened.len()), Ok(number_bytes(&opened)));
            match opened.len() {
                0 => none += 1,
                found if found == recordings.len() => all += 1,
                _ => some += 1,
            }
        }
    });
    assert!(one_alone() || none.min(some).min(all) > 500, "{none} find none, {some} some, {all} all");
}
