//! Covers: the find call: summaries of every length, of entries made from recordings and of any 32 bytes, levels on and off the axis,
//! outputs of every length around what is found, the orders; that it lists what opening each recording lists, from entries of full and
//! of kept readings; 2,048 and 2,049 entries.

use crate::calls::{at_the_desk, bytes_of, count, hex, number_of, same_bytes, Tally};
use crate::support::cases::{begin, cases, one_alone};
use crate::support::random::Random;
use crate::support::summaries;
use mill::sys::{self, mill_thin, MILL_ENTRY_BYTES, MILL_FOUND_BYTES, MILL_MAX_ENTRIES};
use mill::{Curve, Degree, Entry, Refusal};
use reference::set::{HIGH, LOW};
use reference::summary::{found_by_opening, number_bytes};

/// Finds and compares; the outcome's number.
#[track_caller]
pub fn find(entries: &[u8], curve: u32, level: i64, room: usize) -> u32 {
    count();
    let expected = reference::find(entries, curve, level, room);
    let found = found(entries, curve, level, room);
    let call = || format!("mill_find of curve {curve}, level {level}, {room} bytes of output\n{}", hex(entries));
    same_bytes(&expected, found, call);
    number_of(&expected)
}

/// What the call returns and writes, in guarded memory.
fn found(entries: &[u8], curve: u32, level: i64, room: usize) -> (u64, Vec<u8>) {
    at_the_desk(|desk| {
        let [first, _, output, _] = desk.turn();
        let entries_at = desk.recording.put(entries, first);
        // SAFETY: each pointer lies before as many bytes as its length says.
        desk.written(room, output, |out| unsafe { sys::mill_find(entries_at, entries.len(), curve, level, out, room) })
    })
}

/// How many bytes are found; as many as there can be where it is refused.
fn length(entries: &[u8], curve: u32, level: i64) -> usize {
    reference::find(entries, curve, level, MILL_FOUND_BYTES).map_or(MILL_FOUND_BYTES, |found| found.len())
}

/// A summary: few entries, or as many as there may be, now and then of a length that 20 refuses.
fn summary(random: &mut Random) -> Vec<u8> {
    let count = match random.below(40) {
        0 => random.pick(&[MILL_MAX_ENTRIES - 1, MILL_MAX_ENTRIES, MILL_MAX_ENTRIES + 1, 4_000]),
        1 => 300,
        _ => random.below(20),
    };
    let few: Vec<Vec<u8>> = (0..count.min(40)).map(|_| summaries::entry(random)).collect();
    let mut entries: Vec<u8> = (0..count).flat_map(|_| few[random.below(few.len())].clone()).collect();
    if random.once_in(12) {
        entries.truncate(entries.len().saturating_sub(1 + random.below(MILL_ENTRY_BYTES)));
    }
    entries
}

#[test]
fn random_finds() {
    let (mut tally, mut some) = (Tally::default(), 0);
    cases("random finds", 30_000, |random| {
        let entries = summary(random);
        for _ in 0..3 {
            let curve = random.pick(&[0, 0, 0, 1, 1, 1, 2, u32::MAX]);
            let level = summaries::level(random, &entries);
            let length = length(&entries, curve, level);
            some += u64::from(0 < length && length < entries.len() / 8);
            let room = match random.below(8) {
                0 => length.saturating_sub(1 + random.below(4)),
                1 => 0,
                2 => random.below(length + 9),
                3 => length + 1,
                4 => MILL_FOUND_BYTES,
                _ => length,
            };
            tally.add(find(&entries, curve, level, room));
        }
    });
    tally.saw(&[0, 10, 12, 20], 1_000);
    assert!(one_alone() || some > 5_000, "{some} times some are found and some are not");
}

/// Every length of the output around what is found: 10 exactly where it is shorter.
#[test]
fn every_length_of_the_output() {
    cases("every length of the output of a find", 60, |random| {
        let entries: Vec<u8> = (0..1 + random.below(12)).flat_map(|_| summaries::entry(random)).collect();
        let (curve, level) = (random.below(2) as u32, summaries::level(random, &entries).clamp(LOW, HIGH));
        let length = length(&entries, curve, level);
        for room in 0..=length + 20 {
            assert_eq!(find(&entries, curve, level, room), if room < length { 10 } else { 0 });
        }
    });
}

/// Every length of the summary to ten entries and around the most: 20 exactly where it is no multiple of 32 or more than 2,048 entries,
/// before 12 and 10.
#[test]
fn every_length_of_the_summary() {
    let most = MILL_MAX_ENTRIES * MILL_ENTRY_BYTES;
    let long = vec![1; most + 200];
    for length in (0..=320).chain(most - 70..=most + 70).chain([most + 96, most + 128]) {
        begin("every length of the summary", length as u64);
        let good = length % MILL_ENTRY_BYTES == 0 && length <= most;
        let number = |number: u32| if good { number } else { 20 };
        let entries = &long[..length];
        assert_eq!(find(entries, 0, 0, MILL_FOUND_BYTES), number(0));
        assert_eq!(find(entries, 2, 0, MILL_FOUND_BYTES), number(12));
        assert_eq!(find(entries, 1, HIGH + 1, 0), number(12));
        assert_eq!(find(entries, 1, LOW, 0), number(if length == 0 { 0 } else { 10 }));
    }
}

/// 2,048 entries, all found and none, and 2,049.
#[test]
fn two_thousand_and_forty_eight_entries_and_one_more() {
    begin("two thousand and forty-eight entries and one more", 0);
    let entry = |value: i32| Entry { greatest_a: value, greatest_b: -value, ..Entry::from_bytes([9; 32]) };
    let entries: Vec<Entry> = (0..=MILL_MAX_ENTRIES as i32).map(entry).collect();
    let bytes: Vec<u8> = entries.iter().copied().flat_map(Entry::to_bytes).collect();
    let full = &bytes[..MILL_MAX_ENTRIES * MILL_ENTRY_BYTES];
    assert_eq!(find(full, 0, 0, MILL_FOUND_BYTES), 0);
    assert_eq!(find(full, 0, 0, MILL_FOUND_BYTES - 1), 10);
    assert_eq!(find(full, 0, 0, MILL_FOUND_BYTES + 1), 0);
    assert_eq!(find(full, 0, 2_047, 4), 0);
    assert_eq!(find(full, 0, 2_047, 3), 10);
    assert_eq!(find(full, 0, 2_048, 0), 0);
    assert_eq!(find(&bytes, 0, 0, MILL_FOUND_BYTES), 20);
    let all: Vec<u32> = (0..MILL_MAX_ENTRIES as u32).collect();
    assert_eq!(mill::find(&entries[..MILL_MAX_ENTRIES], Curve::A, 0), Ok(all.clone()));
    assert_eq!(mill::find(&entries[..MILL_MAX_ENTRIES], Curve::A, 1_000), Ok(all[1_000..].to_vec()));
    assert_eq!(mill::find(&entries[..MILL_MAX_ENTRIES], Curve::B, -1_000), Ok(all[..=1_000].to_vec()));
    assert_eq!(mill::find(&entries, Curve::A, 0), Err(Refusal::BadSummary));
    assert_eq!(mill::find(&[], Curve::A, 0), Ok(vec![]));
}

/// At least is with the level itself; values are signed; numbers begin at 0; the other curve, and the other numbers, say nothing.
#[test]
fn findings_by_hand() {
    begin("findings by hand", 0);
    let none = Entry::from_bytes([0; 32]);
    let of_a = |value: i32| Entry { greatest_a: value, ..none };
    let entries = [of_a(-1), of_a(0), of_a(1), of_a(i32::MIN), of_a(i32::MAX), Entry { greatest_b: 9, ..of_a(-9) }];
    let summary: Vec<u8> = entries.iter().copied().flat_map(Entry::to_bytes).collect();
    for (curve, level, expected) in [
        (Curve::A, -1, &[0, 1, 2, 4][..]),
        (Curve::A, 0, &[1, 2, 4]),
        (Curve::A, 1, &[2, 4]),
        (Curve::A, 2, &[4]),
        (Curve::A, -9, &[0, 1, 2, 4, 5]),
        // An entry that no recording has, below the axis and above it.
        (Curve::A, LOW, &[0, 1, 2, 4, 5]),
        (Curve::A, HIGH, &[4]),
        (Curve::B, LOW, &[0, 1, 2, 3, 4, 5]),
        (Curve::B, 0, &[0, 1, 2, 3, 4, 5]),
        (Curve::B, 1, &[5]),
        (Curve::B, 9, &[5]),
        (Curve::B, 10, &[]),
    ] {
        assert_eq!(mill::find(&entries, curve, level).as_deref(), Ok(expected), "{curve:?} {level}");
        find(&summary, curve as u32, level, MILL_FOUND_BYTES);
    }
    // 12: the curve or the level, whatever the output; 20 before it.
    for (curve, level) in [(2, 0), (3, 0), (256, 0), (u32::MAX, 0), (0, HIGH + 1), (1, LOW - 1), (0, 1 << 32), (1, i64::MIN)] {
        for room in [0, MILL_FOUND_BYTES] {
            assert_eq!(find(&summary, curve, level, room), 12);
            assert_eq!(find(&summary[1..], curve, level, room), 20);
            assert_eq!(find(&[], curve, level, room), 12);
        }
    }
    assert_eq!(find(&summary, 0, 0, 11), 10);
    assert_eq!(find(&summary, 0, 0, 12), 0);
    // Each byte of the others changed.
    for at in (0..MILL_ENTRY_BYTES).filter(|at| !(8..12).contains(at)) {
        let mut other = summary.clone();
        other[2 * MILL_ENTRY_BYTES + at] ^= 255;
        assert_eq!(found(&other, 0, 1, 8), (8, vec![2, 0, 0, 0, 4, 0, 0, 0]), "byte {at}");
        find(&other, 1, 1, MILL_FOUND_BYTES);
    }
}

/// From the entries alone the same list as by opening each recording, full or kept: the recordings of which the degree call says that the
/// level is in `high`.
#[test]
fn as_opening_each_recording() {
    let (mut none, mut some, mut all) = (0, 0, 0);
    cases("as opening each recording", 4_000, |random| {
        let recordings_wanted = random.below(16);
        let recordings = summaries::recordings(random, recordings_wanted);
        let mut entries = Vec::new();
        for recording in &recordings {
            let (_, kept) = bytes_of(recording, &[], recording.len(), mill_thin);
            entries.push(mill::entry(if random.once_in(2) { recording } else { &kept }).unwrap());
        }
        let summary: Vec<u8> = entries.iter().copied().flat_map(Entry::to_bytes).collect();
        for (curve, text) in [(Curve::A, b"high(A)"), (Curve::B, b"high(B)")] {
            let level = summaries::level(random, &summary).clamp(LOW, HIGH);
            let opened = found_by_opening(&recordings, curve as usize, level);
            assert_eq!(mill::find(&entries, curve, level).as_ref(), Ok(&opened));
            let met = |number: &u32| mill::degree(&recordings[*number as usize], text, level) == Ok(Degree::Met);
            assert_eq!((0..recordings.len() as u32).filter(met).collect::<Vec<_>>(), opened);
            let room = 4 * opened.len();
            assert_eq!(found(&summary, curve as u32, level, room), (room as u64, number_bytes(&opened)));
            find(&summary, curve as u32, level, room);
            match opened.len() {
                0 => none += 1,
                found if found == recordings.len() => all += 1,
                _ => some += 1,
            }
        }
    });
    assert!(one_alone() || none > 500 && some > 500 && all > 500, "{none} find none, {some} some, {all} all");
}
