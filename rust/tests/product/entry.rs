//! Covers: the entry call: recordings of all shapes and damaged ones with outputs of every length, every few slopes and every few values,
//! the most tops, the orders; that kept readings, readings put back among them and a thinning piece by piece give the same entry; that
//! an entry says what questions say.

use crate::calls::{at_the_desk, bytes_of, count, hex, number_of, same_bytes, Tally};
use crate::support::cases::{begin, cases, one_alone};
use crate::support::r1::r1_bytes;
use crate::support::r2::{r2, r2_bytes};
use crate::support::r3::r3_bytes;
use crate::support::random::Random;
use crate::support::recordings::{self, damaged, flat, with_many_events, with_most_tops, with_slopes, with_tops, with_values};
use mill::sys::{self, mill_thin, MILL_ENTRY_BYTES};
use mill::{Entry, Refusal, Run, Set};
use reference::kept::{chosen, mark_bytes, selected_bytes};
use reference::recording::{bytes, in_rules, Record, MOST_TIME, MOST_VALUE};
use reference::{self, summary};

/// Makes an entry and compares; the outcome's number.
#[track_caller]
pub fn entry(recording: &[u8], room: usize) -> u32 {
    count();
    let expected = reference::entry(recording, room);
    let found = entry_of(recording, room);
    same_bytes(&expected, found, || format!("mill_entry, {room} bytes of output\n{}", hex(recording)));
    number_of(&expected)
}

/// What the call returns and writes, in guarded memory.
fn entry_of(recording: &[u8], room: usize) -> (u64, Vec<u8>) {
    at_the_desk(|desk| {
        let [first, _, output, _] = desk.turn();
        let recording_at = desk.recording.put(recording, first);
        // SAFETY: each pointer lies before as many bytes as its length says.
        desk.written(room, output, |out| unsafe { sys::mill_entry(recording_at, recording.len(), out, room) })
    })
}

/// The entry of a list of readings that may be longer than a recording.
fn afresh(join: &[u8]) -> Vec<u8> {
    summary::Entry::of(&in_rules(join).unwrap()).bytes().to_vec()
}

/// Lengths of an output: too short, just enough, more.
fn room(random: &mut Random) -> usize {
    random.pick(&[MILL_ENTRY_BYTES, MILL_ENTRY_BYTES, MILL_ENTRY_BYTES + 1, 64, 4_096, 31, 16, 1, 0])
}

#[test]
fn random_entries() {
    let mut tally = Tally::default();
    cases("random entries", 40_000, |random| {
        let records = if random.once_in(15) { with_many_events(random) } else { recordings::any(random) };
        let mut recording = bytes(&records);
        if random.once_in(4) {
            recording = damaged(random, recording);
        }
        let room = room(random);
        tally.add(entry(&recording, room));
    });
    tally.saw(&[0, 1, 3, 10], 500);
    tally.saw(&[4], 20);
    cases("random entries, long", 60, |random| {
        let records = recordings::accepted(random, 4_096);
        assert_eq!(entry(&bytes(&records), MILL_ENTRY_BYTES), 0);
    });
}

/// 10 exactly where the output is under 32 bytes; it comes after 1, 2, 3 and 4.
#[test]
fn every_length_of_the_output() {
    let mut bad = r1_bytes();
    bad[7 * 16 + 15] = 1;
    let long = bytes(&flat(4_097));
    for room in (0..=130).chain([2_048, 65_536]) {
        begin("every length of the output of an entry", room as u64);
        let number = if room < MILL_ENTRY_BYTES { 10 } else { 0 };
        for recording in [r1_bytes(), r2_bytes(), r3_bytes(), r1_bytes()[..16].to_vec()] {
            assert_eq!(entry(&recording, room), number);
        }
        assert_eq!(entry(&[], room), 4);
        assert_eq!(entry(&r1_bytes()[1..], room), 1);
        assert_eq!(entry(&r1_bytes()[..15], room), 1);
        assert_eq!(entry(&bad, room), 3);
        assert_eq!(entry(&long, room), 2);
    }
    assert_eq!(entry(&bytes(&flat(4_096)), MILL_ENTRY_BYTES), 0);
}

#[test]
fn entries_by_hand() {
    begin("entries by hand", 0);
    let plain =
        Entry { first_time: 0, last_time: 70, greatest_a: 90, least_a: 30, greatest_b: 50, least_b: 50, tops_a: 2, tops_b: 0 };
    assert_eq!(mill::entry(&r1_bytes()), Ok(plain));
    let r2_entry = Entry { last_time: 80, greatest_a: 10, least_a: 2, greatest_b: 0, least_b: 0, tops_a: 1, ..plain };
    // The fall at 60 stands on a shoulder and is no top. Pigments say nothing.
    assert_eq!(mill::entry(&r2_bytes()), Ok(r2_entry));
    assert_eq!(mill::entry(&r3_bytes()), Ok(r2_entry));
    // Both ends of all that a record may hold.
    let ends = |time: i64, value: i64| Record { time, value: [value, -value], slope: [2, 0], pigment: 16 };
    let words = |bytes: &[u8]| bytes.chunks(4).map(|word| u32::from_le_bytes(word.try_into().unwrap())).collect::<Vec<_>>();
    let recording = bytes(&[ends(0, -MOST_VALUE), ends(MOST_TIME, MOST_VALUE)]);
    let (most, least) = (1_000_000_000, 0xC465_3600);
    assert_eq!(words(&entry_of(&recording, 32).1), [0, 2_000_000_000, most, least, most, least, 0, 0]);
    // One record is the first and the last, the greatest and the least, and no top.
    let alone = bytes(&[Record { slope: [0, 0], ..ends(7, -1) }]);
    assert_eq!(words(&entry_of(&alone, 33).1), [7, 7, u32::MAX, u32::MAX, 1, 1, 0, 0]);
    assert_eq!(mill::entry(&[]), Err(Refusal::NoRecord));
    assert_eq!(mill::entry_into(&alone, &mut [0; 31]), Err(Refusal::ShortOutput));
    // Bytes and numbers.
    for bytes in [[0; 32], [255; 32], std::array::from_fn(|at| 7 * at as u8)] {
        assert_eq!(Entry::from_bytes(bytes).to_bytes(), bytes);
    }
    assert_eq!(Entry::from_bytes([255; 32]).greatest_b, -1);
    assert_eq!(Entry::from_bytes([255; 32]).tops_a, u32::MAX);
}

/// Every list of up to eight slopes, of either curve: tops are Paper 5's.
#[test]
fn every_few_slopes() {
    let mut lists: Vec<Vec<u8>> = vec![vec![]];
    let (mut case, mut most) = (0, 0);
    for _ in 0..8 {
        lists = lists.iter().flat_map(|list| (0..3).map(move |slope| [&list[..], &[slope]].concat())).collect();
        for slopes in &lists {
            begin("entries of every few slopes", case);
            case += 1;
            let curve = case as usize % 2;
            let mut records = with_slopes(curve, slopes);
            records.iter_mut().zip(slopes.iter().rev()).for_each(|(record, slope)| record.slope[1 - curve] = *slope);
            assert_eq!(entry(&bytes(&records), MILL_ENTRY_BYTES), 0);
            most = most.max(mill::entry(&bytes(&records)).unwrap().tops_b);
        }
    }
    assert_eq!(most, 4);
}

/// Every recording of up to four records with values -1, 0 and 1, of either curve.
#[test]
fn every_few_values() {
    begin("entries of every few values", 0);
    let pairs = || (-1..=1).flat_map(|a| (-1..=1).map(move |b| [a, b]));
    let mut lists: Vec<Vec<[i64; 2]>> = vec![vec![]];
    for _ in 0..4 {
        lists = lists.iter().flat_map(|list| pairs().map(move |pair| [&list[..], &[pair]].concat())).collect();
        for values in &lists {
            assert_eq!(entry(&with_values(values), MILL_ENTRY_BYTES), 0);
        }
    }
}

/// An entry knows no 9: tops are counted where `gaps` is refused for them.
#[test]
fn more_tops_than_256() {
    begin("more tops than 256", 0);
    for (tops_a, tops_b) in [(255, 256), (256, 255), (257, 0), (300, 300), (0, 257), (1_000, 2_000)] {
        let recording = bytes(&with_tops(4_096, [tops_a, tops_b]));
        assert_eq!(entry(&recording, MILL_ENTRY_BYTES), 0);
        let found = mill::entry(&recording).unwrap();
        assert_eq!((found.tops_a as usize, found.tops_b as usize), (tops_a, tops_b));
        assert_eq!(mill::question(&recording, b"gaps(A)") == Err(Refusal::TooManyTops), tops_a > 256);
    }
    for curve in 0..2 {
        let recording = bytes(&with_most_tops(curve, 4_096));
        assert_eq!(entry(&recording, MILL_ENTRY_BYTES), 0);
        let found = mill::entry(&recording).unwrap();
        assert_eq!([found.tops_a, found.tops_b][curve], 2_048);
    }
}

/// Kept readings, and every selection in order that includes them, give the same entry.
#[test]
fn kept_readings_and_selections() {
    let mut dropped = 0;
    cases("entries of kept readings and selections", 12_000, |random| {
        let records = if random.once_in(15) { with_many_events(random) } else { recordings::any(random) };
        let full = bytes(&records);
        let marks = recordings::marks(random, &records);
        let (_, kept) = bytes_of(&full, &mark_bytes(&marks), full.len(), mill_thin);
        let seldom = random.pick(&[2, 5, 20]);
        let some: Vec<bool> = chosen(&records, &marks).iter().map(|kept| *kept || random.once_in(seldom)).collect();
        let room = room(random);
        let of_full = entry_of(&full, room);
        for held in [kept, selected_bytes(&full, &some)] {
            dropped += u64::from(held.len() < full.len());
            assert_eq!(entry_of(&held, room), of_full, "marks {marks:?} of {records:?}");
            entry(&held, room);
        }
        entry(&full, room);
    });
    assert!(one_alone() || dropped > 6_000, "readings were dropped in {dropped} cases only");
}

/// Every selection of R2 that includes its kept readings, under each of R2's marks.
#[test]
fn every_selection_of_r2() {
    begin("entries of every selection of R2", 0);
    let (full, mut selections) = (r2_bytes(), 0);
    for marks in [&[][..], &[40], &[10]] {
        let kept = chosen(&r2(), marks);
        for code in 0..1 << kept.len() {
            let selected: Vec<bool> = (0..kept.len()).map(|i| code >> i & 1 == 1).collect();
            if kept.iter().zip(&selected).all(|(kept, selected)| *selected || !*kept) {
                assert_eq!(mill::entry(&selected_bytes(&full, &selected)), mill::entry(&full));
                selections += 1;
            }
        }
    }
    assert_eq!(selections, 8 + 4 + 4);
    // Without the rise at 10 and the first record it has no top.
    assert_eq!(mill::entry(&full[32..]).unwrap().tops_a, 0);
}

/// A recording of any length, thinned piece by piece: the entry of what is held is that of all pieces.
#[test]
fn pieces() {
    cases("entries of what is held", 1_500, |random| {
        let count = if random.once_in(100) { 5_000 } else { 1 + random.below(80) };
        let records = recordings::accepted(random, count);
        let full = bytes(&records);
        let (mut held, mut taken) = (Vec::new(), 0);
        while taken < full.len() {
            let most = if count == 5_000 { 1_000 } else { 9 };
            let end = (taken + 16 * (1 + random.below(most))).min(full.len());
            let (returned, kept) = bytes_of(&[&held, &full[taken..end]].concat(), &[], 65_536, mill_thin);
            if sys::mill_number(returned) == 2 {
                return;
            }
            assert_eq!(sys::mill_number(returned), 0);
            (held, taken) = (kept, end);
            assert_eq!(entry_of(&held, MILL_ENTRY_BYTES), (32, afresh(&full[..taken])));
        }
    });
}

/// An entry says what questions say: the first and the last time, the ends of `high` and `low`, how many runs `peaks` has.
#[test]
fn entries_say_what_questions_say() {
    let mut few = 0;
    cases("entries say what questions say", 4_000, |random| {
        let records = if random.once_in(20) { with_many_events(random) } else { recordings::any(random) };
        let recording = bytes(&records);
        let found = mill::entry(&recording).unwrap();
        let runs = |text: &str| mill::question(&recording, text.as_bytes());
        let one = |text: &str| match runs(text).unwrap().runs()[..] {
            [Run { low, high }] => (low, high),
            ref runs => panic!("{text}: {runs:?}"),
        };
        let time = |time: u32| (time as i32, time as i32);
        assert_eq!(one("T=v"), time(found.first_time));
        // No record lies after the last, and one after the time before it.
        assert_eq!(runs(&format!("lowafter(A,{})", found.last_time)), Ok(Set::default()));
        assert_ne!(runs(&format!("lowafter(A,{})", i64::from(found.last_time) - 1)), Ok(Set::default()));
        assert_eq!((one("high(A)").1, one("low(A)").0), (found.greatest_a, found.least_a));
        assert_eq!((one("high(B)").1, one("low(B)").0), (found.greatest_b, found.least_b));
        for (text, tops) in [("peaks(A)", found.tops_a), ("peaks(B)", found.tops_b)] {
            assert_eq!(runs(text).map(|runs| runs.len() as u32), if tops > 256 { Err(Refusal::TooManyRuns) } else { Ok(tops) });
            few += u64::from(tops > 0);
        }
    });
    assert!(one_alone() || few > 1_000, "{few} curves with tops");
}
