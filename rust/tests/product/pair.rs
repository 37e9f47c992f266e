//! Covers: the pair call: the first pair that fits, among many that do, or none; all curve numbers and targets; that kept readings
//! give the same two times.

use crate::calls::{pair, Tally};
use crate::support::cases::{begin, cases, one_alone};
use crate::support::r1::r1_bytes;
use crate::support::recordings::{self, gap, with_many_tops, with_tops_at, with_tops_on_a_grid};
use crate::support::texts::target;
use mill::{Curve, Pair};
use reference::fitting_pairs;
use reference::recording::{bytes, top_times, Record, MOST_TIME};
use reference::set::{HIGH, LOW};

#[test]
fn random_pairs() {
    let mut tally = Tally::default();
    cases("random pairs", 12_000, |random| {
        let records = if random.once_in(4) { with_many_tops(random) } else { recordings::any(random) };
        let recording = bytes(&records);
        let curve = random.pick(&[0, 0, 0, 1, 1, 1, 2, u32::MAX]);
        let target = target(random, &records);
        tally.add(pair(&recording, curve, target));
        // A gap that there is, or nearly.
        let times = top_times(&records, curve as usize % 2);
        if times.len() > 1 {
            let (one, other) = (random.pick(&times), random.pick(&times));
            tally.add(pair(&recording, curve, (one - other).abs()));
            tally.add(pair(&recording, curve, (one - other).abs() + 1));
        }
    });
    tally.saw(&[0, 9, 12], 200);
}

#[test]
fn every_gap_of_small_recordings() {
    cases("every gap of small recordings", 1_500, |random| {
        let mut records = recordings::any(random);
        for (index, record) in records.iter_mut().enumerate() {
            record.time = index as i64 + i64::from(index > 3);
        }
        let recording = bytes(&records);
        for gap in -2..=records.len() as i64 + 2 {
            pair(&recording, 0, gap);
            pair(&recording, 1, gap);
        }
    });
}

/// This pair is given for its gap, wherever it stands.
#[track_caller]
fn gives(recording: &[u8], curve: Curve, earlier: i64, later: i64) {
    let (number, gap) = (curve as u32, later - earlier);
    assert_eq!(pair(recording, number, gap), 0);
    let given = Pair { earlier: earlier as u32, later: later as u32 };
    assert_eq!(mill::pair(recording, curve, gap), Ok(Some(given)));
    assert_eq!(mill::pair(recording, curve, -gap), Ok(None));
}

/// Whether several pairs of tops fit.
fn several_fit(records: &[Record], curve: usize, target: i64) -> bool {
    fitting_pairs(&top_times(records, curve), target).len() > 1
}

#[test]
fn the_first_of_several_pairs() {
    begin("the first of several pairs", 0);
    // 30 apart are (10, 40) and (20, 50) of A, (20, 50) and (40, 70) of B; 10 apart (10, 20) and (40, 50) of A, (40, 50) of B.
    let both = with_tops_at([&[10, 20, 40, 50], &[20, 40, 50, 70]]);
    for (curve, earlier, later) in [(Curve::A, 10, 40), (Curve::B, 20, 50), (Curve::A, 10, 20), (Curve::B, 40, 50)] {
        gives(&both, curve, earlier, later);
    }
    // Evenly spaced: always from the first top.
    let times: Vec<i64> = (1..=256).map(|place| 16 * place).collect();
    let even = with_tops_at([&times, &times[128..]]);
    for later in 1..256 {
        gives(&even, Curve::A, times[0], times[later]);
    }
    for later in 129..256 {
        gives(&even, Curve::B, times[128], times[later]);
    }
    // Steps of 17, and of 16 from some top on: from that top.
    for first in [1, 2, 100, 253, 254] {
        let times: Vec<i64> = (0..256).map(|place| 1 + 16 * place + place.min(first)).collect();
        let first = first as usize;
        gives(&with_tops_at([&times, &[]]), Curve::A, times[first], times[first + 1]);
    }
}

#[test]
fn tops_on_a_grid() {
    let mut several = 0;
    cases("tops on a grid", 4_000, |random| {
        let records = with_tops_on_a_grid(random);
        let recording = bytes(&records);
        for curve in 0..2 {
            let target = gap(random, &records, curve);
            several += u64::from(several_fit(&records, curve, target));
            assert_eq!(pair(&recording, curve as u32, target), 0);
            assert_eq!(pair(&recording, curve as u32, -target), 0);
        }
    });
    assert!(one_alone() || several > 4_000, "several pairs fit in {several} cases only");
}

#[test]
fn every_pair_of_tops_whose_gaps_differ() {
    begin("every pair of tops whose gaps differ", 0);
    let times: Vec<i64> = (1..=30).map(|exponent| 1 << exponent).collect();
    let recordings = [(Curve::A, with_tops_at([&times, &[]])), (Curve::B, with_tops_at([&[3, 5], &times]))];
    for (curve, recording) in recordings {
        for (place, earlier) in times.iter().enumerate() {
            for later in &times[place + 1..] {
                gives(&recording, curve, *earlier, *later);
            }
            // From a top to itself is no pair.
            assert_eq!(mill::pair(&recording, curve, 0), Ok(None));
        }
    }
    // 256 tops: t(j) - t(i) is over a million for each place between, and differs by i below that.
    let times: Vec<i64> = (1..=256).map(|i| 1_000_000 * i + i * (i - 1) / 2).collect();
    let recording = with_tops_at([&times, &times]);
    for (i, j) in [(0, 1), (0, 255), (254, 255), (127, 128), (0, 254), (1, 255), (63, 64), (31, 192)] {
        gives(&recording, Curve::A, times[i], times[j]);
        gives(&recording, Curve::B, times[i], times[j]);
    }
}

#[test]
fn ends_of_every_range() {
    begin("ends of every range", 0);
    let ends = with_tops_at([&[1, 3, MOST_TIME - 2, MOST_TIME], &[1, MOST_TIME]]);
    for (curve, earlier, later) in [(Curve::A, 1, MOST_TIME), (Curve::A, 3, MOST_TIME - 2), (Curve::B, 1, MOST_TIME)] {
        gives(&ends, curve, earlier, later);
    }
    for end in [LOW, 0, 2, MOST_TIME - 5, MOST_TIME - 1, HIGH] {
        for target in end - 2..=end + 2 {
            let expected = if (LOW..=HIGH).contains(&target) { 0 } else { 12 };
            assert_eq!(pair(&ends, 0, target), expected);
            assert_eq!(pair(&ends, 1, target), expected);
            assert_eq!(pair(&ends, 2, target), 12);
        }
    }
    for target in [i64::MIN, i64::MAX, (1 << 32) + 2, i64::MIN + 2] {
        assert_eq!(pair(&ends, 0, target), 12);
    }
}

#[test]
fn every_kind_of_curve_number() {
    let recording = r1_bytes();
    for bit in 0..32 {
        let curve = 1u32 << bit;
        assert_eq!(pair(&recording, curve, 40), if curve == 1 { 0 } else { 12 });
        assert_eq!(pair(&recording, curve | 1, 40), if curve == 1 { 0 } else { 12 });
        assert_eq!(pair(&recording, u32::MAX - curve, 40), 12);
    }
}

/// Kept readings give the same two times as full ones, none where they give none, and the same refusal.
#[test]
fn kept_readings_give_the_same_pair() {
    let (mut dropped, mut several) = (0, 0);
    cases("kept readings give the same pair", 15_000, |random| {
        let records = match random.below(10) {
            0 => with_many_tops(random),
            1..=3 => with_tops_on_a_grid(random),
            _ => recordings::any(random),
        };
        let full = bytes(&records);
        let kept = mill::thin(&full, &[]).unwrap();
        dropped += u64::from(kept.len() < full.len());
        for curve in [Curve::A, Curve::B] {
            for target in [target(random, &records), gap(random, &records, curve as usize)] {
                several += u64::from(kept.len() < full.len() && several_fit(&records, curve as usize, target));
                let pair = |recording: &[u8]| mill::pair(recording, curve, target);
                assert_eq!(pair(&full), pair(&kept), "curve {curve:?}, target {target} of {records:?}");
            }
        }
    });
    assert!(one_alone() || dropped > 3_000, "readings were dropped in {dropped} cases only");
    assert!(one_alone() || several > 3_000, "several pairs fitted and readings were dropped in {several} cases only");
}
