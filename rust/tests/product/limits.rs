//! Covers: the cases of thinning and of pairs at the limits that the scope names to be run, and the traps: each with its outcome
//! written here, so that a common error of both sides would show.

use crate::calls::{pair, thin};
use crate::support::cases::begin;
use crate::support::old_rule::{kept_by, Rule};
use crate::support::r2::{r2, r2_bytes};
use crate::support::r4::{self, r4, r4_bytes};
use crate::support::recordings::{flat, kept_of_plateau, plateau, upside_down, with_additions, with_crossings, with_dips};
use crate::support::recordings::{with_most_tops, with_slopes, with_tops, with_tops_at, with_values};
use crate::support::slopes::{written, KEPT_SLOPES};
use mill::{Curve, Pair, Run};
use reference::recording::{bytes, FALLING, FLAT, RISING};

#[test]
fn two_hundred_and_fifty_six_tops_and_one_more() {
    begin("two hundred and fifty-six tops and one more", 0);
    let tops = |a: usize, b: usize| bytes(&with_tops(4096, [a, b]));
    assert_eq!(pair(&tops(256, 0), 0, 16), 0);
    assert_eq!(pair(&tops(257, 0), 0, 16), 9);
    assert_eq!(pair(&tops(257, 0), 0, -16), 9);
    assert_eq!(pair(&tops(257, 0), 0, 2_000_000_001), 12);
    assert_eq!(pair(&tops(257, 0), 2, 16), 12);
    assert_eq!(pair(&tops(257, 0), 1, 16), 0);
    assert_eq!(pair(&tops(0, 257), 1, 16), 9);
    assert_eq!(thin(&tops(257, 257), &[], 65_536), 0);
    // 9 is not for dips: 257 of them beside 256 tops.
    let dips = bytes(&with_dips(4096, [257, 0]));
    assert_eq!(pair(&dips, 0, 16), 0);
    assert_eq!(thin(&dips, &[], 65_536), 0);
    assert_eq!(thin(&bytes(&with_crossings(4096, 2_000)), &[], 65_536), 0);
    // Falls on shoulders are no tops.
    let shoulders = bytes(&with_slopes(0, &[FALLING, FLAT].repeat(2048)));
    assert_eq!(pair(&shoulders, 0, 2), 0);
    assert_eq!(mill::pair(&shoulders, Curve::A, 2), Ok(None));
    let most = bytes(&with_most_tops(0, 4096));
    assert_eq!(pair(&most, 0, 2), 9);
    assert_eq!(mill::thin(&most, &[]), Ok(most.clone()));
}

#[test]
fn pairs_of_tops_with_a_rise() {
    begin("pairs of tops with a rise", 0);
    // Tops at 3, 9 and 20, and a shoulder at 12: (9, 12) and (3, 12) are no pairs.
    let recording = bytes(&with_slopes(0, &written("/--\\--/--\\--\\--/----\\---")));
    for (target, expected) in [(3, None), (8, None), (6, Some((3, 9))), (11, Some((9, 20))), (17, Some((3, 20)))] {
        assert_eq!(pair(&recording, 0, target), 0);
        let expected = expected.map(|(earlier, later)| Pair { earlier, later });
        assert_eq!(mill::pair(&recording, Curve::A, target), Ok(expected));
        assert_eq!(mill::pair(&mill::thin(&recording, &[]).unwrap(), Curve::A, target), Ok(expected));
    }
}

#[test]
fn four_thousand_and_ninety_six_records_and_one_more() {
    begin("four thousand and ninety-six records and one more", 0);
    let most = bytes(&flat(4096));
    assert_eq!(thin(&most, &[], 32), 0);
    assert_eq!(thin(&most, &[], 31), 10);
    assert_eq!(pair(&most, 0, 1), 0);
    let more = bytes(&flat(4097));
    assert_eq!(more.len(), 65_552);
    for length in [65_552, 65_568, 131_072] {
        let recording = [&more[..], &vec![9; 70_000]].concat()[..length].to_vec();
        assert_eq!(pair(&recording, 0, 1), 2);
        assert_eq!(thin(&recording, &[0; 3], 0), 2);
    }
    let partial = [&more[..], &[0]].concat();
    assert_eq!(pair(&partial, 7, 1), 1);
    assert_eq!(thin(&partial, &[0; 3], 0), 1);
    // The last record counts.
    let mut bad = most;
    bad[65_535] = 1;
    assert_eq!(thin(&bad, &[], 0), 3);
    assert_eq!(mill::thin(&bad, &[]), Err(mill::Refusal::BadRecord { index: 4095 }));
    assert_eq!(pair(&bad, 0, 1), 3);
}

#[test]
fn four_thousand_and_ninety_six_additions() {
    begin("four thousand and ninety-six additions", 0);
    let all = bytes(&with_additions(4096, 4096, 16));
    assert_eq!(thin(&all, &[], 65_536), 0);
    assert_eq!(thin(&all, &[], 65_535), 10);
    assert_eq!(mill::thin(&all, &[]), Ok(all.clone()));
    assert_eq!(mill::thin(&all, &[7; 8]), Ok(all.clone()));
    assert_eq!(pair(&all, 0, 1), 0);
    // One more record is 2, with a bad pigment too.
    assert_eq!(thin(&[&all[..], &[255; 16]].concat(), &[], 65_536), 2);
    // The last record counts.
    let mut bad = all;
    bad[65_534] = 17;
    assert_eq!(mill::thin(&bad, &[]), Err(mill::Refusal::BadRecord { index: 4095 }));
    // The first, the last, and every sixteenth between.
    let some = bytes(&with_additions(4096, 256, 1));
    assert_eq!(thin(&some, &[], 257 * 16), 0);
    assert_eq!(thin(&some, &[], 257 * 16 - 1), 10);
    assert_eq!(mill::thin(&some, &[]).map(|kept| kept.len()), Ok(257 * 16));
}

#[test]
fn pairs_at_the_axis_ends() {
    begin("pairs at the axis ends", 0);
    let apart = with_tops_at([&[1, 2_000_000_000], &[2, 1_999_999_999]]);
    assert_eq!(mill::pair(&apart, Curve::A, 1_999_999_999), Ok(Some(Pair { earlier: 1, later: 2_000_000_000 })));
    for target in [1_999_999_999, 2_000_000_000, -2_000_000_000, -1_999_999_999, 0] {
        assert_eq!(pair(&apart, 0, target), 0);
    }
    assert_eq!(pair(&apart, 0, 2_000_000_001), 12);
    assert_eq!(pair(&apart, 0, -2_000_000_001), 12);
    assert_eq!(mill::pair(&apart, Curve::A, -1_999_999_999), Ok(None));
}

/// The times of the kept readings, none over 255, after the comparison.
fn kept_times(recording: &[u8]) -> Vec<u8> {
    begin("edges", 0);
    assert_eq!(thin(recording, &[], recording.len()), 0);
    mill::thin(recording, &[]).unwrap().chunks(16).map(|record| record[0]).collect()
}

/// A top with its last rise and the record before it, a dip with its last fall, and the last record that is not flat.
#[test]
fn turns_are_kept_with_their_slope() {
    for (slopes, expected) in KEPT_SLOPES {
        for curve in 0..2 {
            let records = with_slopes(curve, &written(slopes));
            for records in [upside_down(records.clone()), records] {
                let kept: Vec<usize> = kept_times(&bytes(&records)).into_iter().map(usize::from).collect();
                assert_eq!(kept, expected, "{slopes} of curve {curve}");
            }
        }
    }
}

/// What one curve keeps does not keep what the other lacks.
#[test]
fn each_curve_keeps_its_own_slopes() {
    // A: rise at 1, top at 5. B: fall at 2, dip at 7, last slope at 9. Nothing of the other at these.
    let mut records = with_slopes(0, &written("-/---\\------"));
    records.iter_mut().zip(written("--\\----/-/--")).for_each(|(record, slope)| record.slope[1] = slope);
    assert_eq!(kept_times(&bytes(&records)), [0, 1, 2, 4, 5, 6, 7, 9, 11]);
}

#[test]
fn one_plateau_of_4094_flat_records() {
    begin("one plateau of 4,094 flat records", 0);
    for (curve, before) in [(0, 0), (1, 0), (0, 1), (1, 1), (0, 2), (1, 2_000)] {
        let up = plateau(curve, before, 4094 - before);
        for records in [upside_down(up.clone()), up] {
            let kept = bytes(&kept_of_plateau(&records, before));
            assert_eq!(thin(&bytes(&records), &[], kept.len()), 0);
            assert_eq!(thin(&bytes(&records), &[], kept.len() - 1), 10);
            assert_eq!(mill::thin(&bytes(&records), &[]), Ok(kept));
        }
    }
    // No turn: the ends and the last slope, wherever it stands.
    for slope in [FALLING, RISING] {
        for place in [0, 1, 2_000, 4_094, 4_095] {
            let mut records = flat(4096);
            records[place].slope[1] = slope;
            let ends: Vec<usize> = if place % 4_095 == 0 { vec![0, 4_095] } else { vec![0, place, 4_095] };
            assert_eq!(mill::thin(&bytes(&records), &[]), Ok(bytes(&ends.iter().map(|i| records[*i]).collect::<Vec<_>>())));
        }
    }
}

/// Lists of before Paper 5 carry no assurance: one of document 01's own rule loses a top, and one of Papers 1 and 3 does not thin to what
/// is kept of the recording.
#[test]
fn lists_kept_by_an_older_rule() {
    begin("lists kept by an older rule", 0);
    let (full, old) = (r4_bytes(), bytes(&kept_by(Rule::Document01, &r4(), &[])));
    let times = |recording: &[u8]| -> Vec<i64> { recording.chunks(16).map(|record| i64::from(record[0])).collect() };
    assert_eq!(times(&old), r4::KEPT_BY_01);
    assert_eq!(times(&mill::thin(&full, &[]).unwrap()), r4::KEPT);
    for (text, on_full, on_old) in r4::LOST_BY_01 {
        let runs = |recording: &[u8]| -> Vec<(i64, i64)> {
            let runs = mill::question(recording, text.as_bytes()).unwrap();
            runs.iter().map(|Run { low, high }| ((*low).into(), (*high).into())).collect()
        };
        assert_eq!(runs(&full), on_full, "{text}");
        assert_eq!(runs(&old), on_old, "{text}");
        // What to do where the recording is still there: thin it again.
        assert_eq!(runs(&mill::thin(&full, &[]).unwrap()), on_full, "{text}");
    }
    let old = bytes(&kept_by(Rule::Papers1And3, &r2(), &[]));
    assert_eq!(times(&old), [0, 30, 40, 50, 60, 80]);
    assert_eq!(times(&mill::thin(&old, &[]).unwrap()), [0, 30, 40, 60, 80]);
    assert_eq!(times(&mill::thin(&r2_bytes(), &[]).unwrap()), [0, 10, 30, 40, 60, 80]);
}

#[test]
fn crossings_are_kept_with_the_record_before() {
    // Greatest first, least second; then from below to a tie, above at 4, at a tie again at 7, below.
    let recording = with_values(&[[9, 9], [0, 0], [5, 6], [5, 5], [6, 5], [7, 5], [6, 5], [5, 5], [5, 6], [5, 6]]);
    assert_eq!(kept_times(&recording), [0, 1, 3, 4, 6, 7, 9]);
}

#[test]
fn additions_are_kept_without_the_record_before() {
    for k in 1..=16 {
        let mut records = flat(9);
        (records[3].pigment, records[4].pigment, records[7].pigment) = (k, 17 - k, k);
        assert_eq!(kept_times(&bytes(&records)), [0, 3, 4, 7, 8]);
        // What is kept is unaltered.
        let kept = mill::thin(&bytes(&records), &[]).unwrap();
        assert_eq!(kept, bytes(&[records[0], records[3], records[4], records[7], records[8]]));
        assert_eq!(
            mill::question(&kept, format!("dose({k})").as_bytes()),
            mill::question(&bytes(&records), format!("dose({k})").as_bytes())
        );
    }
    // Beside an event, and an event whose record before has the pigment.
    let mut records = with_slopes(0, &[RISING, FLAT, FLAT, FLAT, FALLING, FLAT, FLAT, FLAT, FLAT]);
    (records[3].pigment, records[5].pigment) = (2, 2);
    assert_eq!(kept_times(&bytes(&records)), [0, 3, 4, 5, 8]);
}

#[test]
fn first_of_equals_is_kept() {
    // Greatest at 1 and 3, least at 2 and 4, then a middle value.
    let recording = with_values(&[[5, 0], [9, 0], [1, 0], [9, 0], [1, 0], [5, 0]]);
    let kept_times = |marks: &[u32]| -> Vec<u8> {
        let bytes: Vec<u8> = marks.iter().flat_map(|mark| mark.to_le_bytes()).collect();
        begin("edges", 0);
        assert_eq!(thin(&recording, &bytes, 96), 0);
        mill::thin(&recording, marks).unwrap().chunks(16).map(|record| record[0]).collect()
    };
    assert_eq!(kept_times(&[]), [0, 1, 2, 5]);
    // T > 1 leaves 2, 3, 4, 5; B is flat, so its first reading there is kept too.
    assert_eq!(kept_times(&[1]), [0, 1, 2, 3, 5]);
    assert_eq!(kept_times(&[2]), [0, 1, 2, 3, 4, 5]);
    assert_eq!(kept_times(&[0]), [0, 1, 2, 5]);
    assert_eq!(kept_times(&[4]), [0, 1, 2, 5]);
    assert_eq!(kept_times(&[5, 2_000_000_000]), [0, 1, 2, 5]);
    assert_eq!(kept_times(&[2, 2, 2, 2, 2, 2, 2, 2]), [0, 1, 2, 3, 4, 5]);
    assert_eq!(thin(&recording, &[2, 0, 0, 0].repeat(9), 96), 11);
}
