//! Covers: tops and dips by the recorded slopes, with shoulders and plateaus; that the record before a top follows from the rest of
//! its sentence; every recording of up to eight slopes against the formulas.

use crate::support::recordings::{plateau, upside_down, with_most_tops, with_slopes};
use crate::support::slopes::{every, written, TURNS};
use crate::support::texts;
use reference::evaluate::{answer, answer_by, over_numbers, over_sets};
use reference::recording::{dip_times, last_not_flat_before, top_times, Record, FALLING, RISING};
use reference::set::Set;
use reference::text::reading;

#[test]
fn tops_and_dips_by_the_recorded_slopes() {
    for (slopes, tops, dips) in TURNS {
        for curve in 0..2 {
            let records = with_slopes(curve, &written(slopes));
            assert_eq!(top_times(&records, curve), tops, "{slopes}");
            assert_eq!(dip_times(&records, curve), dips, "{slopes}");
            // The other curve is flat.
            assert_eq!([top_times(&records, 1 - curve), dip_times(&records, 1 - curve)], [[], []], "{slopes}");
            // The mirror.
            let records = upside_down(records);
            assert_eq!(dip_times(&records, curve), tops, "{slopes}");
            assert_eq!(top_times(&records, curve), dips, "{slopes}");
        }
    }
}

/// A falling record whose last record before it that is not flat rises: then the record before it rises or is flat.
#[test]
fn the_record_before_follows_from_the_rest() {
    let turns = |records: &[Record], from: u8, to: u8| -> Vec<i64> {
        let slope = |i: usize| records[i].slope[0];
        let turn = |i: &usize| slope(*i) == to && last_not_flat_before(records, 0, *i).is_some_and(|j| slope(j) == from);
        (0..records.len()).filter(turn).map(|i| records[i].time).collect()
    };
    for slopes in every(8) {
        let records = with_slopes(0, &slopes);
        assert_eq!(top_times(&records, 0), turns(&records, RISING, FALLING), "{slopes:?}");
        assert_eq!(dip_times(&records, 0), turns(&records, FALLING, RISING), "{slopes:?}");
    }
}

#[test]
fn the_formulas_of_every_eight_slopes() {
    for slopes in every(8) {
        for (curve, name) in [(0, "A"), (1, "B")] {
            let records = with_slopes(curve, &slopes);
            for (from, to, times) in [("rise", "fall", top_times(&records, curve)), ("fall", "rise", dip_times(&records, curve))]
            {
                let node = reading(texts::turns(from, to, name).as_bytes()).unwrap();
                for how in [over_sets, over_numbers] {
                    assert_eq!(answer_by(&records, &node, how), Ok(Set::of_numbers(times.iter().copied())), "{slopes:?}");
                }
            }
        }
    }
}

/// Rise, fall, rise, fall: as many tops as there can be, and no two at neighbouring times.
#[test]
fn the_most_tops() {
    let records = with_most_tops(0, 4096);
    let every_second: Vec<i64> = (0..2048).map(|top| 2 * top + 1).collect();
    assert_eq!(top_times(&records, 0), every_second);
    assert_eq!(dip_times(&records, 0), every_second[..2047].iter().map(|time| time + 1).collect::<Vec<_>>());
}

#[test]
fn one_plateau_of_4094_flat_records() {
    let records = plateau(0, 0, 4094);
    assert_eq!(records.len(), 4096);
    assert_eq!(top_times(&records, 0), [4095]);
    assert_eq!(dip_times(&upside_down(records.clone()), 0), [4095]);
    let formula = reading(texts::turns("rise", "fall", "A").as_bytes()).unwrap();
    assert_eq!(answer(&records, &formula), Ok(Set::of_numbers([4095])));
}
