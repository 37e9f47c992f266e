//! Covers: `Thinning` on pieces that are longer than a recording may be, on readings that are all kept, and where a bad reading lies.

use mill::{Reading, Refusal, Slope, Thinning};

const FLAT: Reading = Reading { time: 0, a: 0, b: 0, slope_a: Slope::Flat, slope_b: Slope::Flat, pigment: 0 };

/// As many flat readings; every so many has an addition, which is kept.
fn readings(count: u32, every: u32) -> Vec<Reading> {
    (0..count).map(|time| Reading { time, pigment: u8::from(time % every == 0), ..FLAT }).collect()
}

/// What is held after pieces of as many readings, by the calls alone.
fn by_hand(readings: &[Reading], piece: usize) -> Vec<u8> {
    let join = |held: Vec<u8>, piece: &[Reading]| mill::thin(&[held, mill::encode(piece)].concat(), &[]).unwrap();
    readings.chunks(piece).fold(Vec::new(), join)
}

#[test]
fn a_piece_of_any_length() {
    for (count, every) in [(4_096, 4), (4_097, 4), (10_000, 5), (100_000, 30)] {
        let all = readings(count, every);
        let mut thinning = Thinning::start(&[]).unwrap();
        thinning.take(&mill::encode(&all)).unwrap();
        assert_eq!(thinning.held(), by_hand(&all, 100), "{count} readings");
        let additions = count.div_ceil(every);
        let last = u32::from((count - 1) % every != 0);
        assert_eq!(thinning.held().len() as u32, 16 * (additions + last), "{count} readings");
    }
}

#[test]
fn the_bad_reading_is_told_by_its_index_in_the_piece() {
    for (held, bad) in [(0, 0), (5, 0), (5, 3), (5, 4_090), (5, 4_091), (5, 4_092), (5, 5_000), (4_000, 9_999)] {
        let mut thinning = Thinning::start(&[]).unwrap();
        thinning.take(&mill::encode(&readings(held, 1))).unwrap();
        let mut piece: Vec<Reading> = (0..10_000).map(|index| Reading { time: held + index, ..FLAT }).collect();
        piece[bad as usize].pigment = 17;
        let before = thinning.clone();
        assert_eq!(thinning.take(&mill::encode(&piece)), Err(Refusal::BadRecord { index: bad }), "behind {held}");
        assert_eq!(thinning, before, "behind {held}");
    }
}

#[test]
fn more_than_can_be_held() {
    let all = readings(4_097, 1);
    let mut thinning = Thinning::start(&[]).unwrap();
    assert_eq!(thinning.take(&mill::encode(&all)), Err(Refusal::TooManyRecords));
    assert!(thinning.held().is_empty());
    thinning.take(&mill::encode(&all[..4_096])).unwrap();
    let before = thinning.clone();
    assert_eq!(thinning.take(&all[4_096].to_bytes()), Err(Refusal::TooManyRecords));
    assert_eq!(thinning.take(&[]), Ok(()));
    assert_eq!(thinning, before);
}

#[test]
fn what_is_resumed_is_a_recording() {
    let held = mill::encode(&readings(3, 1));
    assert_eq!(Thinning::resume(&[], &held[1..]), Err(Refusal::PartialRecord));
    assert_eq!(Thinning::resume(&[], &[&held[..], &held[..]].concat()), Err(Refusal::BadRecord { index: 3 }));
    assert_eq!(Thinning::resume(&[], &mill::encode(&readings(4_097, 1))), Err(Refusal::TooManyRecords));
    assert_eq!(Thinning::resume(&[2_000_000_001], &held), Err(Refusal::BadMarks));
    assert_eq!(Thinning::resume(&[40], &held).unwrap().held(), held);
}
