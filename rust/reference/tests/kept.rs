//! Covers: the rule of the kept readings word by word against the faster way; the limit on their number, and that it is attained;
//! what the book refuses; marks.

use crate::support::cases::cases;
use crate::support::r1::r1_bytes;
use crate::support::r2::r2_bytes;
use crate::support::recordings::{self, with_slopes};
use crate::support::slopes::{every, written, KEPT_SLOPES};
use reference::book::Book;
use reference::kept::{accepted_marks, chosen, chosen_by_rule, mark_bytes, most_kept};
use reference::recording::{Record, FALLING, FLAT, RISING};
use reference::Refused;

#[test]
fn the_faster_way_is_the_rule() {
    cases("the faster way is the rule", 20_000, |random| {
        let records = recordings::any(random);
        let marks = recordings::marks(random, &records);
        let chosen = chosen(&records, &marks);
        assert_eq!(chosen, chosen_by_rule(&records, &marks), "{records:?} {marks:?}");
        let kept = chosen.iter().filter(|kept| **kept).count();
        assert!(kept <= most_kept(&records, &marks), "{records:?} {marks:?}");
    });
    cases("the faster way is the rule, long", 4, |random| {
        let records = recordings::accepted(random, 4096);
        let marks: Vec<i64> = (0..8).map(|_| recordings::mark(random, &records)).collect();
        assert_eq!(chosen(&records, &marks), chosen_by_rule(&records, &marks));
    });
}

/// Each reason keeps records of its own: the ends, four extremes, a top and a dip of each curve with the last slope before and the record
/// between, the last record of each curve that is not flat, a crossing either way, two additions, and four extremes after the mark.
#[test]
fn the_limit_is_attained() {
    let (down, flat, up) = (FALLING, FLAT, RISING);
    let rows: [([i64; 2], [u8; 2]); 33] = [
        ([50, 60], [flat, flat]),
        ([99, 100], [flat, flat]),
        ([1, 60], [flat, flat]),
        ([50, 200], [flat, flat]),
        ([2, 2], [flat, flat]),
        ([50, 60], [flat, flat]),
        // A: a top behind a plateau, a dip behind another, and a further rise.
        ([50, 60], [up, flat]),
        ([50, 60], [flat, flat]),
        ([50, 60], [down, flat]),
        ([50, 60], [down, flat]),
        ([50, 60], [flat, flat]),
        ([50, 60], [up, flat]),
        ([50, 60], [up, flat]),
        // B: the same.
        ([50, 60], [flat, up]),
        ([50, 60], [flat, flat]),
        ([50, 60], [flat, down]),
        ([50, 60], [flat, down]),
        ([50, 60], [flat, flat]),
        ([50, 60], [flat, up]),
        ([50, 60], [flat, up]),
        ([60, 60], [flat, flat]),
        ([61, 60], [flat, flat]),
        ([61, 60], [flat, flat]),
        ([60, 60], [flat, flat]),
        // Two with a pigment, then two that are not kept, the second of them at the mark.
        ([50, 60], [flat, flat]),
        ([50, 60], [flat, flat]),
        ([50, 60], [flat, flat]),
        ([71, 81], [flat, flat]),
        ([70, 75], [flat, flat]),
        ([30, 60], [flat, flat]),
        ([50, 80], [flat, flat]),
        ([40, 55], [flat, flat]),
        ([50, 60], [flat, flat]),
    ];
    let record = |(time, (value, slope)): (usize, &([i64; 2], [u8; 2]))| Record {
        time: time as i64,
        value: *value,
        slope: *slope,
        pigment: 0,
    };
    let mut records: Vec<Record> = rows.iter().enumerate().map(record).collect();
    let kept = |records: &[Record], marks: &[i64]| chosen_by_rule(records, marks).iter().filter(|kept| **kept).count();
    assert_eq!((most_kept(&records, &[27]), kept(&records, &[27])), (3 * 4 + 2 * 2 + 8 + 4, 28));
    (records[24].pigment, records[25].pigment) = (1, 16);
    for (marks, limit) in [(&[27][..], 28 + 2), (&[27, 27], 28 + 4 + 2)] {
        assert_eq!(most_kept(&records, marks), limit);
        assert_eq!(kept(&records, marks), 30);
    }
    assert_eq!(most_kept(&[], &[]), 8);
}

/// The limit counts each top and dip three times, though its three records may be fewer, and serve another too.
#[test]
fn the_limit_counts_what_coincides() {
    let kept = |records: &[Record]| chosen_by_rule(records, &[]).iter().filter(|kept| **kept).count();
    // Rise and fall: two records for a top, and the first of them is the first of all.
    let two = with_slopes(0, &[RISING, FALLING]);
    assert_eq!((most_kept(&two, &[]), kept(&two)), (3 + 8, 2));
    // 2,048 tops and 2,047 dips in 4,096 records.
    let most = recordings::with_most_tops(0, 4096);
    assert_eq!((most_kept(&most, &[]), kept(&most)), (3 * 4095 + 8, 4096));
}

/// What is kept of slopes alone, all values being equal.
#[test]
fn turns_are_kept_with_their_slope() {
    for (slopes, expected) in KEPT_SLOPES {
        for curve in 0..2 {
            let records = with_slopes(curve, &written(slopes));
            for records in [recordings::upside_down(records.clone()), records] {
                let kept = chosen_by_rule(&records, &[]);
                assert_eq!((0..records.len()).filter(|i| kept[*i]).collect::<Vec<_>>(), expected, "{slopes}");
                assert_eq!(chosen(&records, &[]), kept, "{slopes}");
            }
        }
    }
}

#[test]
fn the_faster_way_is_the_rule_of_every_eight_slopes() {
    for slopes in every(8) {
        let records = with_slopes(0, &slopes);
        let rule = chosen_by_rule(&records, &[]);
        assert_eq!(chosen(&records, &[]), rule, "{slopes:?}");
        assert!(rule.iter().filter(|kept| **kept).count() <= most_kept(&records, &[]), "{slopes:?}");
    }
}

/// An addition keeps its own record, and not the one before.
#[test]
fn additions_are_kept() {
    let mut records = recordings::flat(9);
    (records[3].pigment, records[4].pigment, records[7].pigment) = (16, 1, 1);
    let kept: Vec<usize> = (0..9).filter(|i| chosen_by_rule(&records, &[])[*i]).collect();
    assert_eq!(kept, [0, 3, 4, 7, 8]);
    let all = recordings::with_additions(4096, 4096, 2);
    assert_eq!(most_kept(&all, &[]), 8 + 4096);
    assert!(chosen(&all, &[]).iter().all(|kept| *kept));
}

#[test]
fn refused_calls_leave_the_join() {
    let (r1, r2) = (r1_bytes(), r2_bytes());
    let mut book = Book::open(&[]);
    assert_eq!(book.call(&r2[..17], 1000), Err(Refused::plain(1)));
    assert_eq!(book.call(&r2[..64], 47), Err(Refused::plain(10)));
    assert_eq!(book.join(), []);
    assert_eq!(book.call(&r2[..64], 48).map(|kept| kept.len()), Ok(48));
    // The third record was dropped, so the place of the bad record is 3 and not 4.
    assert_eq!(book.call(&r2[48..64], 1000), Err(Refused { number: 3, place: 3 }));
    assert_eq!(book.call(&[], 47), Err(Refused::plain(10)));
    assert_eq!(book.call(&r2[64..], 1000).map(|kept| kept.len()), Ok(96));
    assert_eq!(book.join(), r2);
    let mut book = Book::open(&[0; 3]);
    assert_eq!(book.call(&r1, 1000), Err(Refused::plain(11)));
    assert_eq!(book.call(&r1[..17], 1000), Err(Refused::plain(1)));
}

#[test]
fn marks() {
    assert_eq!(accepted_marks(&[]), Ok(vec![]));
    assert_eq!(accepted_marks(&mark_bytes(&[7; 8])), Ok(vec![7; 8]));
    assert_eq!(accepted_marks(&mark_bytes(&[7; 9])), Err(Refused::plain(11)));
    assert_eq!(accepted_marks(&mark_bytes(&[2_000_000_000])), Ok(vec![2_000_000_000]));
    assert_eq!(accepted_marks(&mark_bytes(&[2_000_000_001])), Err(Refused::plain(11)));
    assert_eq!(accepted_marks(&[0; 7]), Err(Refused::plain(11)));
}
