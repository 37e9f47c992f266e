//! Covers: thinning on random recordings, marks and output lengths; lists of calls, with junk pieces, odd lengths and short
//! outputs, against the book; cutting a recording anywhere, inside plateaus too; joins of more than 4,096 records; thinning twice.

use crate::calls::{bytes_of, thin, thin_as, Tally};
use crate::support::cases::{self, cases};
use crate::support::r2::r2_bytes;
use crate::support::random::Random;
use crate::support::recordings::{self, damaged, flat, kept_of_plateau, odd_marks, plateau, put_top, upside_down};
use crate::support::recordings::{with_many_events, with_slopes};
use crate::support::slopes::every;
use mill::sys::{mill_number, mill_thin};
use reference::book::Book;
use reference::kept::mark_bytes;
use reference::recording::{bytes, Record, MOST_TIME};
use reference::{self, Refused};

#[test]
fn random_thinning() {
    let mut tally = Tally::default();
    cases("random thinning", 40_000, |random| {
        let mut records = recordings::any(random);
        if random.once_in(60) {
            records = with_many_events(random);
        }
        let mut recording = bytes(&records);
        if random.once_in(10) {
            recording = damaged(random, recording);
        }
        let marks = if random.once_in(8) { odd_marks(random) } else { mark_bytes(&recordings::marks(random, &records)) };
        let room = match random.below(3) {
            0 => recording.len(),
            1 => reference::thin(&recording, &marks, usize::MAX).map_or(0, |kept| kept.len()),
            _ => random.below(recording.len() + 20),
        };
        tally.add(thin(&recording, &marks, room));
    });
    tally.saw(&[0, 1, 3, 10, 11], 300);
}

#[test]
fn long_recordings() {
    cases("thinning of long recordings", 60, |random| {
        let count = random.pick(&[4096, 4096, 2000]);
        let mut records = recordings::accepted(random, count);
        if random.once_in(2) {
            records.iter_mut().for_each(|record| record.slope = [1, 1]);
        }
        let marks: Vec<i64> = (0..random.pick(&[0, 1, 8])).map(|_| recordings::mark(random, &records)).collect();
        assert_eq!(thin(&bytes(&records), &mark_bytes(&marks), 65_536), 0);
    });
}

/// Thinning calls, one after another, as the caller of a growing recording makes them.
struct Calls {
    marks: Vec<u8>,
    book: Book,
    held: Vec<u8>,
}

impl Calls {
    fn begin(marks: &[u8]) -> Calls {
        Calls { marks: marks.to_vec(), book: Book::open(marks), held: Vec::new() }
    }

    /// One call, compared with the book; its outcome's number.
    fn call(&mut self, piece: &[u8], room: usize) -> u32 {
        let expected = self.book.call(piece, room);
        thin_as(&[&self.held, piece].concat(), &self.marks, room, &expected);
        match expected {
            Ok(kept) => {
                self.held = kept;
                0
            }
            Err(refused) => refused.number,
        }
    }

    /// The output that just serves this piece; 0 for a piece that is refused anyway.
    fn just_room(&self, piece: &[u8]) -> usize {
        self.book.clone().call(piece, usize::MAX).map_or(0, |kept| kept.len())
    }
}

/// A piece of up to 8 records after the time, mostly; else bytes of any kind.
fn piece(random: &mut Random, last: &mut i64, seen: &[u8]) -> Vec<u8> {
    let count = random.below(8);
    let mut records = if count == 0 { vec![] } else { recordings::accepted(random, count) };
    for record in &mut records {
        *last = (*last + random.pick(&[1, 1, 2, 10])).min(MOST_TIME);
        record.time = *last;
        record.value = record.value.map(|value| value.rem_euclid(7));
    }
    let piece = bytes(&records);
    match random.below(14) {
        0 => (0..random.below(40)).map(|_| random.next() as u8).collect(),
        1 | 2 => damaged(random, piece),
        3 => piece[..random.below(piece.len() + 1)].to_vec(),
        // Readings from before: their times do not increase.
        4 if seen.len() >= 16 => seen[seen.len() - 16..].to_vec(),
        5 => Vec::new(),
        _ => piece,
    }
}

#[test]
fn lists_of_calls() {
    let mut tally = Tally::default();
    cases("lists of calls", 6_000, |random| {
        let times = [Record { time: random.between(0, 60), value: [0, 0], slope: [1, 1], pigment: 0 }];
        let marks = match random.below(12) {
            0 => odd_marks(random),
            _ => mark_bytes(&recordings::marks(random, &times)),
        };
        let mut calls = Calls::begin(&marks);
        let mut last = random.pick(&[-1, 0, 5, MOST_TIME - 40]);
        for _ in 0..1 + random.below(9) {
            let piece = piece(random, &mut last, calls.book.join());
            let room = match random.below(6) {
                0 => calls.just_room(&piece),
                1 => calls.just_room(&piece).saturating_sub(1 + random.below(20)),
                2 => random.below(300),
                _ => 4096,
            };
            tally.add(calls.call(&piece, room));
        }
    });
    tally.saw(&[0, 1, 3, 10, 11], 1_000);
}

#[test]
fn long_lists_of_calls() {
    let mut tally = Tally::default();
    cases("long lists of calls", 12, |random| {
        let marks = mark_bytes(&[5, 3_000, 9_000, random.between(0, 20_000)]);
        let mut calls = Calls::begin(&marks);
        let mut last = -1;
        for _ in 0..8 {
            let count = 200 + random.below(4096);
            let mut records = flat(count);
            for record in &mut records {
                last += 1;
                record.time = last;
                record.value = [random.between(0, 1_000), 2_000 + random.between(0, 50)];
                record.pigment = if random.once_in(60) { 16 } else { 0 };
            }
            for _ in 0..random.below(60) {
                put_top(&mut records, random.below(2), 1 + random.below(count - 1));
            }
            tally.add(calls.call(&bytes(&records), 65_536));
        }
        assert!(calls.book.join().len() > 4096 * 16, "the join passes 4,096 records");
    });
    tally.saw(&[0], 50);
    tally.saw(&[2], 4);
}

#[test]
fn cut_anywhere() {
    cases("cut anywhere", 300, |random| {
        let count = 1 + random.below(7);
        let mut records = recordings::accepted(random, count);
        records.iter_mut().for_each(|record| record.value = record.value.map(|value| value.rem_euclid(4)));
        let whole = bytes(&records);
        let marks = mark_bytes(&recordings::marks(random, &records));
        let kept = reference::thin(&whole, &marks, usize::MAX).unwrap();
        // Every way to cut: bit i of `cuts` cuts before record i + 1.
        for cuts in 0..1 << (count - 1) {
            let mut calls = Calls::begin(&marks);
            let mut from = 0;
            for index in 1..=count {
                if index == count || cuts >> (index - 1) & 1 == 1 {
                    let piece = &whole[16 * from..16 * index];
                    let room = calls.just_room(piece);
                    assert_eq!(calls.call(piece, room), 0);
                    from = index;
                }
            }
            assert_eq!(calls.held, kept, "the kept readings of the whole come out");
        }
    });
}

/// Every way to cut every list of up to five slopes of A, those of B going the other way round.
#[test]
fn cut_every_five_slopes_anywhere() {
    for slopes in every(5) {
        let mut records = with_slopes(0, &slopes);
        records.iter_mut().zip(slopes.iter().rev()).for_each(|(record, slope)| record.slope[1] = *slope);
        let whole = bytes(&records);
        cases::begin("cut every five slopes anywhere", slopes.len() as u64);
        for cuts in 0..1 << (records.len() - 1) {
            let mut calls = Calls::begin(&[]);
            let mut from = 0;
            for index in 1..=records.len() {
                if index == records.len() || cuts >> (index - 1) & 1 == 1 {
                    assert_eq!(calls.call(&whole[16 * from..16 * index], whole.len()), 0, "{slopes:?}");
                    from = index;
                }
            }
            assert_eq!(Ok(calls.held), reference::thin(&whole, &[], whole.len()), "{slopes:?} cut by {cuts:b}");
        }
    }
}

/// A top whose rise came long before: the pieces between hold flat readings alone. Cut at every place, and twice at every two.
#[test]
fn plateaus_cut_inside() {
    cases::begin("plateaus cut inside", 0);
    for (curve, before) in [(0, 0), (1, 0), (0, 1), (1, 2)] {
        let up = plateau(curve, before, 30 - before);
        for records in [upside_down(up.clone()), up] {
            let (whole, kept) = (bytes(&records), bytes(&kept_of_plateau(&records, before)));
            for first in 0..=32 {
                for second in first..=32 {
                    let mut calls = Calls::begin(&[]);
                    for piece in [&whole[..16 * first], &whole[16 * first..16 * second], &whole[16 * second..]] {
                        assert_eq!(calls.call(piece, whole.len()), 0);
                    }
                    assert_eq!(calls.held, kept, "cut at {first} and {second}");
                }
            }
        }
    }
}

/// 4,094 flat readings, a rise at the first or the second of all, cut at every place, and handed in one by one.
#[test]
fn one_plateau_of_4094_cut_at_every_place() {
    cases::begin("one plateau of 4,094 cut at every place", 0);
    for (curve, before) in [(0, 0), (1, 1)] {
        let records = plateau(curve, before, 4094 - before);
        let (whole, kept) = (bytes(&records), bytes(&kept_of_plateau(&records, before)));
        for cut in 1..4096 {
            let first = mill::thin(&whole[..16 * cut], &[]).unwrap();
            assert!(first.len() <= 48, "cut at {cut}");
            assert_eq!(mill::thin(&[&first[..], &whole[16 * cut..]].concat(), &[]).as_ref(), Ok(&kept), "cut at {cut}");
        }
        let mut calls = Calls::begin(&[]);
        for piece in whole.chunks(16 * 64) {
            assert_eq!(calls.call(piece, 65_536), 0);
        }
        assert_eq!(calls.held, kept);
        let mut held = Vec::new();
        for reading in whole.chunks(16) {
            held = mill::thin(&[&held[..], reading].concat(), &[]).unwrap();
        }
        assert_eq!(held, kept);
    }
}

/// The rise of a top may lie more than 4,096 readings back.
#[test]
fn a_plateau_longer_than_a_recording() {
    cases::begin("a plateau longer than a recording", 0);
    for before in [0, 5, 4_001] {
        let records = plateau(1, before, 19_998 - before);
        let mut calls = Calls::begin(&[]);
        for piece in bytes(&records).chunks(16 * 4_000) {
            assert_eq!(calls.call(piece, 65_536), 0);
        }
        assert_eq!(calls.held, bytes(&kept_of_plateau(&records, before)));
        assert_eq!(mill::question(&calls.held, b"peaks(B)").unwrap().runs(), [mill::Run { low: 19_999, high: 19_999 }]);
    }
}

#[test]
fn one_reading_at_a_time() {
    cases("one reading at a time", 25, |random| {
        let records = with_many_events(random);
        let marks = mark_bytes(&recordings::marks(random, &records));
        let mut calls = Calls::begin(&marks);
        for record in &records {
            assert_eq!(calls.call(&record.bytes(), 65_536), 0);
        }
        assert_eq!(Ok(calls.held), reference::thin(&bytes(&records), &marks, usize::MAX));
    });
}

#[test]
fn refused_pieces_are_not_taken() {
    cases::begin("refused pieces are not taken", 0);
    let r2 = r2_bytes();
    let mut calls = Calls::begin(&[]);
    assert_eq!(calls.call(&r2[..17], 1000), 1);
    assert_eq!(calls.call(&r2[..64], 47), 10);
    assert_eq!(calls.call(&r2[..64], 48), 0);
    assert_eq!(calls.call(&[], 47), 10);
    assert_eq!(calls.call(&[], 48), 0);
    assert_eq!(calls.call(&r2[48..], 1000), 3);
    assert_eq!(calls.call(&r2[64..], 95), 10);
    assert_eq!(calls.call(&r2[64..], 96), 0);
    assert_eq!(Ok(calls.held), reference::thin(&r2, &[], usize::MAX));
    // Marks that are not accepted refuse every call, after 1, 2 and 3.
    let mut calls = Calls::begin(&[0; 3]);
    assert_eq!(calls.call(&[], 0), 11);
    assert_eq!(calls.call(&r2[..17], 0), 1);
    assert_eq!(calls.call(&r2[16..], 0), 11);
    assert_eq!(Book::open(&[0; 3]).call(&r2, 0), Err(Refused::plain(11)));
}

/// Pieces whose every reading has a pigment: all are kept, until the readings held and a piece pass 4,096.
#[test]
fn additions_in_pieces() {
    cases::begin("additions in pieces", 0);
    let whole = bytes(&recordings::with_additions(5_000, 5_000, 9));
    let mut calls = Calls::begin(&[]);
    for piece in whole.chunks(1_000 * 16).take(4) {
        assert_eq!(calls.call(piece, 65_536), 0);
    }
    assert_eq!(calls.call(&whole[4_000 * 16..], 65_536), 2);
    assert_eq!(calls.call(&whole[4_000 * 16..4_096 * 16], 65_535), 10);
    assert_eq!(calls.call(&whole[4_000 * 16..4_096 * 16], 65_536), 0);
    assert_eq!(calls.held, whole[..65_536]);
    assert_eq!(calls.call(&whole[4_096 * 16..4_097 * 16], 1 << 17), 2);
}

#[test]
fn thinning_twice_is_thinning_once() {
    cases("thinning twice", 4_000, |random| {
        let records = recordings::any(random);
        let marks = mark_bytes(&recordings::marks(random, &records));
        let (_, once) = bytes_of(&bytes(&records), &marks, 65_536, mill_thin);
        let (returned, twice) = bytes_of(&once, &marks, once.len(), mill_thin);
        assert_eq!((mill_number(returned), twice), (0, once));
    });
}
