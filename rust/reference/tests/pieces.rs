//! Covers: thinning piece by piece against thinning the whole, cut anywhere, inside plateaus too: the book, and the law
//! kept(kept x ++ y) = kept(x ++ y); that every selection with the kept readings in it thins back to them and answers alike.

use crate::support::cases::cases;
use crate::support::random::Random;
use crate::support::recordings::{self, kept_of_plateau, plateau, upside_down, with_slopes};
use crate::support::slopes::every;
use reference::book::Book;
use reference::evaluate::answer;
use reference::kept::{chosen, mark_bytes};
use reference::recording::{bytes, dip_times, top_times, Record};
use reference::text::reading;
use reference::thin;

fn kept(records: &[Record], marks: &[i64]) -> Vec<Record> {
    records.iter().zip(chosen(records, marks)).filter(|(_, kept)| *kept).map(|(record, _)| *record).collect()
}

#[test]
fn the_book_keeps_what_the_whole_keeps() {
    cases("the book keeps what the whole keeps", 3_000, |random| {
        let records = if random.once_in(60) { recordings::with_many_events(random) } else { recordings::any(random) };
        let (whole, marks) = (bytes(&records), mark_bytes(&recordings::marks(random, &records)));
        let mut book = Book::open(&marks);
        let mut last = Ok(vec![]);
        let mut at = 0;
        while at < whole.len() {
            let end = (at + 16 * random.below(5)).min(whole.len());
            last = book.call(&whole[at..end], usize::MAX);
            at = end;
        }
        assert_eq!(last, thin(&whole, &marks, usize::MAX));
        assert_eq!(book.join(), whole);
    });
}

/// Every cut of every eight slopes.
#[test]
fn every_seam_of_eight_slopes() {
    for slopes in every(8) {
        let records = with_slopes(0, &slopes);
        let whole = kept(&records, &[]);
        for cut in 0..=records.len() {
            let (x, y) = records.split_at(cut);
            assert_eq!(kept(&[&kept(x, &[])[..], y].concat(), &[]), whole, "{slopes:?} cut at {cut}");
        }
    }
}

#[test]
fn seams_of_random_recordings() {
    cases("seams of random recordings", 20_000, |random| {
        let records = if random.once_in(60) { recordings::with_many_events(random) } else { recordings::any(random) };
        let marks = recordings::marks(random, &records);
        let (x, y) = records.split_at(random.below(records.len() + 1));
        let seam = kept(&[&kept(x, &marks)[..], y].concat(), &marks);
        assert_eq!(seam, kept(&records, &marks), "{records:?} {marks:?} cut at {}", x.len());
    });
}

/// One plateau of 4,094 flat records, some of them before its rise, cut inside at every place.
#[test]
fn one_plateau_cut_at_every_place() {
    for (curve, before) in [(0, 1), (1, 0), (1, 3)] {
        let up = plateau(curve, before, 4094 - before);
        for records in [upside_down(up.clone()), up] {
            let whole = kept(&records, &[]);
            assert_eq!(whole, kept_of_plateau(&records, before));
            for cut in 1..4096 {
                let (x, y) = records.split_at(cut);
                let first = kept(x, &[]);
                assert!(first.len() <= 3);
                assert_eq!(kept(&[&first[..], y].concat(), &[]), whole, "cut at {cut}");
            }
        }
    }
}

/// Records in order, those that are kept among them.
fn selection(random: &mut Random, records: &[Record], marks: &[i64]) -> Vec<Record> {
    let seldom = random.pick(&[2, 2, 5, 20]);
    let chosen = chosen(records, marks);
    (0..records.len()).filter(|i| chosen[*i] || random.once_in(seldom)).map(|i| records[i]).collect()
}

#[test]
fn selections_thin_back_and_answer_alike() {
    cases("selections thin back and answer alike", 20_000, |random| {
        let records = if random.once_in(60) { recordings::with_many_events(random) } else { recordings::any(random) };
        let marks = recordings::marks(random, &records);
        let selection = selection(random, &records, &marks);
        assert_eq!(kept(&selection, &marks), kept(&records, &marks), "{selection:?} of {records:?} {marks:?}");
        for text in ["peaks(A)", "dips(B)", "gaps(A)", "steps(B)", "lag", "cross|crossup", "dose(1)", "ampl(A)"] {
            let node = reading(text.as_bytes()).unwrap();
            assert_eq!(answer(&selection, &node), answer(&records, &node), "{text} of {selection:?} of {records:?}");
        }
    });
}

/// Every selection with the kept readings in it, of every seven slopes.
#[test]
fn every_selection_of_seven_slopes() {
    for slopes in every(7) {
        let records = with_slopes(0, &slopes);
        let (whole, chosen) = (kept(&records, &[]), chosen(&records, &[]));
        let free: Vec<usize> = (0..records.len()).filter(|i| !chosen[*i]).collect();
        for code in 0..1 << free.len() {
            let pinned = |i: &usize| chosen[*i] || free.iter().position(|j| j == i).is_some_and(|place| code >> place & 1 == 1);
            let selection: Vec<Record> = (0..records.len()).filter(pinned).map(|i| records[i]).collect();
            assert_eq!(kept(&selection, &[]), whole, "{selection:?} of {slopes:?}");
            assert_eq!(top_times(&selection, 0), top_times(&records, 0), "{selection:?} of {slopes:?}");
            assert_eq!(dip_times(&selection, 0), dip_times(&records, 0), "{selection:?} of {slopes:?}");
        }
    }
}
