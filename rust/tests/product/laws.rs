//! Covers: what the library must do whatever the independent implementation says: plain questions answer alike on kept and on
//! full readings, and on selections of readings with the kept ones in them, which thin back to these; and each of the nine listed
//! questions that stand for a formula is that formula, in set and in refusal 8.

use crate::calls::{bytes_of, degree, pair, question, Tally};
use crate::question::room;
use crate::support::cases::{begin, cases, one_alone};
use crate::support::random::Random;
use crate::support::recordings::{self, with_many_events, with_many_plateaus};
use crate::support::{sheets, texts};
use mill::sys::{mill_number, mill_question, mill_thin, MILL_SET_BYTES};
use mill::{Curve, Degree, Refusal};
use reference::kept::mark_bytes;
use reference::recording::{bytes, Record};
use reference::text::{accepted, Node};

/// A text without F, G, X, U and W whose after-times are among the marks.
fn plain_text(random: &mut Random, records: &[Record], marks: &[i64], size: usize) -> String {
    if size < 2 {
        let name = if marks.is_empty() { 0 } else { random.pick(marks) };
        return loop {
            let text = if random.once_in(4) { texts::atom(random, records) } else { texts::listed(random, records, name) };
            if !marks.is_empty() || !text.contains("after") {
                break text;
            }
        };
    }
    let left = 1 + random.below(size - 1);
    match random.below(4) {
        0 => format!("!({})", plain_text(random, records, marks, size - 1)),
        1 => format!("({})&({})", plain_text(random, records, marks, left), plain_text(random, records, marks, size - left)),
        _ => format!("{}|{}", plain_text(random, records, marks, left), plain_text(random, records, marks, size - left)),
    }
}

/// Whether kept readings must answer the text as the full ones: 5, 6 or 7 refuses it, or it has none of F, G, X, U and W and
/// its after-times are among the marks.
fn askable(text: &[u8], marks: &[i64]) -> bool {
    accepted(text).map_or(true, |node| {
        node.parts().into_iter().all(|part| match part {
            Node::LowAfter(_, k) | Node::CapAfter(_, k) => marks.contains(k),
            part => !part.is_temporal(),
        })
    })
}

/// A question on extremes; its after-time, if it has one, is a mark.
fn extreme(random: &mut Random, marks: &[i64]) -> String {
    let curve = random.pick(&["A", "B"]);
    if marks.is_empty() || random.once_in(2) {
        return format!("{}({curve})", random.pick(&["high", "low", "ampl"]));
    }
    format!("{}({curve},{})", random.pick(&["lowafter", "capafter"]), random.pick(marks))
}

/// An answer to the degree call, its numbers by their bits.
fn degree_of(recording: &[u8], text: &[u8], target: i64) -> Result<(u8, u64, u64), Refusal> {
    mill::degree(recording, text, target).map(|degree| match degree {
        Degree::Met => (0, 0, 0),
        Degree::Short { distance, degree } => (1, distance.to_bits(), degree.to_bits()),
        Degree::NoValue => (2, 0, 0),
    })
}

/// Four texts asked of the readings held as of the full recording, each with a degree and a band, the pair at a target and at a gap
/// that there is, and an order sheet; and the entry.
pub fn same_answers(random: &mut Random, records: &[Record], marks: &[i64], held: &[u8], full: &[u8]) {
    assert_eq!(mill::entry(full), mill::entry(held), "the entry with marks {marks:?} of {records:?}");
    for _ in 0..4 {
        let size = random.pick(&[1, 1, 2, 3, 5]);
        let mut text = plain_text(random, records, marks, size).into_bytes();
        if random.once_in(5) {
            text = texts::changed(random, &String::from_utf8(text).unwrap());
        }
        if !askable(&text, marks) {
            continue;
        }
        let (room, target) = (room(random), texts::target(random, records));
        let case = || format!("{} with marks {marks:?} of {records:?} at {target}", text.escape_ascii());
        question(full, &text, room);
        let of_full = bytes_of(full, &text, room, mill_question);
        assert_eq!(of_full, bytes_of(held, &text, room, mill_question), "{}", case());
        degree(full, &text, target);
        assert_eq!(degree_of(full, &text, target), degree_of(held, &text, target), "{}", case());
        let e = random.pick(&[0, 1, 9, 1_000_000, 1_000_001]);
        for text in [&text[..], extreme(random, marks).as_bytes()] {
            assert_eq!(mill::band(full, text, e), mill::band(held, text, e), "{} within {e}: {}", text.escape_ascii(), case());
        }
        for curve in [Curve::A, Curve::B] {
            for target in [target, recordings::gap(random, records, curve as usize)] {
                assert_eq!(mill::pair(full, curve, target), mill::pair(held, curve, target), "{target}: {}", case());
            }
        }
        let lines = sheets::length(random);
        let sheet = sheets::met(random, records, lines);
        let sheet: Vec<[u8; 2]> = sheet.chunks_exact(2).map(|line| [line[0], line[1]]).collect();
        assert_eq!(mill::order(full, &sheet), mill::order(held, &sheet), "{sheet:?}: {}", case());
    }
}

fn promises(random: &mut Random, records: &[Record]) -> u64 {
    let full = bytes(records);
    let marks = recordings::marks(random, records);
    let (returned, kept) = bytes_of(&full, &mark_bytes(&marks), full.len(), mill_thin);
    assert_eq!(mill_number(returned), 0);
    same_answers(random, records, &marks, &kept, &full);
    (full.len() - kept.len()) as u64
}

#[test]
fn plain_questions_answer_alike_on_kept_readings() {
    let mut dropped = 0;
    cases("kept as full", 15_000, |random| {
        let records = recordings::any(random);
        dropped += u64::from(promises(random, &records) > 0);
    });
    assert!(one_alone() || dropped > 3_000, "readings were dropped in {dropped} cases only");
    cases("kept as full, many events", 1_200, |random| {
        let records = with_many_events(random);
        promises(random, &records);
    });
    cases("kept as full, plateaus", 1_200, |random| {
        let records = with_many_plateaus(random);
        promises(random, &records);
    });
    cases("kept as full, long", 40, |random| {
        let records = recordings::accepted(random, 4096);
        promises(random, &records);
    });
    // As many additions as readings: all are kept.
    cases("kept as full, 4,096 additions", 8, |random| {
        let mut records = recordings::accepted(random, 4096);
        records.iter_mut().for_each(|record| record.pigment = random.between(1, 16) as u8);
        assert_eq!(promises(random, &records), 0);
    });
}

/// Readings of interest put back among the kept ones: they answer alike, and thin back to exactly the kept ones.
#[test]
fn selections_with_the_kept_readings() {
    let mut put_back = 0;
    cases("selections with the kept readings", 8_000, |random| {
        let records = match random.below(12) {
            0 => with_many_events(random),
            1..=5 => recordings::any(random),
            count => recordings::accepted(random, 6 * count),
        };
        let full = bytes(&records);
        let marks = recordings::marks(random, &records);
        let (_, kept) = bytes_of(&full, &mark_bytes(&marks), full.len(), mill_thin);
        let seldom = random.pick(&[2, 2, 5, 20]);
        let mut rest = kept.chunks(16).peekable();
        let selection: Vec<&[u8]> =
            full.chunks(16).filter(|record| rest.next_if_eq(record).is_some() || random.once_in(seldom)).collect();
        let selection = selection.concat();
        put_back += u64::from(kept.len() < selection.len() && selection.len() < full.len());
        let (returned, thinned) = bytes_of(&selection, &mark_bytes(&marks), kept.len(), mill_thin);
        assert_eq!((mill_number(returned), thinned), (0, kept), "marks {marks:?} of {records:?}");
        same_answers(random, &records, &marks, &selection, &full);
    });
    assert!(one_alone() || put_back > 2_000, "readings were put back in {put_back} cases only");
}

/// What the user buys: a recording is thinned piece by piece, calls that are refused among them, the full one is wiped, and
/// the readings held answer as it did.
#[test]
fn answers_last() {
    cases("answers last", 4_000, |random| {
        let records = if random.once_in(20) { with_many_events(random) } else { recordings::any(random) };
        let full = bytes(&records);
        let marks = recordings::marks(random, &records);
        let thin = |input: &[u8], room: usize| {
            let (returned, kept) = bytes_of(input, &mark_bytes(&marks), room, mill_thin);
            (mill_number(returned), kept)
        };
        let (mut held, mut at) = (Vec::new(), 0);
        while at < full.len() {
            let piece = &full[at..(at + 16 * random.below(9)).min(full.len())];
            let input = [&held, piece].concat();
            match random.below(5) {
                0 => assert_eq!(thin(&[&input[..], &[0]].concat(), 1 << 16).0, 1),
                1 => assert_eq!(thin(&[&input[..], &[255; 16]].concat(), 1 << 16).0, 3),
                2 if !input.is_empty() => assert_eq!(thin(&input, 15).0, 10),
                _ => {}
            }
            let (number, kept) = thin(&input, input.len());
            assert_eq!(number, 0, "no piece is refused");
            (held, at) = (kept, at + piece.len());
        }
        same_answers(random, &records, &marks, &held, &full);
    });
}

#[test]
fn nothing_kept_of_nothing() {
    begin("nothing kept of nothing", 0);
    assert_eq!(mill::thin(&[], &[40]), Ok(vec![]));
    for text in ["high(A)", "lowafter(A,40)", "", "F(A>v"] {
        assert_eq!(question(&[], text.as_bytes(), MILL_SET_BYTES), 4);
        assert_eq!(degree(&[], text.as_bytes(), 40), 4);
    }
    assert_eq!(pair(&[], 0, 40), 4);
}

#[test]
fn listed_questions_are_their_formulas() {
    let mut tallies = [(); 9].map(|()| Tally::default());
    cases("listed questions are their formulas", 4_000, |random| {
        let records = if random.once_in(8) { with_many_events(random) } else { recordings::any(random) };
        let recording = bytes(&records);
        let (curve, k, room) = (random.pick(&["A", "B"]), texts::number(random, &records), room(random));
        let pigment = texts::pigment(random, &records);
        for ((written, formula), tally) in texts::nine(curve, k, pigment).into_iter().zip(&mut tallies) {
            let of_name = bytes_of(&recording, written.as_bytes(), room, mill_question);
            assert_eq!(of_name, bytes_of(&recording, formula.as_bytes(), room, mill_question), "{written} of {records:?}");
            tally.add(mill_number(of_name.0));
        }
    });
    for (place, tally) in tallies.iter().enumerate() {
        tally.saw(&[0], 1_000);
        // The last five are sets of times: tops, dips, crossings either way, and additions.
        tally.saw(if place < 4 { &[] } else { &[8] }, 10);
    }
}
