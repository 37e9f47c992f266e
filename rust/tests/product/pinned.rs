//! Covers: readings put back by choice: every one of R2's and R3's selections, pins put back between two calls of a thinning
//! piece by piece, and what may not be pinned. Random selections are in `laws.rs`.

use crate::calls::bytes_of;
use crate::laws::same_answers;
use crate::support::cases::{begin, cases, one_alone};
use crate::support::r2::{self, r2, r2_bytes};
use crate::support::r3::{self, r3};
use crate::support::random::Random;
use crate::support::recordings::{self, with_many_events};
use mill::sys::{mill_number, mill_thin};
use mill::{Curve, Refusal, Run};
use reference::book::kept_readings;
use reference::kept::{chosen, mark_bytes, selected_bytes};
use reference::recording::{bytes, Record};

/// The readings of a recording at these times, in order.
fn at(recording: &[u8], times: &[i64]) -> Vec<u8> {
    let wanted =
        |reading: &&[u8]| times.contains(&i64::from(u32::from_le_bytes([reading[0], reading[1], reading[2], reading[3]])));
    recording.chunks(16).filter(wanted).flatten().copied().collect()
}

/// Every selection that includes the kept readings, under the marks of R2's and R3's lines: the calls answer as of the whole, and it
/// thins back. Of R2 without marks six are neither the kept readings nor the whole.
#[test]
fn every_selection_of_r2_and_r3() {
    begin("every selection of R2 and R3", 0);
    let of = |records: Vec<Record>, kept: &'static [(&[u32], &[i64])]| kept.iter().map(move |line| (records.clone(), line.0));
    let mut between = 0;
    for (records, marks) in of(r2(), &r2::KEPT).chain(of(r3(), &r3::KEPT)) {
        let full = bytes(&records);
        let marks: Vec<i64> = marks.iter().copied().map(i64::from).collect();
        let chosen = chosen(&records, &marks);
        let kept = selected_bytes(&full, &chosen);
        for code in 0..1 << records.len() {
            let selected: Vec<bool> = (0..records.len()).map(|i| code >> i & 1 == 1).collect();
            if chosen.iter().zip(&selected).any(|(kept, selected)| *kept && !*selected) {
                continue;
            }
            let selection = selected_bytes(&full, &selected);
            between += u32::from(kept.len() < selection.len() && selection.len() < full.len());
            let (returned, thinned) = bytes_of(&selection, &mark_bytes(&marks), kept.len(), mill_thin);
            assert_eq!((returned, &thinned), (kept.len() as u64, &kept), "{selected:?} with marks {marks:?}");
            same_answers(&mut Random::of_case("every selection of R2 and R3", code), &records, &marks, &selection, &full);
        }
    }
    // Three, two and two readings of R2 are free, two, one and two of R3.
    assert_eq!(between, 6 + 2 + 2 + 2 + 2);
}

/// Pins put back between two calls: any readings of the pieces taken so far, in order, on top of those held. In the end the kept
/// readings of the whole come out, and on the way what is held with its pins answers as the pieces taken do.
#[test]
fn pins_between_two_calls() {
    let (mut put_back, mut asked) = (0, 0);
    cases("pins between two calls", 5_000, |random| {
        let records = if random.once_in(20) { with_many_events(random) } else { recordings::any(random) };
        let full = bytes(&records);
        let marks = recordings::marks(random, &records);
        let (mut held, mut taken) = (Vec::new(), 0);
        while taken < full.len() {
            let join = &full[..taken];
            let seldom = random.pick(&[1, 2, 5, 20]);
            let mut rest = held.chunks(16).peekable();
            let mut pinned = Vec::new();
            for reading in join.chunks(16) {
                if rest.next_if_eq(&reading).is_some() || random.once_in(seldom) {
                    pinned.extend_from_slice(reading);
                }
            }
            put_back += u64::from(pinned.len() > held.len());
            if taken > 0 && random.once_in(6) {
                same_answers(random, &records[..taken / 16], &marks, &pinned, join);
                asked += 1;
            }
            let end = (taken + 16 * random.below(9)).min(full.len());
            let input = [&pinned, &full[taken..end]].concat();
            let (returned, kept) = bytes_of(&input, &mark_bytes(&marks), input.len(), mill_thin);
            assert_eq!((mill_number(returned), &kept), (0, &kept_readings(&full[..end], &marks)), "{marks:?} {records:?}");
            (held, taken) = (kept, end);
        }
    });
    assert!(one_alone() || put_back > 4_000 && asked > 1_000, "{put_back} times put back, {asked} times asked");
}

/// What may not be pinned, and what then happens to R2.
#[test]
fn what_may_not_be_pinned() {
    begin("what may not be pinned", 0);
    let full = r2_bytes();
    let kept = mill::thin(&full, &[]).unwrap();
    assert_eq!(at(&full, &[0, 10, 30, 40, 60, 80]), kept);
    let asked = |recording: &[u8], text: &[u8]| mill::question(recording, text).unwrap().runs().to_vec();
    assert_eq!(asked(&kept, b"peaks(A)"), [Run { low: 40, high: 40 }]);
    // A kept reading left out, whatever is put back: without the first and the rise at 10 no top is left.
    assert_eq!(asked(&at(&full, &[20, 30, 40, 50, 60, 80]), b"peaks(A)"), []);
    assert_ne!(mill::thin(&at(&full, &[0, 20, 30, 40, 60, 80]), &[]), Ok(kept.clone()));
    // Other marks than those of the thinning, though pins are there.
    let pinned = at(&full, &[0, 10, 30, 40, 50, 60, 80]);
    assert_eq!(asked(&full, b"capafter(A,10)"), [Run { low: 8, high: 2_000_000_000 }]);
    assert_eq!(asked(&pinned, b"capafter(A,10)"), [Run { low: 7, high: 2_000_000_000 }]);
    assert_eq!(mill::thin(&pinned, &[]), Ok(kept.clone()));
    assert_ne!(mill::thin(&pinned, &[10]), mill::thin(&full, &[10]));
    // Not in order, or twice.
    for wrong in [[at(&full, &[50]), kept.clone()].concat(), [kept.clone(), at(&full, &[80])].concat()] {
        assert!(matches!(mill::thin(&wrong, &[]), Err(Refusal::BadRecord { .. })));
        assert!(matches!(mill::pair(&wrong, Curve::A, 40), Err(Refusal::BadRecord { .. })));
    }
    // Altered, or of another recording: a level that R2 never reached.
    let mut altered = at(&full, &[0, 10, 20, 30, 40, 60, 80]);
    altered[2 * 16 + 4] = 11;
    assert_eq!(asked(&altered, b"high(A)"), [Run { low: -2_000_000_000, high: 11 }]);
    assert_eq!(asked(&full, b"high(A)"), [Run { low: -2_000_000_000, high: 10 }]);
}
