//! Covers: the sets of the independent implementation against truth with a number put in; its two ways to work out F, G, U
//! and W against each other; the nine listed questions that stand for a formula against it; `ampl` by trying every w.

use crate::support::cases::cases;
use crate::support::{recordings, texts};
use reference::evaluate::{answer, answer_by, over_numbers, over_sets};
use reference::meaning::holds;
use reference::recording::{top_times, Record};
use reference::set::{HIGH, LOW};
use reference::text::reading;
use std::collections::BTreeSet;

/// Numbers where truth can change: those of the recording and of the text, differences of tops, and their neighbours.
fn telling_numbers(records: &[Record], text: &str) -> BTreeSet<i64> {
    let mut numbers: Vec<i64> = records.iter().flat_map(|r| [r.time, r.value[0], r.value[1]]).collect();
    let tops: Vec<i64> = (0..2).flat_map(|curve| top_times(records, curve)).collect();
    for t in tops.iter() {
        numbers.extend(tops.iter().map(|u| t - u));
    }
    for curve in 0..2 {
        let values = || records.iter().map(|r| r.value[curve]);
        numbers.push(values().max().unwrap() - values().min().unwrap());
    }
    numbers.extend(text.split(|c: char| !c.is_ascii_digit() && c != '-').filter_map(|word| word.parse::<i64>().ok()));
    numbers.extend([LOW, HIGH, 0]);
    numbers.iter().flat_map(|n| [n - 1, *n, n + 1]).filter(|n| (LOW..=HIGH).contains(n)).collect()
}

#[test]
fn sets_hold_the_true_numbers() {
    cases("sets hold the true numbers", 6_000, |random| {
        let count = 1 + random.below(7);
        let records = recordings::accepted(random, count);
        let kind = random.pick(&[texts::Kind::Temporal, texts::Kind::Listed]);
        let size = 1 + random.below(7);
        let text = texts::made(random, kind, size, &records);
        let node = reading(text.as_bytes()).expect(&text);
        let set = answer(&records, &node).expect("few runs");
        for number in telling_numbers(&records, &text) {
            assert_eq!(set.contains(number), holds(&node, &records, 0, number), "{text} of {records:?} at {number}");
        }
    });
}

#[test]
fn two_ways_to_quantify() {
    let mut over = 0;
    cases("two ways to quantify", 4_000, |random| {
        let many = random.once_in(3);
        let count = if many { 280 + random.below(60) } else { 1 + random.below(40) };
        let mut records = recordings::accepted(random, count);
        if many {
            records.iter_mut().for_each(|r| r.value[0] = 2 * random.between(0, 2_000));
        }
        let size = 2 + random.below(8);
        let text = texts::made(random, texts::Kind::Temporal, size, &records);
        let node = reading(text.as_bytes()).expect(&text);
        let by_sets = answer_by(&records, &node, over_sets);
        assert_eq!(by_sets, answer_by(&records, &node, over_numbers), "{text} of {records:?}");
        over += usize::from(by_sets.is_err());
    });
    assert!(crate::support::cases::one_alone() || over > 20, "{over}");
}

#[test]
fn listed_questions_and_their_formulas() {
    cases("listed questions and their formulas", 4_000, |random| {
        let records = if random.once_in(40) { recordings::with_many_events(random) } else { recordings::any(random) };
        let (curve, k) = (random.pick(&["A", "B"]), texts::number(random, &records));
        let pigment = texts::pigment(random, &records);
        for (written, formula) in texts::nine(curve, k, pigment) {
            let set = |text: &str| answer(&records, &reading(text.as_bytes()).expect(text));
            assert_eq!(set(&written), set(&formula), "{written} of {records:?}");
        }
    });
}

#[test]
fn ampl_tries_every_w() {
    cases("ampl tries every w", 500, |random| {
        let count = 1 + random.below(5);
        let mut records = recordings::accepted(random, count);
        records.iter_mut().for_each(|r| r.value[0] = random.between(-6, 6));
        let set = answer(&records, &reading(b"ampl(A)").unwrap()).unwrap();
        for v in -20..=20 {
            let truth =
                (-40..=40).any(|w| records.iter().any(|r| r.value[0] <= w) && records.iter().any(|r| r.value[0] >= w + v));
            assert_eq!(set.contains(v), truth, "{v} of {records:?}");
        }
    });
}
