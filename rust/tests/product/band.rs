//! Covers: the band call: the certain and the possible set of each question on extremes, at and beyond the ends of e; every text
//! that is not one such question alone; by trying all curves of small recordings; at e = 0 the set of the question call; wider
//! bands; that kept readings give the same two sets.

use crate::calls::{band, Tally};
use crate::support::cases::{begin, cases, one_alone};
use crate::support::r1::r1_bytes;
use crate::support::random::Random;
use crate::support::recordings::{self, flat};
use crate::support::texts;
use mill::{Band, Refusal, Run};
use reference::band::{curves, told, WIDEST};
use reference::recording::{bytes, Record, MOST_VALUE};
use reference::set::{HIGH, LOW};
use reference::text::reading;

/// A question on extremes of a curve, its after-time near the recording's times, with brackets now and then.
fn extreme(random: &mut Random, records: &[Record]) -> String {
    let (name, curve) = (random.pick(&["high", "low", "lowafter", "capafter", "ampl"]), random.pick(&["A", "B"]));
    let question = if name.ends_with("after") {
        let time = if records.is_empty() { 7 } else { random.pick(records).time };
        format!("{name}({curve},{})", (time + random.between(-1, 1)).min(HIGH))
    } else {
        format!("{name}({curve})")
    };
    let brackets = if random.once_in(4) { random.below(4) } else { 0 };
    format!("{}{question}{}", "(".repeat(brackets), ")".repeat(brackets))
}

fn width(random: &mut Random) -> i64 {
    random.pick(&[0, 0, 1, 2, 7, 100, WIDEST - 1, WIDEST, WIDEST, WIDEST + 1, -1, i64::MIN, i64::MAX, 2_000_000_001, -WIDEST])
}

#[test]
fn random_bands() {
    let mut tally = Tally::default();
    cases("random bands", 20_000, |random| {
        let records = recordings::any(random);
        let mut recording = bytes(&records);
        if random.once_in(8) {
            recording = recordings::damaged(random, recording);
        }
        let text = extreme(random, &records);
        tally.add(band(&recording, text.as_bytes(), width(random)));
        tally.add(band(&recording, text.as_bytes(), random.between(0, WIDEST)));
        let size = 1 + random.below(6);
        let any = texts::made(random, texts::Kind::Mixed, size, &records);
        tally.add(band(&recording, any.as_bytes(), width(random)));
        tally.add(band(&recording, &texts::changed(random, &text), width(random)));
    });
    tally.saw(&[0, 3, 6, 16, 17], 200);
    tally.saw(&[4], 10);
}

/// All curves of small recordings: certain is true of every one, possible of at least one.
#[test]
fn every_curve_of_small_recordings() {
    cases("every curve of small recordings", 2_000, |random| {
        let count = 1 + random.below(4);
        let e = if count < 3 { random.between(0, 3) } else { random.between(0, 1) };
        let mut records = flat(count);
        for (index, record) in records.iter_mut().enumerate() {
            record.time = 10 * index as i64;
            record.value = [random.between(-3, 3), random.between(-2, 2)];
        }
        let recording = bytes(&records);
        for name in ["high", "low", "lowafter", "capafter", "ampl"] {
            for (number, curve) in ["A", "B"].into_iter().enumerate() {
                let after = if name.ends_with("after") { format!(",{}", random.between(-1, 31)) } else { String::new() };
                let text = format!("{name}({curve}{after})");
                let node = reading(text.as_bytes()).unwrap();
                assert_eq!(band(&recording, text.as_bytes(), e), 0);
                let found = mill::band(&recording, text.as_bytes(), e).unwrap();
                let within =
                    |set: Option<Run>, v: i64| set.is_some_and(|run| i64::from(run.low) <= v && v <= i64::from(run.high));
                let all = curves(&records, number, e);
                for v in (-20..=20).chain([LOW, LOW + 1, HIGH - 1, HIGH]) {
                    assert_eq!(
                        [within(found.certain, v), within(found.possible, v)],
                        told(&node, &all, v),
                        "{text} {e} {v} {records:?}"
                    );
                }
            }
        }
    });
}

fn sets(certain: (i64, i64), possible: (i64, i64)) -> Result<Band, Refusal> {
    let run = |(low, high): (i64, i64)| Some(Run { low: low as i32, high: high as i32 });
    Ok(Band { certain: run(certain), possible: run(possible) })
}

#[test]
fn bands_of_r1() {
    let r1 = r1_bytes();
    for (text, e, expected) in [
        ("high(A)", 5, sets((LOW, 85), (LOW, 95))),
        ("(high(A))", 5, sets((LOW, 85), (LOW, 95))),
        ("low(A)", 5, sets((35, HIGH), (25, HIGH))),
        ("lowafter(A,40)", 10, sets((55, HIGH), (35, HIGH))),
        ("capafter(A,40)", 10, sets((100, HIGH), (80, HIGH))),
        ("lowafter(A,70)", 10, Ok(Band { certain: None, possible: None })),
        ("capafter(A,70)", 10, sets((LOW, HIGH), (LOW, HIGH))),
        ("ampl(A)", 10, sets((LOW, 40), (LOW, 80))),
        ("ampl(A)", 30, sets((LOW, 0), (LOW, 120))),
        ("ampl(A)", 31, sets((LOW, 0), (LOW, 122))),
        ("ampl(B)", 7, sets((LOW, 0), (LOW, 14))),
        ("high(A)", WIDEST + 1, Err(Refusal::BadBand)),
        ("high(A)", -1, Err(Refusal::BadBand)),
        ("peaks(A)", WIDEST + 1, Err(Refusal::BadBand)),
        ("peaks(A)", 0, Err(Refusal::NotBandQuestion)),
        ("!high(A)", 0, Err(Refusal::NotBandQuestion)),
        ("high(A)|low(A)", 0, Err(Refusal::NotBandQuestion)),
        ("F(A>=v)", 0, Err(Refusal::NotBandQuestion)),
    ] {
        assert_eq!(mill::band(&r1, text.as_bytes(), e), expected, "{text} {e}");
        band(&r1, text.as_bytes(), e);
    }
}

/// A single record spreads by nothing, two alike by 2e; ends beyond the record's limits, and at the end of the axis.
#[test]
fn ends_of_every_band() {
    begin("ends of every band", 0);
    let with = |values: &[i64]| {
        let mut records = flat(values.len());
        for (record, value) in records.iter_mut().zip(values) {
            record.value = [*value, -*value];
        }
        bytes(&records)
    };
    for values in
        [&[0][..], &[7, 7], &[MOST_VALUE], &[-MOST_VALUE], &[MOST_VALUE, -MOST_VALUE], &[MOST_VALUE - 3, 5, -MOST_VALUE]]
    {
        let recording = with(values);
        for text in
            ["high(A)", "low(A)", "lowafter(A,0)", "capafter(A,0)", "capafter(A,-1)", "ampl(A)", "ampl(B)", "high(B)", "low(B)"]
        {
            for e in [0, 1, 2, 3, 500_000, WIDEST - 1, WIDEST] {
                assert_eq!(band(&recording, text.as_bytes(), e), 0);
            }
        }
    }
    assert_eq!(mill::band(&with(&[7]), b"ampl(A)", 9), sets((LOW, 0), (LOW, 0)));
    assert_eq!(mill::band(&with(&[7, 7]), b"ampl(A)", 9), sets((LOW, 0), (LOW, 18)));
    assert_eq!(
        mill::band(&with(&[MOST_VALUE]), b"high(A)", WIDEST),
        sets((LOW, MOST_VALUE - WIDEST), (LOW, MOST_VALUE + WIDEST))
    );
    let far = with(&[MOST_VALUE, -MOST_VALUE]);
    assert_eq!(mill::band(&far, b"ampl(A)", WIDEST), sets((LOW, HIGH - 2 * WIDEST), (LOW, HIGH)));
}

/// At e = 0 both sets are the question's; a wider band has no more that is certain, and no less that is possible.
#[test]
fn bands_of_several_widths() {
    cases("bands of several widths", 4_000, |random| {
        let mut records = recordings::any(random);
        records.truncate(600);
        if records.is_empty() {
            return;
        }
        let recording = bytes(&records);
        let text = extreme(random, &records);
        let today = mill::question(&recording, text.as_bytes()).unwrap();
        let one = |set: Option<Run>| set.into_iter().collect::<Vec<_>>();
        let mut before = mill::band(&recording, text.as_bytes(), 0).unwrap();
        assert_eq!((one(before.certain), one(before.possible)), (today.runs().to_vec(), today.runs().to_vec()), "{text}");
        for e in [1, 2, 50, random.between(50, WIDEST), WIDEST] {
            let wider = mill::band(&recording, text.as_bytes(), e).unwrap();
            let within = |inner: Option<Run>, outer: Option<Run>| match (inner, outer) {
                (None, _) => true,
                (Some(inner), Some(outer)) => outer.low <= inner.low && inner.high <= outer.high,
                (Some(_), None) => false,
            };
            assert!(
                within(wider.certain, before.certain) && within(before.possible, wider.possible),
                "{text} {e} {before:?} {wider:?}"
            );
            before = wider;
        }
    });
}

/// Kept readings give the same two sets, or the same refusal, where the after-time is a mark.
#[test]
fn kept_readings_give_the_same_band() {
    let mut dropped = 0;
    cases("kept readings give the same band", 15_000, |random| {
        let records = recordings::any(random);
        let full = bytes(&records);
        let text = extreme(random, &records);
        let k = text.split([',', ')']).nth(1).and_then(|k| k.parse().ok());
        let marks: Vec<u32> = k.into_iter().collect();
        if text.contains("after") && marks.is_empty() {
            // Below 0 an after-time is no mark.
            return;
        }
        let kept = mill::thin(&full, &marks).unwrap();
        dropped += u64::from(kept.len() < full.len());
        let e = random.pick(&[0, 1, 9, WIDEST, WIDEST + 1]);
        assert_eq!(mill::band(&full, text.as_bytes(), e), mill::band(&kept, text.as_bytes(), e), "{text} {e} of {records:?}");
        band(&kept, text.as_bytes(), e);
    });
    assert!(one_alone() || dropped > 3_000, "readings were dropped in {dropped} cases only");
}
