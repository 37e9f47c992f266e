//! Covers: the safe wrapper: the lines of R1, R2 and R3 through it, every refusal by its name, number and place.

use crate::support::r1::{self, r1_bytes};
use crate::support::r2::{self, r2_bytes};
use crate::support::r3::{self, r3_bytes};
use crate::support::recordings::{flat, with_tops};
use mill::{Curve, Degree, Pair, Reading, Refusal, Run, Slope};
use reference::recording::bytes;

fn r1() -> Vec<u8> {
    use Slope::{Falling, Flat, Rising};
    let readings =
        [(40, Rising), (60, Rising), (80, Rising), (70, Falling), (30, Falling), (55, Rising), (90, Rising), (45, Falling)];
    let reading = |(index, (a, slope_a)): (usize, &(i32, Slope))| Reading {
        time: 10 * index as u32,
        a: *a,
        b: 50,
        slope_a: *slope_a,
        slope_b: Flat,
        pigment: 0,
    };
    readings.iter().enumerate().map(reading).flat_map(Reading::to_bytes).collect()
}

fn runs(recording: &[u8], text: &str) -> Vec<(i64, i64)> {
    let runs = mill::question(recording, text.as_bytes()).expect(text);
    runs.iter().map(|Run { low, high }| ((*low).into(), (*high).into())).collect()
}

/// The times of the kept readings, none over 255.
fn kept_times(recording: &[u8], marks: &[u32]) -> Vec<i64> {
    mill::thin(recording, marks).unwrap().chunks(16).map(|record| record[0].into()).collect()
}

#[test]
fn r1_lines() {
    let recording = r1();
    assert_eq!(recording, r1_bytes());
    for (text, expected) in r1::ANSWERS {
        assert_eq!(runs(&recording, text), expected, "{text}");
    }
    for (marks, expected) in r1::KEPT {
        assert_eq!(kept_times(&recording, marks), expected, "{marks:?}");
        assert_eq!(mill::thin(&recording, marks).unwrap(), recording);
    }
    assert_eq!(mill::pair(&recording, Curve::A, 40), Ok(Some(Pair { earlier: 30, later: 70 })));
    assert_eq!(mill::pair(&recording, Curve::A, 41), Ok(None));
    assert_eq!(mill::pair(&recording, Curve::B, 40), Ok(None));
    assert_eq!(mill::degree(&recording, b"peaks(A)", 30), Ok(Degree::Met));
    assert_eq!(mill::degree(&recording, b"peaks(A)", 51), Ok(Degree::Short { distance: 19.0, degree: 0.05 }));
    assert_eq!(mill::degree(&recording, b"lag", 30), Ok(Degree::NoValue));
}

#[test]
fn r2_lines() {
    let recording = r2_bytes();
    for (text, expected) in r2::ANSWERS {
        assert_eq!(runs(&recording, text), expected, "{text}");
    }
    for (marks, expected) in r2::KEPT {
        assert_eq!(kept_times(&recording, marks), expected, "{marks:?}");
    }
}

#[test]
fn r3_lines() {
    let recording = r3_bytes();
    let addition = Reading { time: 20, a: 8, b: 0, slope_a: Slope::Flat, slope_b: Slope::Flat, pigment: 7 };
    assert_eq!(recording[32..48], addition.to_bytes());
    for (text, expected) in r3::ANSWERS {
        assert_eq!(runs(&recording, text), expected, "{text}");
    }
    for (marks, expected) in r3::KEPT {
        assert_eq!(kept_times(&recording, marks), expected, "{marks:?}");
    }
    assert_eq!(runs(&addition.to_bytes(), "dose(7)"), [(20, 20)], "the first reading counts");
    let bad = Reading { pigment: 17, ..addition }.to_bytes();
    assert_eq!(mill::question(&bad, b"dose(1)"), Err(Refusal::BadRecord { index: 0 }));
}

#[test]
fn every_refusal() {
    let recording = r1();
    let mut bad = recording.clone();
    bad[5 * 16 + 13] = 3;
    let tops = bytes(&with_tops(4096, [257, 0]));
    let addition = Reading { time: 0, a: 0, b: 0, slope_a: Slope::Flat, slope_b: Slope::Flat, pigment: 1 };
    let mut full = mill::Live::start(&[]).unwrap();
    (0..128).for_each(|time| full.add(&Reading { time, ..addition }.to_bytes()).unwrap());
    let found = [
        (1, mill::thin(&recording[1..], &[]).unwrap_err()),
        (1, mill::pair(&recording[1..], Curve::A, 40).unwrap_err()),
        (2, mill::thin(&bytes(&flat(4097)), &[]).unwrap_err()),
        (3, mill::thin(&bad, &[]).unwrap_err()),
        (3, mill::pair(&bad, Curve::A, 40).unwrap_err()),
        (4, mill::pair(&[], Curve::A, 40).unwrap_err()),
        (9, mill::pair(&tops, Curve::A, 40).unwrap_err()),
        (10, mill::thin_into(&recording, &[], &mut [0; 127]).unwrap_err()),
        (11, mill::thin(&recording, &[0; 9]).unwrap_err()),
        (12, mill::pair(&recording, Curve::B, 2_000_000_001).unwrap_err()),
        (13, mill::order(&recording, &[[1, 2]; 33]).unwrap_err()),
        (14, mill::lab_question(&recording, &[], b"lag").unwrap_err()),
        (14, mill::lab_degree(&recording, &[], b"lag", 2_000_000_001).unwrap_err()),
        (14, mill::lab_pair(&recording, Curve::B, 40).unwrap_err()),
        (15, mill::Report::start(1_001, b"lag", 40).unwrap_err()),
        (16, mill::band(&recording, b"high(A)", 1_000_001).unwrap_err()),
        (17, mill::band(&recording, b"peaks(A)", 0).unwrap_err()),
        (18, mill::Live::start(&[]).unwrap().restore(1).unwrap_err()),
        (19, full.add(&Reading { time: 128, ..addition }.to_bytes()).unwrap_err()),
        (1, mill::entry(&recording[1..]).unwrap_err()),
        (2, mill::entry(&bytes(&flat(4097))).unwrap_err()),
        (3, mill::entry(&bad).unwrap_err()),
        (4, mill::entry(&[]).unwrap_err()),
        (10, mill::entry_into(&recording, &mut [0; 31]).unwrap_err()),
        (10, mill::find_into(&[0; 32], Curve::B, 0, &mut [0; 3]).unwrap_err()),
        (4, mill::Live::start(&[]).unwrap().entry().unwrap_err()),
        (10, full.entry_into(&mut [0; 31]).unwrap_err()),
        (11, mill::Live::from_bytes(&[]).entry().unwrap_err()),
        (12, mill::find(&[], Curve::A, 2_000_000_001).unwrap_err()),
        (20, mill::find(&[mill::Entry::from_bytes([0; 32]); 2_049], Curve::A, 0).unwrap_err()),
        (20, mill::find_into(&[0; 33], Curve::A, 2_000_000_001, &mut []).unwrap_err()),
    ];
    for (number, refusal) in found {
        assert_eq!(refusal.number(), number);
        assert_eq!(refusal.place(), if number == 3 { 5 } else { 0 });
    }
    assert_eq!(found[3].1, Refusal::BadRecord { index: 5 });
    assert_eq!(found[3].1.to_string(), format!("{} (refusal 3, reading 5 counted from 0)", found[3].1.sentence()));
    assert_eq!(found[7].1, Refusal::ShortOutput);
}

#[test]
fn every_refusal_of_questions() {
    let recording = r1();
    let mut bad = recording.clone();
    bad[5 * 16 + 13] = 3;
    let tops = |count: usize| bytes(&with_tops(4096, [count, 0]));
    let found = [
        mill::question(&recording[1..], b"lag").unwrap_err(),
        mill::question(&bytes(&flat(4097)), b"lag").unwrap_err(),
        mill::question(&bad, b"lag").unwrap_err(),
        mill::question(&[], b"lag").unwrap_err(),
        mill::question(&recording, b"").unwrap_err(),
        mill::question(&recording, b"F(A>v").unwrap_err(),
        mill::question(&recording, b"(((((((((((((((((A>=v)))))))))))))))))").unwrap_err(),
        mill::question(&tops(257), b"peaks(A)").unwrap_err(),
        mill::question(&tops(257), b"gaps(A)").unwrap_err(),
        mill::question_into(&recording, b"peaks(A)", &mut [0; 15]).unwrap_err(),
        mill::thin(&recording, &[0; 9]).unwrap_err(),
        mill::degree(&recording, b"lag", 2_000_000_001).unwrap_err(),
    ];
    for (index, refusal) in found.iter().enumerate() {
        assert_eq!(refusal.number() as usize, index + 1);
        assert_eq!(refusal.place(), if index == 2 { 5 } else { 0 });
    }
    assert_eq!(found[2], Refusal::BadRecord { index: 5 });
    assert_eq!(found[5].to_string(), format!("{} (refusal 6)", found[5].sentence()));
    assert_eq!(found[9], Refusal::ShortOutput);
}

#[test]
fn outputs_stay_behind_the_result() {
    let mut out = [7; 40];
    assert_eq!(mill::question_into(&r1(), b"peaks(A)", &mut out), Ok(16));
    assert_eq!(out[16..], [7; 24]);
    let mut out = [7; 130];
    assert_eq!(mill::thin_into(&r2_bytes(), &[], &mut out), Ok(96));
    assert_eq!(out[96..], [7; 34]);
    assert_eq!(mill::thin_into(&r1(), &[1], &mut out), Err(Refusal::BadMarks));
    let mut out = [7; 40];
    assert_eq!(mill::entry_into(&r1(), &mut out), Ok(32));
    assert_eq!((mill::entry(&r1()).unwrap().to_bytes(), [7; 8]), (out[..32].try_into().unwrap(), out[32..].try_into().unwrap()));
    let mut found = [7; 9];
    assert_eq!(mill::find_into(&out[..32], Curve::A, 90, &mut found), Ok(4));
    assert_eq!(found, [0, 0, 0, 0, 7, 7, 7, 7, 7]);
}
