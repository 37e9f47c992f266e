//! Covers: every recording of up to three records over a small field set with all slopes; every list of up to six slopes; every way to
//! add two pigments to six records; every pair of tops of nine records.

use crate::calls::{degree, pair, question, thin};
use crate::support::cases::begin;
use crate::support::recordings::with_slopes;
use crate::support::slopes::every;
use reference::recording::{bytes, Record};

/// Every record with A and B out of these, and all slopes.
fn every_record(values: &[[i64; 2]]) -> Vec<Record> {
    let mut found = Vec::new();
    for value in values {
        for slope_a in 0..3 {
            for slope_b in 0..3 {
                found.push(Record { time: 0, value: *value, slope: [slope_a, slope_b], pigment: 0 });
            }
        }
    }
    found
}

fn at_times(records: &[Record], times: &[i64]) -> Vec<u8> {
    let timed: Vec<Record> = records.iter().zip(times).map(|(record, time)| Record { time: *time, ..*record }).collect();
    bytes(&timed)
}

const TEXTS: [&str; 11] = [
    "peaks(A)|peaks(B)",
    "dips(A)|!dips(B)",
    "cross",
    "crossup",
    "lag|gaps(A)|steps(B)",
    "U(A>=v,B=v)",
    "W(A<=v,T=v)",
    "F(A=v&X(B=v|fall(A)))",
    "G(X(rise(A)|A>B|T>=v))",
    "ampl(A)&high(B)|lowafter(B,1)&capafter(A,0)",
    "X(X(X(T=v)))",
];

fn all_calls(recording: &[u8]) {
    for text in TEXTS {
        question(recording, text.as_bytes(), 64);
    }
    degree(recording, b"peaks(A)|A=v", 2);
    degree(recording, b"U(A>=v,B=v)", -1);
    for marks in [&[][..], &[0, 0, 0, 0], &[1, 0, 0, 0, 0, 0, 0, 0]] {
        thin(recording, marks, recording.len());
    }
    pair(recording, 0, 2);
    pair(recording, 1, 1);
}

#[test]
fn every_recording_of_one_and_two_records() {
    let records = every_record(&[[0, 0], [1, 0], [0, 1], [1, 1], [2, 0]]);
    for (case, one) in records.iter().enumerate() {
        begin("every recording of one and two records", case as u64);
        all_calls(&at_times(&[*one], &[1]));
        for two in &records {
            all_calls(&at_times(&[*one, *two], &[0, 1]));
        }
    }
}

#[test]
fn every_recording_of_three_records() {
    let records = every_record(&[[0, 0], [1, 0]]);
    for (case, one) in records.iter().enumerate() {
        begin("every recording of three records", case as u64);
        for two in &records {
            for three in &records {
                all_calls(&at_times(&[*one, *two, *three], &[0, 1, 3]));
            }
        }
    }
}

/// Slopes of A alone, and those of B the same from behind.
#[test]
fn every_list_of_six_slopes() {
    for (case, slopes) in every(6).enumerate() {
        begin("every list of six slopes", case as u64);
        let mut records = with_slopes(0, &slopes);
        for both in [false, true] {
            if both {
                records.iter_mut().zip(slopes.iter().rev()).for_each(|(record, slope)| record.slope[1] = *slope);
            }
            let recording = bytes(&records);
            for text in ["peaks(A)|peaks(B)", "dips(A)|!dips(B)", "gaps(A)|lag", "!steps(B)"] {
                question(&recording, text.as_bytes(), 64);
            }
            degree(&recording, b"peaks(A)", 3);
            thin(&recording, &[], recording.len());
            thin(&recording, &[2, 0, 0, 0], recording.len());
            for gap in 1..=4 {
                pair(&recording, 0, gap);
                pair(&recording, 1, gap);
            }
        }
    }
}

#[test]
fn every_way_to_add_pigments_to_six_records() {
    let texts = [
        "dose(1)",
        "dose(16)",
        "!dose(1)&dose(16)",
        "F(P=1&T=v)",
        "U(!P=16,P=1&T=v)",
        "X(P=1|P=16&A=v)",
        "G(P=1|T<=v)",
        "P=1&A=v",
    ];
    for code in 0..3usize.pow(6) {
        begin("every way to add pigments to six records", code as u64);
        let pigment = |index: u32| [0, 1, 16][code / 3usize.pow(index) % 3];
        let record = |index: u32| Record { time: 0, value: [5 - i64::from(index), 9], slope: [1, 1], pigment: pigment(index) };
        let records: Vec<Record> = (0..6).map(record).collect();
        for times in [[0, 1, 2, 3, 4, 5], [1, 2, 4, 5, 7, 9]] {
            let recording = at_times(&records, &times);
            for text in texts {
                question(&recording, text.as_bytes(), 64);
            }
            degree(&recording, b"dose(1)", 3);
            thin(&recording, &[], 96);
            thin(&recording, &[2, 0, 0, 0], 96);
        }
    }
}

#[test]
fn every_pair_of_tops_of_nine_records() {
    for code in 0..1 << 9 {
        begin("every pair of tops of nine records", code);
        let falls = |index: u32| (code >> index & 1) as u8;
        // A falls where the code says and rises else; B falls where it does not, and is flat or rises else.
        let slope = |index: u32| [2 - 2 * falls(index), falls(index) * (1 + (index % 2) as u8)];
        let records: Vec<Record> =
            (0..9).map(|index| Record { time: 0, value: [0, 0], slope: slope(index), pigment: 0 }).collect();
        for times in [[0, 1, 2, 3, 4, 5, 6, 7, 8], [1, 2, 4, 5, 6, 8, 9, 10, 12]] {
            let recording = at_times(&records, &times);
            for target in -1..=12 {
                pair(&recording, 0, target);
                pair(&recording, 1, target);
            }
        }
    }
}

#[test]
fn every_thinning_of_four_flat_records() {
    let values: Vec<[i64; 2]> = (0..9).map(|value| [value / 3, value % 3]).collect();
    for code in 0..9usize.pow(4) {
        begin("every thinning of four flat records", code as u64);
        let record = |index: u32| Record { time: 0, value: values[code / 9usize.pow(index) % 9], slope: [1, 1], pigment: 0 };
        let recording = at_times(&[record(0), record(1), record(2), record(3)], &[0, 2, 3, 5]);
        for mark in 0..=5 {
            thin(&recording, &[mark, 0, 0, 0], 64);
        }
        thin(&recording, &[], 64);
        thin(&recording, &[3, 0, 0, 0, 0, 0, 0, 0], 64);
    }
}
