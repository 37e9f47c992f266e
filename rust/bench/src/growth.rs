//! How the library's times grow: with the records (64 tops of A, 32 of both for `lag`), with the nodes of a text, with the runs of its
//! sets and with the tops; and the slowest question that is known.

use crate::calls::{nearness, sheet};
use crate::measure::{best, microseconds, wanted};
use crate::questions::{with_values, FEW_RUNS, MANY_RUNS, ONE_RUN};
use crate::recordings::{bytes, evenly, with_tops, RECORDS};
use crate::summaries::summary;
use mill::{sys, Curve, Reading};
use std::cell::RefCell;
use std::hint::black_box;

const LENGTHS: [usize; 4] = [RECORDS / 8, RECORDS / 4, RECORDS / 2, RECORDS];

pub fn rows() {
    println!("\n| call | 512 | 1,024 | 2,048 | 4,096 | 4,096 by 512 |\n| --- | --- | --- | --- | --- | --- |");
    let some = |records: usize| with_tops(&evenly(64, records), &[])[..records].to_vec();
    let both = |records: usize| with_tops(&evenly(32, records), &evenly(32, records))[..records].to_vec();
    let out = RefCell::new(vec![0; RECORDS * sys::MILL_RECORD_BYTES]);
    grows("thin, 0 marks", some, |recording| mill::thin_into(recording, &[], &mut out.borrow_mut()));
    for text in ["peaks(A)", "high(A)", "gaps(A)", "steps(A)", "dose(1)"] {
        asks(&format!("`{text}`"), some, text, &out);
    }
    asks("`lag`", both, "lag", &out);
    asks("32 nodes, sets of one run", both, ONE_RUN, &out);
    asks("32 nodes, sets of few runs", both, FEW_RUNS, &out);
    asks("32 nodes, sets of up to 61 runs", |records| with_values(both(records), 30), MANY_RUNS, &out);
    grows("degree of `peaks(A)`", some, |recording| mill::degree(recording, b"peaks(A)", 77).map(nearness));
    grows("pair, none", some, |recording| mill::pair(recording, Curve::A, 1));
    grows("laboratory, question `peaks(A)`", some, |recording| {
        mill::lab_question_into(recording, &[], b"peaks(A)", &mut out.borrow_mut())
    });
    grows("laboratory, degree of `peaks(A)`", some, |recording| mill::lab_degree(recording, &[], b"peaks(A)", 77).map(nearness));
    grows("laboratory, pair, none", some, |recording| mill::lab_pair(recording, Curve::A, 1));
    grows("band of `high(A)`", some, |recording| mill::band(recording, b"high(A)", 500));
    let sheet = sheet();
    grows("order, 32 lines", some, |recording| mill::order(recording, &sheet));
    let start = || mill::Report::start(sys::MILL_MAX_BATCHES, b"high(A)", 77).expect("a text");
    let report = RefCell::new(start());
    grows("report, a batch, `high(A)`", some, |recording| {
        let added = report.borrow_mut().add(recording);
        if matches!(added, Ok(mill::Added::Report(_))) {
            report.replace(start());
        }
        added
    });
    grows("entry", some, mill::entry);
    let summaries = LENGTHS.map(|records| summary(records / 2));
    grows_over("find, half as many entries, none", summaries, |summary| {
        mill::find_into(summary, Curve::A, 2_000_000, &mut out.borrow_mut())
    });
}

/// How the times grow with the nodes of a text, with the runs of its sets and with the tops of a recording, on 4,096 records.
pub fn of_texts_and_tops() {
    let readings = with_tops(&evenly(64, RECORDS), &evenly(64, RECORDS));
    let out = RefCell::new(vec![0; RECORDS * sys::MILL_RECORD_BYTES]);
    let time = |readings: &[Reading], text: &str| {
        let recording = bytes(readings);
        let call = || mill::question_into(black_box(&recording), text.as_bytes(), &mut out.borrow_mut());
        call().expect(text);
        best(call, call).0
    };
    // `or` over so many F of an atom: three nodes each, but for the first.
    let nodes = |terms: usize| vec!["F(A<=v)"; terms].join("|");
    table("4,096 records, by nodes", &["2", "5", "8", "17", "32"], "32 by 2", || {
        [1, 2, 3, 6, 11].map(|terms| time(&readings, &nodes(terms))).to_vec()
    });
    table("32 nodes, by runs of its sets", &["1", "61", "125", "249"], "249 by 1", || {
        let of = |values: usize| time(&with_values(readings.clone(), values), MANY_RUNS);
        vec![time(&readings, ONE_RUN), of(30), of(62), of(124)]
    });
    for text in ["peaks(A)", "gaps(A)", "steps(A)"] {
        table(&format!("`{text}`, by tops"), &["0", "64", "128", "256"], "256 by 64", || {
            [0, 64, 128, 256].map(|tops| time(&with_tops(&evenly(tops, RECORDS), &[]), text)).to_vec()
        });
    }
    // 32 nodes, 29 of them F, each of which joins a set of 256 values to another at every record.
    let deep = |open: usize, atom: &str| format!("{}{atom}{}", "F(".repeat(open), ")".repeat(open));
    let slowest = format!("{}|{}", deep(15, "A=v"), deep(14, "B=v"));
    table("the slowest question that is known: F fifteen and fourteen deep, by values", &["1", "256"], "256 by 1", || {
        let values = |count: usize| {
            let mut readings = with_values(readings.clone(), count);
            readings.iter_mut().enumerate().for_each(|(index, reading)| reading.b = (index * 41 % count * 4) as i32);
            readings
        };
        vec![time(&values(1), &slowest), time(&values(256), &slowest)]
    });
}

/// One table of one row: the columns, and the last column by another, which `by` names.
fn table(name: &str, columns: &[&str], by: &str, times: impl Fn() -> Vec<f64>) {
    if !wanted(name) {
        return;
    }
    let times = times();
    let first = columns.iter().position(|column| by.ends_with(&format!(" by {column}"))).expect("a column");
    println!("\n| {name} | {} | {by} |\n|{}", columns.join(" | "), " --- |".repeat(columns.len() + 2));
    let cells: Vec<String> = times.iter().map(|time| microseconds(*time)).collect();
    println!("| µs | {} | {:.1} |", cells.join(" | "), times[times.len() - 1] / times[first]);
}

fn asks(name: &str, readings: impl Fn(usize) -> Vec<Reading>, text: &str, out: &RefCell<Vec<u8>>) {
    grows(name, readings, |recording| mill::question_into(recording, text.as_bytes(), &mut out.borrow_mut()));
}

/// One row, for a call on recordings.
fn grows<T: std::fmt::Debug>(
    name: &str,
    readings: impl Fn(usize) -> Vec<Reading>,
    call: impl Fn(&[u8]) -> Result<T, mill::Refusal>,
) {
    grows_over(name, LENGTHS.map(|records| bytes(&readings(records))), call);
}

/// One row. The call is not refused.
fn grows_over<T: std::fmt::Debug>(
    name: &str,
    inputs: [Vec<u8>; LENGTHS.len()],
    call: impl Fn(&[u8]) -> Result<T, mill::Refusal>,
) {
    if !wanted(name) {
        return;
    }
    // Each length in turn with the longest, which so is measured at all times.
    let longest = &inputs[LENGTHS.len() - 1];
    let both = inputs.each_ref().map(|input| {
        call(input).expect(name);
        best(|| call(black_box(input)), || call(black_box(longest)))
    });
    let least = both.iter().map(|(_, longest)| *longest).fold(f64::INFINITY, f64::min);
    let times = [both[0].0, both[1].0, both[2].0, both[3].0.min(least)];
    let cells: Vec<String> = times.iter().map(|time| microseconds(*time)).collect();
    println!("| {name} | {} | {:.1} |", cells.join(" | "), times[3] / times[0]);
}
