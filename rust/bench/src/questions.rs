//! The question call.

use crate::measure::writing;
use crate::recordings::{bytes, dense_bytes, evenly, stepping, twos_and, with_additions, with_plateaus, with_tops, RECORDS};
use mill::{sys, Reading};

// Atoms that hold from some number upward: so does all that is made of them without `!`.
pub const ONE_RUN: &str = "G(A<=v|F(B<=v&X(T<=v|A<=v)))&U(A<=v|B<=v,W(B<=v,A<v&T<=v))|X(X(X(X(F(A<v&G(B<v|T<v))))))";
pub const FEW_RUNS: &str = "G(A<=v|F(B>=v&X(!fall(A)|T>=v)))&U(A>=v|rise(B),W(B<=v,A<v&T<=v))|X(X(X(F(A>v&G(B<v|T<v)))))";
pub const MANY_RUNS: &str = "F(A=v)|F(B=v)&!F(A=v|B=v)|U(!(A=v),F(B=v))&G(F(A=v))|X(F(A=v&B>=0))|W(F(A=v),B=v)";

pub fn rows() {
    for tops in [0, 64, 256] {
        // A fall of one reading: where it ends is a dip.
        let readings = with_tops(&evenly(tops, RECORDS), &[]);
        question(&format!("`peaks(A)`, {tops} tops"), 2.0, &readings, "peaks(A)");
        question(&format!("`dips(A)`, {tops} dips"), 2.0, &readings, "dips(A)");
    }
    for flat in [14, 62, RECORDS - 2] {
        question(&format!("`peaks(A)`, plateaus of {flat} readings"), 2.0, &with_plateaus(flat), "peaks(A)");
    }
    let some = with_tops(&evenly(64, RECORDS), &[]);
    question("`high(A)`, 64 tops", 1.0, &some, "high(A)");
    for text in ["low(B)", "lowafter(A,2000)", "ampl(A)", "cross"] {
        question(&format!("`{text}`, 64 tops"), 1.2, &some, text);
    }
    differences();
    for additions in [0, 64, 256, RECORDS] {
        question(&format!("`dose(1)`, {additions} additions"), 1.2, &with_additions(additions), "dose(1)");
    }
    looking_ahead();
}

fn differences() {
    let (many, by) = (evenly(256, RECORDS), |step: usize| (0..256).map(|i| 1 + step * i).collect::<Vec<_>>());
    question("`gaps(A)`, 0 tops", 1.2, &with_tops(&[], &[]), "gaps(A)");
    question("`gaps(A)`, 64 tops evenly", 2.0, &with_tops(&evenly(64, RECORDS), &[]), "gaps(A)");
    question("`gaps(A)`, 256 tops evenly", 2.0, &with_tops(&many, &[]), "gaps(A)");
    dense("`gaps(A)`, 256 tops, dense and often the same", &with_tops(&twos_and(3), &[]), "gaps(A)");
    dense("`gaps(A)`, 256 tops, dense and far", &with_tops(&twos_and(29), &[]), "gaps(A)");
    question("`steps(A)`, 64 tops evenly", 2.0, &with_tops(&evenly(64, RECORDS), &[]), "steps(A)");
    question("`steps(A)`, 256 tops evenly", 2.0, &with_tops(&many, &[]), "steps(A)");
    // Steps of 2, 3, .. 30 readings, by turns: as many as there are room for.
    question("`steps(A)`, 256 tops, 29 steps", 2.0, &with_tops(&stepping(29), &[]), "steps(A)");
    question("`lag`, 32 tops evenly", 2.0, &with_tops(&evenly(32, RECORDS), &evenly(32, RECORDS)), "lag");
    question("`lag`, 256 tops evenly", 2.0, &with_tops(&many, &many), "lag");
    dense("`lag`, 256 tops, dense and often the same", &with_tops(&by(2), &by(3)), "lag");
    dense("`lag`, 256 tops, dense and far", &with_tops(&by(2), &by(15)), "lag");
}

fn looking_ahead() {
    let readings = with_tops(&evenly(64, RECORDS), &evenly(64, RECORDS));
    of_32_nodes("32 nodes, sets of one run", 1.2, &readings, ONE_RUN);
    of_32_nodes("32 nodes, sets of few runs", 1.2, &readings, FEW_RUNS);
    // So many values of each curve, all apart: what neither takes lies in one run more than both together.
    for values in [30, 124] {
        of_32_nodes(
            &format!("32 nodes, sets of up to {} runs", 2 * values + 1),
            1.2,
            &with_values(readings.clone(), values),
            MANY_RUNS,
        );
    }
}

/// So many values of each curve, all apart.
pub fn with_values(mut readings: Vec<Reading>, values: usize) -> Vec<Reading> {
    for (index, reading) in readings.iter_mut().enumerate() {
        reading.a = (index * 37 % values * 4) as i32;
        reading.b = (index * 41 % values * 4 + 1_000) as i32;
    }
    readings
}

fn of_32_nodes(name: &str, aim: f64, readings: &[Reading], text: &str) {
    assert_eq!(reference::text::reading(text.as_bytes()).expect(text).parts().len(), sys::MILL_MAX_NODES);
    question(name, aim, readings, text);
}

fn question(name: &str, aim: f64, readings: &[Reading], text: &str) {
    let (recording, text) = (bytes(readings), text.as_bytes());
    writing(name, aim, |out| mill::question_into(&recording, text, out), |out| plain::question(&recording, text, out));
}

/// Of readings a tenth of a second apart.
fn dense(name: &str, readings: &[Reading], text: &str) {
    let (recording, text) = (dense_bytes(readings), text.as_bytes());
    writing(name, 2.0, |out| mill::question_into(&recording, text, out), |out| plain::question(&recording, text, out));
}
