//! Recording R1 and its lines, as the scope prints them, with those of Papers 1 and 5: its tops need their rise, and have it.

use reference::recording::{bytes, Record, FLAT};
use reference::set::{HIGH, LOW};

pub fn r1() -> Vec<Record> {
    let a = [40, 60, 80, 70, 30, 55, 90, 45];
    let slopes = [2, 2, 2, 0, 0, 2, 2, 0];
    (0..8).map(|i| Record { time: 10 * i as i64, value: [a[i], 50], slope: [slopes[i], FLAT], pigment: 0 }).collect()
}

pub fn r1_bytes() -> Vec<u8> {
    bytes(&r1())
}

/// Texts and the runs that they answer.
pub const ANSWERS: [(&str, &[(i64, i64)]); 13] = [
    ("high(A)", &[(LOW, 90)]),
    ("low(A)", &[(30, HIGH)]),
    ("ampl(A)", &[(LOW, 60)]),
    ("peaks(A)", &[(30, 30), (70, 70)]),
    ("gaps(A)", &[(40, 40)]),
    ("dips(A)", &[(50, 50)]),
    ("cross", &[(40, 40), (70, 70)]),
    ("crossup", &[(10, 10), (50, 50)]),
    ("lag", &[]),
    ("lowafter(A,40)", &[(45, HIGH)]),
    ("lowafter(A,70)", &[]),
    ("capafter(A,70)", &[(LOW, HIGH)]),
    ("U(A>=40,A=v)", &[(30, 30), (40, 40), (60, 60), (70, 70), (80, 80)]),
];

/// Marks and the times of the readings that are kept: all eight.
pub const KEPT: [(&[u32], &[i64]); 2] = [(&[], &[0, 10, 20, 30, 40, 50, 60, 70]), (&[40], &[0, 10, 20, 30, 40, 50, 60, 70])];

/// A text that looks at the reading after one, and its runs on R1 and on its kept readings alike.
pub const RIGHT_AFTER: (&str, &[(i64, i64)]) = ("F(A=60&X(A=v))", &[(80, 80)]);
