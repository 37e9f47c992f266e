//! Recording R2, of which not all is kept, and its lines. R1 keeps all its readings, so it can't tell thinning from copying. The
//! fall at 60 stands on a shoulder and is no top; that at 40 has its rise at 10, beyond two flat readings.

use reference::recording::{bytes, Record, FLAT};
use reference::set::{HIGH, LOW};

pub fn r2() -> Vec<Record> {
    let slopes = [2, 2, 1, 1, 0, 1, 0, 1, 1];
    (0..9).map(|i| Record { time: 10 * i as i64, value: [10 - i as i64, 0], slope: [slopes[i], FLAT], pigment: 0 }).collect()
}

pub fn r2_bytes() -> Vec<u8> {
    bytes(&r2())
}

/// Texts and the runs that they answer.
pub const ANSWERS: [(&str, &[(i64, i64)]); 7] = [
    ("high(A)", &[(LOW, 10)]),
    ("peaks(A)", &[(40, 40)]),
    ("gaps(A)", &[]),
    ("dips(A)", &[]),
    ("cross|crossup", &[]),
    ("lowafter(A,10)", &[(2, HIGH)]),
    ("capafter(A,10)", &[(8, HIGH)]),
];

/// Marks and the times of the readings that are kept: 10 as the rise of the top, 30 before it, 60 as the last that is not flat. The
/// reading at a mark is not later than it.
pub const KEPT: [(&[u32], &[i64]); 3] =
    [(&[], &[0, 10, 30, 40, 60, 80]), (&[40], &[0, 10, 30, 40, 50, 60, 80]), (&[10], &[0, 10, 20, 30, 40, 60, 80])];

/// Texts, their runs on R2, and their runs on its kept readings without marks.
pub const LOST: [(&str, &[(i64, i64)], &[(i64, i64)]); 4] = [
    ("F(A=9&X(A=v))", &[(8, 8)], &[(7, 7)]),
    ("F(A=8&X(A=v))", &[(7, 7)], &[]),
    ("U(A>=7,A=v)", &[(6, 10)], &[(6, 7), (9, 10)]),
    ("capafter(A,10)", &[(8, HIGH)], &[(7, HIGH)]),
];
