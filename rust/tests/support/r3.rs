//! Recording R3, our own: R2 with pigments, 7 added at 20 and 16 at 40, and its lines.

use super::r2::r2;
use reference::recording::{bytes, Record};
use reference::set::{HIGH, LOW};

pub fn r3() -> Vec<Record> {
    let pigments = [0, 0, 7, 0, 16, 0, 0, 0, 0];
    r2().into_iter().zip(pigments).map(|(record, pigment)| Record { pigment, ..record }).collect()
}

pub fn r3_bytes() -> Vec<u8> {
    bytes(&r3())
}

/// Texts and the runs that they answer.
pub const ANSWERS: [(&str, &[(i64, i64)]); 9] = [
    ("dose(7)", &[(20, 20)]),
    ("dose(16)", &[(40, 40)]),
    ("dose(3)", &[]),
    ("dose(7)|dose(16)", &[(20, 20), (40, 40)]),
    ("dose(16)&peaks(A)", &[(40, 40)]),
    ("P=7", &[]),
    ("X(X(P=7))", &[(LOW, HIGH)]),
    ("F(P=7&T=v)", &[(20, 20)]),
    ("F(P=16&A=v)", &[(6, 6)]),
];

/// Marks and the times of the readings that are kept: those of R2, and 20 for its pigment.
pub const KEPT: [(&[u32], &[i64]); 3] =
    [(&[], &[0, 10, 20, 30, 40, 60, 80]), (&[40], &[0, 10, 20, 30, 40, 50, 60, 80]), (&[10], &[0, 10, 20, 30, 40, 60, 80])];

/// Texts, their runs on R3, and their runs on its kept readings without marks.
pub const LOST: [(&str, &[(i64, i64)], &[(i64, i64)]); 2] =
    [("F(P=16&X(T=v))", &[(50, 50)], &[(60, 60)]), ("F(P=16&X(A=v))", &[(5, 5)], &[(4, 4)])];
