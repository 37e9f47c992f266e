//! Recording R4, our own: one plateau, and its lines. The rise at 10 of the top at 40 is kept, and lists of before Paper 5 may lack it.

use super::recordings::with_slopes;
use reference::recording::{bytes, Record, FALLING, FLAT, RISING};
use reference::set::{HIGH, LOW};

pub fn r4() -> Vec<Record> {
    let mut records = with_slopes(0, &[FLAT, RISING, FLAT, FLAT, FALLING]);
    for record in &mut records {
        (record.time, record.value) = (10 * record.time, [7, 0]);
    }
    records
}

pub fn r4_bytes() -> Vec<u8> {
    bytes(&r4())
}

/// The times of the readings that are kept.
pub const KEPT: [i64; 4] = [0, 10, 30, 40];

/// The times of the readings that document 01's own rule kept.
pub const KEPT_BY_01: [i64; 3] = [0, 30, 40];

/// Texts, their runs on R4, and their runs on the readings that document 01's own rule kept.
pub const LOST_BY_01: [(&str, &[(i64, i64)], &[(i64, i64)]); 2] =
    [("peaks(A)", &[(40, 40)], &[]), ("!peaks(A)", &[(LOW, 39), (41, HIGH)], &[(LOW, HIGH)])];

/// Texts, their runs on R4, and their runs on its kept readings.
pub const LOST: [(&str, &[(i64, i64)], &[(i64, i64)]); 2] = [
    ("F(T=v)", &[(0, 0), (10, 10), (20, 20), (30, 30), (40, 40)], &[(0, 0), (10, 10), (30, 30), (40, 40)]),
    ("F(rise(A)&X(T=v))", &[(20, 20)], &[(30, 30)]),
];
