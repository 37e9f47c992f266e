//! Recording R5, our own: R2 with another master, which reads 5 at 20. For the batch's sake nothing differs, yet it keeps the reading at 20.

use super::r2::r2;
use reference::recording::{bytes, Record};

pub fn r5() -> Vec<Record> {
    let mut records = r2();
    records[2].value[1] = 5;
    records
}

pub fn r5_bytes() -> Vec<u8> {
    bytes(&r5())
}

/// The times of the readings that are kept without marks.
pub const KEPT: [i64; 7] = [0, 10, 20, 30, 40, 60, 80];
