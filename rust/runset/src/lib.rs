//! The proved sets of whole numbers, called from outside.

pub mod plain;

extern "C" {
    fn runset_combine(
        op: u32,
        a: *const u8,
        a_len: usize,
        b: *const u8,
        b_len: usize,
        c: *const u8,
        c_len: usize,
        out: *mut u8,
        out_len: usize,
    ) -> u32;
    fn runset_has(a: *const u8, a_len: usize, v: u32) -> u32;
    fn runset_distance(a: *const u8, a_len: usize, v: u32) -> u32;
    fn runset_stores(a: *const u8, a_len: usize, b: *const u8, b_len: usize) -> u32;
    fn runset_repeat(
        op: u32,
        a: *const u8,
        a_len: usize,
        b: *const u8,
        b_len: usize,
        c: *const u8,
        c_len: usize,
        times: u64,
    ) -> u64;
}

pub const LOW: i64 = -2_000_000_000;
pub const HIGH: i64 = 2_000_000_000;
pub const REFUSED: u32 = 4_294_967_295;
pub const OVER: u32 = 4_294_967_294;
pub const SHORT: u32 = 4_294_967_293;
pub const OFF_AXIS: u32 = 4_294_967_294;
pub const AXIS: u32 = 4_000_000_001;

#[derive(Clone, Copy, PartialEq, Debug)]
pub enum Op {
    Or,
    And,
    Not,
    OrAnd,
}

pub const OPS: [Op; 4] = [Op::Or, Op::And, Op::Not, Op::OrAnd];

/// A run of numbers, both ends included.
pub type Run = (i64, i64);

/// The bytes of runs.
pub fn bytes(runs: &[Run]) -> Vec<u8> {
    runs.iter().flat_map(|&(l, h)| [(l as i32).to_le_bytes(), (h as i32).to_le_bytes()].concat()).collect()
}

/// The runs that stand in bytes.
pub fn runs(bytes: &[u8]) -> Vec<Run> {
    let number = |b: &[u8]| i32::from_le_bytes(b.try_into().unwrap()) as i64;
    bytes.chunks(8).map(|b| (number(&b[..4]), number(&b[4..]))).collect()
}

pub fn combine(op: Op, a: &[u8], b: &[u8], c: &[u8], out: &mut [u8]) -> u32 {
    unsafe {
        runset_combine(op as u32, a.as_ptr(), a.len(), b.as_ptr(), b.len(), c.as_ptr(), c.len(), out.as_mut_ptr(), out.len())
    }
}

pub fn index(v: i64) -> u32 {
    (v - LOW) as u32
}

pub fn has(a: &[u8], v: i64) -> u32 {
    unsafe { runset_has(a.as_ptr(), a.len(), index(v)) }
}

pub fn distance(a: &[u8], v: i64) -> u32 {
    unsafe { runset_distance(a.as_ptr(), a.len(), index(v)) }
}

/// How many runs the joining of two sets stores: it counts each when it stores it.
pub fn stores(a: &[u8], b: &[u8]) -> u32 {
    unsafe { runset_stores(a.as_ptr(), a.len(), b.as_ptr(), b.len()) }
}

/// Does the operation over and over; gives a sum over what it makes.
pub fn repeat(op: Op, a: &[u8], b: &[u8], c: &[u8], times: u64) -> u64 {
    unsafe { runset_repeat(op as u32, a.as_ptr(), a.len(), b.as_ptr(), b.len(), c.as_ptr(), c.len(), times) }
}
