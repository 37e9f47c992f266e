//! Times the proved operations and the plain ones side by side, at 1, at 64 and at 256 runs.
use runset_compare::{bytes, index, plain, repeat, Op, Run, LOW, OPS};
use std::hint::black_box;

/// Runs 1000 apart, 400 to 600 wide, each but the first moved by a number of a generator. The first begins with the axis, so that the complement is no larger.
fn spread(n: i64, seed: u64) -> Vec<Run> {
    let mut x = seed;
    (0..n)
        .map(|i| {
            x = x.wrapping_mul(6364136223846793005).wrapping_add(1442695040888963407);
            let low = LOW + i * 1000 + if i == 0 { 0 } else { (x >> 33) as i64 % 300 };
            (low, low + 400 + (x >> 43) as i64 % 200)
        })
        .collect()
}

fn set(runs: &[Run]) -> plain::Slot {
    let mut s = plain::EMPTY;
    for (k, &(l, h)) in runs.iter().enumerate() {
        s[2 * k] = index(l);
        s[2 * k + 1] = index(h) + 1;
    }
    s[plain::CUTS] = 2 * runs.len() as u32;
    s
}

fn plain_repeat(op: Op, a: &plain::Slot, b: &plain::Slot, c: &plain::Slot, times: u64) -> u64 {
    let (mut shared, mut m) = ([0; plain::SHARED], plain::EMPTY);
    let mut total = 0u64;
    for _ in 0..times {
        let (a, b, c) = (black_box(a), black_box(b), black_box(c));
        let over = match op {
            Op::Or => plain::or(a, b, &mut m),
            Op::And => plain::and(a, b, &mut m),
            Op::Not => plain::not(a, &mut m),
            Op::OrAnd => plain::or_and(a, b, c, &mut shared, &mut m),
        };
        assert!(!over);
        let run = total as usize % (m[plain::CUTS] as usize / 2);
        total = total.wrapping_add(m[2 * run] as u64);
    }
    total
}

#[repr(C)]
struct Timespec {
    seconds: i64,
    nanos: i64,
}

extern "C" {
    fn clock_gettime(clock: i32, time: *mut Timespec) -> i32;
}

/// The processor time of this thread, in nanoseconds: what other programs take does not count.
fn own_time() -> f64 {
    const THREAD: i32 = 3;
    let mut t = Timespec { seconds: 0, nanos: 0 };
    unsafe { clock_gettime(THREAD, &mut t) };
    t.seconds as f64 * 1e9 + t.nanos as f64
}

fn timed(f: impl FnOnce() -> u64) -> (f64, u64) {
    let start = own_time();
    let sum = f();
    (own_time() - start, sum)
}

/// The least time of either side over rounds that take turns.
fn main() {
    println!("{:8} {:>4} {:>10} {:>10} {:>6}", "op", "runs", "proved ns", "plain ns", "ratio");
    for runs in [1, 64, 256] {
        let (a, b, c) = (spread(runs, 1), spread(runs, 2), spread(runs, 3));
        let (x, y, z) = (bytes(&a), bytes(&b), bytes(&c));
        let times = if runs == 1 { 100_000 } else { 640_000 / runs as u64 };
        for op in OPS {
            let (mut read, mut ours, mut theirs) = (f64::MAX, f64::MAX, f64::MAX);
            let (p, q, r) = (set(&a), set(&b), set(&c));
            for _ in 0..40 {
                // The bytes of the sets are read once for each call of the library: that is taken off.
                read = read.min(timed(|| repeat(op, &x, &y, &z, 0)).0);
                let (t, n) = timed(|| repeat(op, &x, &y, &z, times));
                let (u, m) = timed(|| plain_repeat(op, &p, &q, &r, times));
                assert_eq!(n, m, "{op:?}");
                ours = ours.min(t);
                theirs = theirs.min(u);
            }
            let (ours, theirs) = ((ours - read) / times as f64, theirs / times as f64);
            println!("{:8} {:4} {:10.1} {:10.1} {:6.2}", format!("{op:?}"), runs, ours, theirs, ours / theirs);
        }
    }
}
