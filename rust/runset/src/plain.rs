//! The same sets in plain Rust, held alike: the ascending cuts in words that are lent, and their number in the last word. One loop for each operation.

pub const AXIS: u32 = 4_000_000_001;
pub const MOST_RUNS: usize = 256;
pub const CUTS: usize = 2 * MOST_RUNS;
pub const SLOT: usize = CUTS + 1;
pub const SHARED: usize = 2 * CUTS;

pub type Slot = [u32; SLOT];

pub const EMPTY: Slot = [0; SLOT];

fn cuts(a: &[u32]) -> &[u32] {
    &a[..a[CUTS] as usize]
}

/// What two sets share, run by run.
fn meet(a: &[u32], b: &[u32], out: &mut [u32]) -> Option<usize> {
    let (mut i, mut j, mut n) = (0, 0, 0);
    while i < a.len() && j < b.len() {
        let ((low_a, end_a), (low_b, end_b)) = ((a[i], a[i + 1]), (b[j], b[j + 1]));
        if end_a <= low_b {
            i += 2;
        } else if end_b <= low_a {
            j += 2;
        } else {
            if n == out.len() {
                return None;
            }
            out[n] = low_a.max(low_b);
            out[n + 1] = end_a.min(end_b);
            n += 2;
            if end_a < end_b {
                i += 2;
            } else {
                j += 2;
            }
        }
    }
    Some(n)
}

/// A merge run by run, as one would write it for joining alone: what one set has left when the other is used up is copied.
fn join(a: &[u32], b: &[u32], set: &mut [u32]) -> bool {
    let (mut i, mut j, mut n) = (0, 0, 0);
    let first = match (a, b) {
        ([], []) => {
            set[CUTS] = 0;
            return false;
        }
        ([], _) => &b[..2],
        (_, []) => &a[..2],
        _ => {
            if a[0] < b[0] {
                &a[..2]
            } else {
                &b[..2]
            }
        }
    };
    let (mut low, mut end) = (first[0], first[1]);
    while i < a.len() && j < b.len() {
        let run = if a[i] < b[j] {
            i += 2;
            &a[i - 2..i]
        } else {
            j += 2;
            &b[j - 2..j]
        };
        if run[0] <= end {
            end = end.max(run[1]);
        } else {
            if n == CUTS {
                return true;
            }
            set[n] = low;
            set[n + 1] = end;
            n += 2;
            (low, end) = (run[0], run[1]);
        }
    }
    let mut rest = if i < a.len() { &a[i..] } else { &b[j..] };
    while !rest.is_empty() && rest[0] <= end {
        end = end.max(rest[1]);
        rest = &rest[2..];
    }
    if CUTS < n + 2 + rest.len() {
        return true;
    }
    set[n] = low;
    set[n + 1] = end;
    set[n + 2..n + 2 + rest.len()].copy_from_slice(rest);
    set[CUTS] = (n + 2 + rest.len()) as u32;
    false
}

pub fn or(a: &[u32], b: &[u32], set: &mut [u32]) -> bool {
    join(cuts(a), cuts(b), set)
}

pub fn and(a: &[u32], b: &[u32], set: &mut [u32]) -> bool {
    match meet(cuts(a), cuts(b), &mut set[..CUTS]) {
        None => true,
        Some(n) => {
            set[CUTS] = n as u32;
            false
        }
    }
}

/// The same cuts, with one more or less at either end of the axis.
pub fn not(a: &[u32], set: &mut [u32]) -> bool {
    let a = cuts(a);
    let low = usize::from(a.first() == Some(&0));
    let high = usize::from(a.last() == Some(&AXIS));
    let inner = &a[low..a.len() - high];
    let (front, n) = (1 - low, inner.len() + 2 - low - high);
    if CUTS < n {
        return true;
    }
    set[0] = 0;
    set[front..front + inner.len()].copy_from_slice(inner);
    if high == 0 {
        set[n - 1] = AXIS;
    }
    set[CUTS] = n as u32;
    false
}

pub fn or_and(a: &[u32], p: &[u32], r: &[u32], shared: &mut [u32], set: &mut [u32]) -> bool {
    let n = meet(cuts(p), cuts(r), shared).unwrap();
    join(cuts(a), &shared[..n], set)
}
