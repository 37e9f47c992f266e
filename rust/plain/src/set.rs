//! Sets of numbers, as ascending runs that do not touch.

pub const MOST_RUNS: usize = 256;
pub const LOW: i32 = -2_000_000_000;
pub const HIGH: i32 = 2_000_000_000;

/// Runs (low, high).
pub type Set = Vec<(i32, i32)>;

/// Adds a run that begins at or after the last one's begin.
pub fn add(out: &mut Set, run: (i32, i32)) {
    match out.last_mut() {
        Some(last) if run.0 - 1 <= last.1 => last.1 = last.1.max(run.1),
        _ => out.push(run),
    }
}

pub fn or(p: &[(i32, i32)], q: &[(i32, i32)], out: &mut Set) {
    let (mut i, mut j) = (0, 0);
    // The run under way, which is written when it ends.
    let mut open: Option<(i32, i32)> = None;
    while i < p.len() && j < q.len() {
        let next = if p[i].0 <= q[j].0 {
            i += 1;
            p[i - 1]
        } else {
            j += 1;
            q[j - 1]
        };
        open = match open {
            Some(run) if next.0 - 1 <= run.1 => Some((run.0, run.1.max(next.1))),
            Some(run) => {
                out.push(run);
                Some(next)
            }
            None => Some(next),
        };
    }
    // Of what one list has left, the runs that touch the one under way join it, the rest is copied.
    let mut left = if i < p.len() { &p[i..] } else { &q[j..] };
    if let Some(mut run) = open {
        while let [next, rest @ ..] = left {
            if next.0 - 1 > run.1 {
                break;
            }
            run.1 = run.1.max(next.1);
            left = rest;
        }
        out.push(run);
    }
    out.extend_from_slice(left);
}

pub fn and(p: &[(i32, i32)], q: &[(i32, i32)], out: &mut Set) {
    let (mut i, mut j) = (0, 0);
    while i < p.len() && j < q.len() {
        let (a, b) = (p[i], q[j]);
        if a.1 < b.0 {
            i += 1;
        } else if b.1 < a.0 {
            j += 1;
        } else {
            out.push((a.0.max(b.0), a.1.min(b.1)));
            if a.1 < b.1 {
                i += 1;
            } else {
                j += 1;
            }
        }
    }
}

pub fn not(p: &[(i32, i32)], out: &mut Set) {
    let mut from = LOW;
    for (low, high) in p {
        if from < *low {
            out.push((from, low - 1));
        }
        from = high + 1;
    }
    if from <= HIGH {
        out.push((from, HIGH));
    }
}

/// The numbers b - a, for each a and each b of its list, as runs: all of them where they are not too many, else one run more than there
/// may be. The lists ascend, and none is empty. The differences of one a ascend with b, so they are marked window by window: each a goes
/// on where it stopped.
pub fn differences(mut rows: Vec<(i32, &[i32])>, out: &mut Set) {
    const WINDOW: usize = MOST_RUNS * 16;
    if rows.is_empty() {
        return;
    }
    // A byte for each number, 1 where it is marked.
    let mut marked = [0; WINDOW];
    while let Some(start) = rows.iter().map(|(a, b)| b[0] - a).min() {
        let mut end = 0;
        for (a, rest) in &mut rows {
            // Up to 4,000,000,000, as the places are.
            let base = a.wrapping_add(start);
            let mut inside = 0;
            for b in *rest {
                let place = b.wrapping_sub(base) as u32 as usize;
                if place >= WINDOW {
                    break;
                }
                marked[place] = 1;
                inside += 1;
            }
            // They ascend, so the last one inside is the greatest.
            if inside > 0 {
                end = end.max(rest[inside - 1].wrapping_sub(base) as usize + 1);
            }
            *rest = &rest[inside..];
        }
        for (place, eight) in marked.as_chunks_mut::<8>().0[..end.div_ceil(8)].iter_mut().enumerate() {
            let mut word = u64::from_le_bytes(std::mem::take(eight));
            while word != 0 {
                let number = start + (8 * place + word.trailing_zeros() as usize / 8) as i32;
                word &= word - 1;
                add(out, (number, number));
                if out.len() > MOST_RUNS {
                    return;
                }
            }
        }
        rows.retain(|(_, rest)| !rest.is_empty());
    }
}

/// The numbers, in any order, as runs.
pub fn of_numbers(mut numbers: Vec<i32>, out: &mut Set) {
    numbers.sort_unstable();
    for number in numbers {
        add(out, (number, number));
    }
}
