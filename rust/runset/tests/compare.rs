//! The proved sets beside sets of another making: maps from numbers to membership, and maximal runs counted there.
#[path = "../../tests/support/compared.rs"]
mod compared;

use runset_compare::*;

/// The most runs of a set.
const MOST_RUNS: usize = 256;

/// Calls, each of them counted: every test compares what they give.
fn combine(op: Op, a: &[u8], b: &[u8], c: &[u8], out: &mut [u8]) -> u32 {
    compared::count();
    runset_compare::combine(op, a, b, c, out)
}

fn has(a: &[u8], v: i64) -> u32 {
    compared::count();
    runset_compare::has(a, v)
}

fn distance(a: &[u8], v: i64) -> u32 {
    compared::count();
    runset_compare::distance(a, v)
}

fn stores(a: &[u8], b: &[u8]) -> u32 {
    compared::count();
    runset_compare::stores(a, b)
}

struct Random(u64);

impl Random {
    fn below(&mut self, n: u64) -> u64 {
        self.0 = self.0.wrapping_mul(6364136223846793005).wrapping_add(1442695040888963407);
        (self.0 >> 33) % n
    }
}

/// Disjoint ascending runs that do not touch.
fn joined(mut list: Vec<Run>) -> Vec<Run> {
    list.retain(|r| r.0 <= r.1);
    list.sort();
    let mut out: Vec<Run> = vec![];
    for (l, h) in list {
        match out.last_mut() {
            Some(last) if l <= last.1 + 1 => last.1 = last.1.max(h),
            _ => out.push((l, h)),
        }
    }
    out
}

fn member(set: &[Run], v: i64) -> bool {
    set.iter().any(|r| r.0 <= v && v <= r.1)
}

fn wanted(op: Op, a: bool, b: bool, c: bool) -> bool {
    match op {
        Op::Or => a || b,
        Op::And => a && b,
        Op::Not => !a,
        Op::OrAnd => a || (b && c),
    }
}

/// The maximal runs of an operation, found by asking for membership at every number where it can change.
fn expected(op: Op, a: &[Run], b: &[Run], c: &[Run]) -> Vec<Run> {
    let mut cuts: Vec<i64> = [a, b, c].concat().iter().flat_map(|r| [r.0, r.1 + 1]).collect();
    cuts.extend([LOW, HIGH + 1]);
    cuts.sort();
    cuts.dedup();
    let pieces = cuts.windows(2).filter(|w| wanted(op, member(a, w[0]), member(b, w[0]), member(c, w[0])));
    joined(pieces.map(|w| (w[0], w[1] - 1)).collect())
}

fn check(op: Op, a: &[Run], b: &[Run], c: &[Run]) {
    let want = expected(op, a, b, c);
    let mut out = vec![7u8; 8 * 300];
    let n = combine(op, &bytes(a), &bytes(b), &bytes(c), &mut out);
    if want.len() > MOST_RUNS {
        assert_eq!(n, OVER, "{op:?} {a:?} {b:?} {c:?}");
        assert!(out.iter().all(|&x| x == 7));
        return;
    }
    assert_eq!(n as usize, want.len(), "{op:?} {a:?} {b:?} {c:?}");
    assert_eq!(runs(&out[..8 * want.len()]), want);
    assert!(out[8 * want.len()..].iter().all(|&x| x == 7));
    // an output that just fits, and one byte less
    let mut fit = vec![7u8; 8 * want.len()];
    assert_eq!(combine(op, &bytes(a), &bytes(b), &bytes(c), &mut fit), n);
    assert_eq!(fit, bytes(&want));
    if !want.is_empty() {
        let mut short = vec![7u8; 8 * want.len() - 1];
        assert_eq!(combine(op, &bytes(a), &bytes(b), &bytes(c), &mut short), SHORT);
        assert!(short.iter().all(|&x| x == 7));
    }
}

fn check_all(a: &[Run], b: &[Run], c: &[Run]) {
    for op in OPS {
        check(op, a, b, c);
    }
}

/// At most [`MOST_RUNS`] runs in a window of numbers, many of them touching or overlapping before they are joined.
fn random_set(r: &mut Random, from: i64, width: u64, longest: u64) -> Vec<Run> {
    let most = [80, 80, 80, 320][r.below(4) as usize];
    let n = r.below(most);
    let list = (0..n)
        .map(|_| {
            let l = from + r.below(width) as i64;
            (l, (l + r.below(longest) as i64).min(HIGH))
        })
        .collect();
    let mut set = joined(list);
    set.truncate(MOST_RUNS);
    set
}

#[test]
fn random_sets_in_windows() {
    let mut r = Random(1);
    for k in 0..4000 {
        let (width, longest) = [(200, 3), (300, 2), (1000, 12), (100_000, 900), (2_000, 2)][k % 5];
        let from = [LOW, -50, HIGH - width as i64 + 1, 123_456][k / 5 % 4];
        let set = |r: &mut Random| random_set(r, from, width, longest);
        let (a, b, c) = (set(&mut r), set(&mut r), set(&mut r));
        check_all(&a, &b, &c);
    }
}

#[test]
fn members_and_distances() {
    let mut r = Random(2);
    for k in 0..600 {
        let (width, longest) = [(200, 3), (1000, 12), (4_000_000_000, 90_000_000)][k % 3];
        let from = if width > 1000 { LOW } else { [LOW, -50, HIGH - 999][k / 3 % 3] };
        let a = random_set(&mut r, from, width, longest);
        let x = bytes(&a);
        for _ in 0..40 {
            let v = (from + r.below(width + 3) as i64 - 1).clamp(LOW, HIGH);
            assert_eq!(has(&x, v), member(&a, v) as u32);
            let near = a.iter().map(|q| (q.0 - v).max(v - q.1).max(0)).min();
            assert_eq!(distance(&x, v), near.map_or(AXIS, |d| d as u32), "{a:?} {v}");
        }
    }
    assert_eq!(distance(&bytes(&[(LOW, LOW)]), HIGH), 4_000_000_000);
    assert_eq!(distance(&[], 5), AXIS);
    assert_eq!(has(&[], HIGH + 1), 3);
    assert_eq!(distance(&[], HIGH + 1), OFF_AXIS);
}

#[test]
fn touching_runs_join() {
    check_all(&[(3, 5)], &[(6, 9)], &[]);
    let mut out = [0u8; 8];
    assert_eq!(combine(Op::Or, &bytes(&[(3, 5)]), &bytes(&[(6, 9)]), &[], &mut out), 1);
    assert_eq!(runs(&out), [(3, 9)]);
}

/// Runs of 8 numbers, 10 apart.
fn comb(n: i64, from: i64) -> Vec<Run> {
    (0..n).map(|k| (from + 10 * k, from + 10 * k + 7)).collect()
}

fn apart(n: i64, from: i64, step: i64) -> Vec<Run> {
    (0..n).map(|k| (from + k * step, from + k * step)).collect()
}

#[test]
fn the_limit_is_exact() {
    // 256 runs inside the axis have a complement of 257, with a run at an axis end of 256
    for (set, over) in [
        (apart(256, 5, 10), true),
        (apart(256, LOW, 10), false),
        (apart(256, HIGH - 2_550, 10), false),
        (apart(255, 5, 10), false),
    ] {
        let mut out = [0u8; 2048];
        assert_eq!(combine(Op::Not, &bytes(&set), &[], &[], &mut out) == OVER, over);
        check_all(&set, &apart(256, 10, 10), &apart(128, 0, 20));
    }
    // 256 and 257 runs in all; and 512 that join to one
    let mut out = [0u8; 2048];
    for (more, given) in [(96, 256), (97, OVER)] {
        let (a, b) = (apart(160, 0, 10), apart(more, 1605, 10));
        assert_eq!(combine(Op::Or, &bytes(&a), &bytes(&b), &[], &mut out), given);
        check_all(&a, &b, &[]);
    }
    assert_eq!(combine(Op::Or, &bytes(&apart(256, 0, 2)), &bytes(&apart(256, 1, 2)), &[], &mut out), 1);
    check_all(&apart(256, 0, 2), &apart(256, 1, 2), &[(0, 800)]);
    // two sets of 129 runs share 257, of 129 and 128 they share 256
    for (n, given) in [(129, OVER), (128, 256)] {
        let (a, b) = (comb(129, 0), comb(n, 5));
        assert_eq!(combine(Op::And, &bytes(&a), &bytes(&b), &[], &mut out), given);
        check_all(&a, &b, &[(0, 700)]);
    }
    // what b and c share has 511 runs; with a it is one, or 256, or 257
    for (a, given) in [(vec![], OVER), (vec![(0, 2_800)], 1), (vec![(0, 1_280)], 256), (vec![(0, 1_275)], OVER)] {
        assert_eq!(combine(Op::OrAnd, &bytes(&a), &bytes(&comb(256, 0)), &bytes(&comb(256, 5)), &mut out), given);
        check_all(&a, &comb(256, 0), &comb(256, 5));
    }
}

#[test]
fn the_ends_of_the_axis() {
    let (first, last, all) = ([(LOW, LOW)], [(HIGH, HIGH)], [(LOW, HIGH)]);
    for a in [&[][..], &first, &last, &all, &[(LOW, -1), (1, HIGH)]] {
        for b in [&[][..], &first, &last, &all, &[(LOW + 1, HIGH - 1)]] {
            check_all(a, b, &all);
            check_all(a, b, &[]);
        }
    }
}

#[test]
fn refused_bytes() {
    let mut out = [9u8; 16];
    let off = [HIGH as i32 as u32, (HIGH + 1) as u32].map(|x| x.to_le_bytes()).concat();
    assert_eq!(combine(Op::Or, &off, &[], &[], &mut out), REFUSED);
    assert_eq!(combine(Op::Or, &bytes(&apart(257, 0, 2)), &[], &[], &mut out), REFUSED);
    assert_eq!(out, [9u8; 16]);
    assert_eq!(has(&off, 0), 2);
}

/// The plain Rust that the measurement compares with gives the same sets.
#[test]
fn plain_is_the_same() {
    let mut r = Random(3);
    let set = |list: &[Run]| {
        let mut s = plain::EMPTY;
        for (k, q) in list.iter().enumerate() {
            s[2 * k] = index(q.0);
            s[2 * k + 1] = index(q.1) + 1;
        }
        s[plain::CUTS] = 2 * list.len() as u32;
        s
    };
    for _ in 0..2000 {
        let mut one = || random_set(&mut r, -50, 300, 4);
        let (a, b, c) = (one(), one(), one());
        for op in OPS {
            let want = expected(op, &a, &b, &c);
            let (x, y, z) = (set(&a), set(&b), set(&c));
            let (mut shared, mut made) = ([0; plain::SHARED], plain::EMPTY);
            let over = match op {
                Op::Or => plain::or(&x, &y, &mut made),
                Op::And => plain::and(&x, &y, &mut made),
                Op::Not => plain::not(&x, &mut made),
                Op::OrAnd => plain::or_and(&x, &y, &z, &mut shared, &mut made),
            };
            assert_eq!(over, want.len() > MOST_RUNS);
            if !over {
                let (n, want) = (2 * want.len(), set(&want));
                assert_eq!(made[..n], want[..n]);
                assert_eq!(made[plain::CUTS], want[plain::CUTS]);
            }
        }
    }
}

/// How a run lies to another.
fn lie(how: usize, (l, h): Run) -> Run {
    match how {
        0 => (h + 1, h + 4), // touching
        1 => (h - 1, h + 3), // overlapping
        2 => (l + 1, h - 1), // nested
        3 => (l, h),         // equal
        _ => (h + 2, h + 3), // disjoint
    }
}

/// Paper 4: joining stores each run of the result once. Every pair has its result within the limit; every sixth pair lies in one of the five ways to one
/// another, and every sixth has an empty set.
#[test]
fn joining_stores_each_run_once() {
    let mut r = Random(4);
    let mut pairs = 0;
    while pairs < 1000 {
        let how = pairs % 6;
        let n = 1 + r.below(120) as i64;
        let a: Vec<Run> =
            joined((0..n).map(|k| (LOW + 40 * k + r.below(9) as i64, LOW + 40 * k + 12 + r.below(9) as i64)).collect());
        let b: Vec<Run> =
            if how == 5 { vec![] } else { joined(a.iter().filter(|_| r.below(4) > 0).map(|&q| lie(how, q)).collect()) };
        let (a, b) = if r.below(2) == 0 { (a, b) } else { (b, a) };
        let want = expected(Op::Or, &a, &b, &[]);
        if want.len() > MOST_RUNS || (how < 5 && (a.is_empty() || b.is_empty())) {
            continue;
        }
        assert!(how != 0 || want.len() <= a.len().max(b.len()), "touching runs are one: {a:?} {b:?}");
        assert_eq!(stores(&bytes(&a), &bytes(&b)), want.len() as u32, "{a:?} {b:?}");
        pairs += 1;
    }
}

/// And where sets are of any kind: the count, or that there are too many runs.
#[test]
fn joining_counts_at_random() {
    let mut r = Random(5);
    let (mut over, mut near) = (0, 0);
    for _ in 0..2000 {
        let mut one = || random_set(&mut r, -50, 4000, 2);
        let (a, b) = (one(), one());
        let want = expected(Op::Or, &a, &b, &[]).len();
        let told = stores(&bytes(&a), &bytes(&b));
        assert_eq!(told, if want > MOST_RUNS { OVER } else { want as u32 });
        over += usize::from(want > MOST_RUNS);
        near += usize::from(want <= MOST_RUNS && want > MOST_RUNS - 16);
    }
    assert!(over >= 100 && near >= 20, "{over} {near}");
    assert_eq!(stores(&[1, 2, 3, 4, 5, 6, 7, 127], &[]), REFUSED);
}
