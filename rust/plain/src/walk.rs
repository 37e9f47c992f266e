//! The set of a text: from the last record to the first where it looks ahead, with the sets of each node at a record and the next.

use crate::listed;
use crate::recording::{check, Record};
use crate::set::{and, not, or, Set, HIGH, LOW, MOST_RUNS};
use crate::text::{is_listed, is_temporal, Op, Right};
use crate::Refused;

/// The set of the text, or refusal 3, 4, 9 or 8. Listed questions do not look ahead, so they are worked out once, and 9 of any of them
/// goes before 8. The records are checked with the first of them, or before all where there is none.
pub fn answer(records: &[[u8; 16]], nodes: &[Op]) -> Result<Set, Refused> {
    let mut now: Vec<Set> = vec![Set::new(); nodes.len()];
    let (mut checked, mut over) = (false, false);
    for (place, node) in nodes.iter().enumerate().filter(|(_, node)| is_listed(node)) {
        let set = if checked { listed::set::<false>(records, *node) } else { listed::set::<true>(records, *node) };
        checked = true;
        match set {
            Err((8, _)) => over = true,
            set => now[place] = set?,
        }
    }
    if !checked {
        check(records)?;
    }
    if over {
        return Err((8, 0));
    }
    let (judged, ahead) = if nodes.iter().any(is_temporal) { (records.len(), nodes.len()) } else { (1, 0) };
    let mut next: Vec<Set> = vec![Set::new(); ahead];
    let mut scratch = Set::new();
    for i in (0..judged).rev() {
        for place in 0..nodes.len() {
            let (done, rest) = now.split_at_mut(place);
            let later = (i + 1 < judged).then_some(&mut next[..]);
            judge(Record(&records[i]), nodes, place, done, later, &mut scratch, &mut rest[0]);
            if rest[0].len() > MOST_RUNS {
                return Err((8, 0));
            }
        }
        if i > 0 {
            std::mem::swap(&mut now, &mut next);
        }
    }
    Ok(now.pop().expect("a text has a node"))
}

/// The set of a node at a record, from the sets that are done there and those of the next record, if there is one. A set of the next
/// record that nobody else reads is taken where it is the answer.
fn judge(record: Record, nodes: &[Op], place: usize, done: &[Set], next: Option<&mut [Set]>, scratch: &mut Set, out: &mut Set) {
    let node = nodes[place];
    if is_listed(&node) {
        return;
    }
    out.clear();
    match (node, next) {
        (Op::Or(p, q), _) | (Op::WeakUntil(p, q), None) => or(&done[p], &done[q], out),
        (Op::And(p, q), _) => and(&done[p], &done[q], out),
        (Op::Not(p), _) => not(&done[p], out),
        (Op::Next(p) | Op::Sometime(p) | Op::Always(p) | Op::Until(_, p), None) => out.extend_from_slice(&done[p]),
        (Op::Next(p), Some(next)) => std::mem::swap(out, &mut next[p]),
        (Op::Sometime(p), Some(next)) if done[p].is_empty() && !is_below_next(nodes, place) => {
            std::mem::swap(out, &mut next[place])
        }
        (Op::Sometime(p), Some(next)) => or(&done[p], &next[place], out),
        (Op::Always(p), Some(next)) if done[p][..] == [(LOW, HIGH)] && !is_below_next(nodes, place) => {
            std::mem::swap(out, &mut next[place])
        }
        (Op::Always(p), Some(next)) => and(&done[p], &next[place], out),
        (Op::Until(p, q) | Op::WeakUntil(p, q), Some(next)) => {
            scratch.clear();
            and(&done[p], &next[place], scratch);
            or(&done[q], scratch, out);
        }
        (Op::Compare(left, from, to, right), _) => compare(record, left, from, to, right, out),
        (Op::Slope(curve, slope), _) => whole_if(record.slope(curve) == slope, out),
        (Op::Pigment(k), _) => whole_if(record.pigment() == k, out),
        _ => unreachable!("a listed question"),
    }
}

/// Whether the node is X's child, whose set at the next record X reads. X stands right behind its child.
fn is_below_next(nodes: &[Op], place: usize) -> bool {
    matches!(nodes.get(place + 1), Some(Op::Next(_)))
}

fn whole_if(truth: bool, out: &mut Set) {
    if truth {
        out.push((LOW, HIGH));
    }
}

fn compare(record: Record, left: usize, from: i32, to: i32, right: Right, out: &mut Set) {
    let here = if left == 2 { record.time() } else { record.value(left) };
    let fits = |other: i32| (from..=to).contains(&(here.cmp(&other) as i32));
    match right {
        Right::Number(number) => whole_if(fits(number), out),
        Right::CurveB => whole_if(fits(record.value(1)), out),
        Right::Variable => {
            // The sign of here - v is `from` to `to`.
            let low = match to {
                1 => LOW,
                0 => here,
                _ => here + 1,
            };
            let high = match from {
                1 => here - 1,
                0 => here,
                _ => HIGH,
            };
            if low <= high {
                out.push((low, high));
            }
        }
    }
}
