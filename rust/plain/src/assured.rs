//! Which texts kept readings answer as the recording did: bits of each node, from those of its children.

use crate::recording::marks;
use crate::text::{nodes, Op, Right};
use crate::Refused;

const TEMPORAL: u32 = 1;
/// A listed question whose after-time is no mark stands below.
const UNMARKED: u32 = 1 << 1;
/// True, and false, at every reading without a pigment.
const ON: u32 = 1 << 2;
const OFF: u32 = 1 << 3;
/// True at a reading that is left out, it is true at the next; and the other way round.
const ONWARD: u32 = 1 << 4;
const BACK: u32 = 1 << 5;
const STEADY: u32 = 1 << 6;
const EVEN: u32 = 1 << 7;
const NAMELESS: u32 = 1 << 8;
const SLOPE: u32 = 1 << 9;
const NOT_SLOPE: u32 = 1 << 10;
const BOUND: u32 = 1 << 11;
const AFTER: u32 = 1 << 12;
const NOT_AFTER: u32 = 1 << 13;
const ATOM: u32 = 1 << 14;
const SOMEWHERE: u32 = 1 << 15;
const THROUGHOUT: u32 = 1 << 16;
const FIRST: u32 = 1 << 17;

/// What is so of a node if it is so of both children, and if it is so of one.
const OF_BOTH: u32 = STEADY | EVEN | NAMELESS | FIRST;
const OF_EITHER: u32 = TEMPORAL | UNMARKED;

/// Whether the text is assured under the marks.
pub fn assured(text: &[u8], mark_bytes: &[u8]) -> Result<bool, Refused> {
    let (nodes, marks) = (nodes(text)?, marks(mark_bytes)?);
    let mut bits = [0; 32];
    for (index, op) in nodes.iter().enumerate() {
        bits[index] = of_node(*op, &bits, &marks);
    }
    let root = bits[nodes.len() - 1];
    Ok(root & (TEMPORAL | UNMARKED) == 0 || has(root, STEADY | EVEN) || has(root, FIRST))
}

fn has(bits: u32, all: u32) -> bool {
    bits & all == all
}

fn when(truth: bool, bits: u32) -> u32 {
    if truth {
        bits
    } else {
        0
    }
}

fn of_node(op: Op, bits: &[u32; 32], marks: &[i32]) -> u32 {
    let atom = STEADY | EVEN | NAMELESS | ATOM | FIRST;
    match op {
        Op::Or(p, q) => {
            let (p, q) = (bits[p], bits[q]);
            let fixed = (p | q) & ON | p & q & OFF;
            connected(p, q, fixed) | when(has(p, NOT_AFTER) && has(q, BOUND), THROUGHOUT)
        }
        Op::And(p, q) => {
            let (p, q) = (bits[p], bits[q]);
            let fixed = p & q & ON | (p | q) & OFF;
            connected(p, q, fixed) | when(has(p, AFTER) && has(q, BOUND), SOMEWHERE)
        }
        Op::Not(p) => {
            let p = bits[p];
            let turned = (p & ON) << 1 | (p & OFF) >> 1 | (p & ONWARD) << 1 | (p & BACK) >> 1;
            let kind = (p & SLOPE) << 1 | (p & AFTER) << 1;
            calm(p & (OF_BOTH | OF_EITHER) | turned | kind)
        }
        Op::Sometime(p) => temporal(bits[p], has(bits[p], STEADY | ONWARD) || has(bits[p], SLOPE), has(bits[p], SOMEWHERE)),
        Op::Always(p) => {
            let steady = has(bits[p], STEADY | BACK) || has(bits[p], NOT_SLOPE);
            temporal(bits[p], steady, has(bits[p], THROUGHOUT)) | when(has(bits[p], ATOM), SOMEWHERE)
        }
        Op::Next(p) => temporal(bits[p], has(bits[p], STEADY | ONWARD | BACK), false) & !(ONWARD | BACK),
        Op::Until(p, q) | Op::WeakUntil(p, q) => {
            let (p, q) = (bits[p], bits[q]);
            let steady = has(p & q, STEADY) && has(q, ONWARD) && (has(p, ON) || has(p & q, BACK));
            temporal(p & q & OF_BOTH | (p | q) & OF_EITHER, steady, false)
        }
        Op::Compare(_, low, high, Right::CurveB) => atom | when((low, high) == (1, 1) || (low, high) == (-1, 0), ONWARD | BACK),
        Op::Compare(left, low, high, right) => {
            let named = matches!(right, Right::Variable);
            let after = (low, high) == (1, 1) && matches!(right, Right::Number(k) if marks.contains(&k));
            let time = when(high > 0, ONWARD) | when(low < 0, BACK) | when(after, AFTER);
            let curve = when(low < 0 || high > 0, BOUND | SOMEWHERE | THROUGHOUT);
            (if left == 2 { time } else { curve }) | atom & !when(named, NAMELESS)
        }
        Op::Slope(..) => atom | SLOPE,
        Op::Pigment(_) => atom | OFF | ONWARD,
        Op::LowAfter(_, k) | Op::CapAfter(_, k) => when(!marks.contains(&k), UNMARKED),
        _ => 0,
    }
}

fn connected(p: u32, q: u32, fixed: u32) -> u32 {
    let drifts = p & q & (ONWARD | BACK) | (fixed & OFF) << 1 | (fixed & ON) << 3;
    calm(p & q & OF_BOTH | (p | q) & OF_EITHER | fixed | drifts)
}

/// Not even, if it looks ahead, drifts one way at most and is not fixed.
fn calm(bits: u32) -> u32 {
    let is_calm = bits & TEMPORAL == 0 || has(bits, ONWARD | BACK) || bits & (ON | OFF) != 0;
    if is_calm {
        bits
    } else {
        bits & !EVEN
    }
}

fn temporal(below: u32, steady: bool, first: bool) -> u32 {
    let first = first || steady && has(below, NAMELESS);
    TEMPORAL | ONWARD | BACK | below & (UNMARKED | EVEN | NAMELESS) | when(steady, STEADY) | when(first, FIRST)
}
