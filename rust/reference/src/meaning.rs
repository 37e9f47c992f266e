//! Truth: a text at a record, with a number put in for `v`, as the sentences say it. Slow, for small recordings.

use super::recording::{crossing_times, dip_times, top_times, upward_crossing_times, Record, FALLING, RISING};
use super::text::{Left, Node, Relation, Right};

/// The text is true at record `i` with the number `v` put in.
pub fn holds(node: &Node, records: &[Record], i: usize, v: i64) -> bool {
    let last = records.len() - 1;
    match node {
        Node::Or(p, q) => holds(p, records, i, v) || holds(q, records, i, v),
        Node::And(p, q) => holds(p, records, i, v) && holds(q, records, i, v),
        Node::Not(p) => !holds(p, records, i, v),
        Node::Next(p) => holds(p, records, (i + 1).min(last), v),
        Node::Sometime(p) => (i..=last).any(|j| holds(p, records, j, v)),
        Node::Always(p) => (i..=last).all(|j| holds(p, records, j, v)),
        Node::Until(p, q) => until(p, q, records, i, v),
        Node::WeakUntil(p, q) => (i..=last).all(|j| holds(p, records, j, v)) || until(p, q, records, i, v),
        Node::Compare(left, relation, right) => compare(&records[i], *left, *relation, *right, v),
        Node::Fall(curve) => records[i].slope[*curve] == FALLING,
        Node::Rise(curve) => records[i].slope[*curve] == RISING,
        Node::Pigment(k) => records[i].pigment == *k,
        listed => answers(listed, records, v),
    }
}

/// q at some j from i on, and p from i to j-1.
fn until(p: &Node, q: &Node, records: &[Record], i: usize, v: i64) -> bool {
    (i..records.len()).any(|j| holds(q, records, j, v) && (i..j).all(|k| holds(p, records, k, v)))
}

pub fn compare(record: &Record, left: Left, relation: Relation, right: Right, v: i64) -> bool {
    let left = match left {
        Left::Curve(curve) => record.value[curve],
        Left::Time => record.time,
    };
    let right = match right {
        Right::Variable => v,
        Right::Number(number) => number,
        Right::CurveB => record.value[1],
    };
    match relation {
        Relation::AtLeast => left >= right,
        Relation::AtMost => left <= right,
        Relation::Above => left > right,
        Relation::Below => left < right,
        Relation::Equal => left == right,
    }
}

/// The number makes the listed question true.
fn answers(listed: &Node, records: &[Record], v: i64) -> bool {
    let differences = |earlier: &[i64], later: &[i64]| -> Vec<i64> {
        earlier.iter().flat_map(|from| later.iter().map(move |to| to - from)).collect()
    };
    match listed {
        Node::High(curve) => records.iter().any(|record| record.value[*curve] >= v),
        Node::Low(curve) => records.iter().any(|record| record.value[*curve] <= v),
        Node::LowAfter(curve, k) => records.iter().any(|record| record.time > *k && record.value[*curve] <= v),
        Node::CapAfter(curve, k) => records.iter().all(|record| !(record.time > *k) || record.value[*curve] <= v),
        Node::Peaks(curve) => top_times(records, *curve).contains(&v),
        Node::Dips(curve) => dip_times(records, *curve).contains(&v),
        Node::Cross => crossing_times(records).contains(&v),
        Node::Crossup => upward_crossing_times(records).contains(&v),
        Node::Dose(k) => records.iter().any(|record| record.pigment == *k && record.time == v),
        // The least w that serves a record is its own value.
        Node::Ampl(curve) => {
            records.iter().map(|record| record.value[*curve]).any(|w| records.iter().any(|record| record.value[*curve] >= w + v))
        }
        Node::Gaps(curve) => {
            let times = top_times(records, *curve);
            v > 0 && differences(&times, &times).contains(&v)
        }
        Node::Steps(curve) => top_times(records, *curve).windows(2).any(|tops| tops[1] - tops[0] == v),
        Node::Lag => differences(&top_times(records, 0), &top_times(records, 1)).contains(&v),
        _ => unreachable!("not a listed question"),
    }
}
