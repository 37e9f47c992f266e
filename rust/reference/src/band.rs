//! Bands: readings that are good to plus or minus e units. Which numbers a question on extremes is true with of every curve within
//! the band, and of at least one: by the ends that follow, and for small recordings by trying all curves.

use super::meaning::holds;
use super::recording::Record;
use super::set::{HIGH, LOW};
use super::text::Node;

/// The widest band.
pub const WIDEST: i64 = 1_000_000;

/// What the question looks at: the values of its curve, after its after-time.
pub struct Measures {
    values: Vec<i64>,
}

/// The values that a question on extremes looks at; none for any other text.
pub fn measures(records: &[Record], node: &Node) -> Option<Measures> {
    let (curve, after) = match node {
        Node::High(curve) | Node::Low(curve) | Node::Ampl(curve) => (*curve, None),
        Node::LowAfter(curve, k) | Node::CapAfter(curve, k) => (*curve, Some(*k)),
        _ => return None,
    };
    let later = records.iter().filter(|record| after.is_none_or(|k| record.time > k));
    Some(Measures { values: later.map(|record| record.value[curve]).collect() })
}

/// The certain and the possible set, each by its ends, none where it is empty.
pub fn two_sets(node: &Node, measures: Measures, e: i64) -> [Option<(i64, i64)>; 2] {
    let values = measures.values;
    let (Some(least), Some(greatest)) = (values.iter().copied().min(), values.iter().copied().max()) else {
        // No record after k: no value is at most v, and every value is.
        let none = if let Node::CapAfter(..) = node { Some((LOW, HIGH)) } else { None };
        return [none, none];
    };
    let upto = |end: i64| on_axis(LOW, end);
    let from = |end: i64| on_axis(end, HIGH);
    match node {
        Node::High(_) => [upto(greatest - e), upto(greatest + e)],
        Node::Low(_) | Node::LowAfter(..) => [from(least + e), from(least - e)],
        Node::CapAfter(..) => [from(greatest + e), from(greatest - e)],
        // One record moves alone, and lies no way from itself; two or more may close in or move apart.
        Node::Ampl(_) if values.len() == 1 => [upto(0), upto(0)],
        Node::Ampl(_) => [upto((greatest - least - 2 * e).max(0)), upto(greatest - least + 2 * e)],
        _ => unreachable!("no question on extremes"),
    }
}

/// What of a run lies on the axis.
fn on_axis(low: i64, high: i64) -> Option<(i64, i64)> {
    let (low, high) = (low.max(LOW), high.min(HIGH));
    (low <= high).then_some((low, high))
}

/// All curves within e of the recording, in which the curve of that number moves.
pub fn curves(records: &[Record], curve: usize, e: i64) -> Vec<Vec<Record>> {
    let mut all = vec![vec![]];
    for record in records {
        let grown = |before: &Vec<Record>, by: i64| {
            let mut moved = *record;
            moved.value[curve] += by;
            before.iter().copied().chain([moved]).collect()
        };
        all = all.iter().flat_map(|before| (-e..=e).map(move |by| grown(before, by))).collect();
    }
    all
}

/// Whether the question is true with v of every one of the curves, and whether of at least one.
pub fn told(node: &Node, curves: &[Vec<Record>], v: i64) -> [bool; 2] {
    let truth = |curve: &Vec<Record>| holds(node, curve, 0, v);
    [curves.iter().all(truth), curves.iter().any(truth)]
}
