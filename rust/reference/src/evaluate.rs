//! The sets of a text's nodes at the records, from the definitions of the operators and not by steps from record to record.

use super::meaning;
use super::recording::{crossing_times, dip_times, dose_times, top_times, upward_crossing_times, Record, FALLING, RISING};
use super::set::{Set, HIGH, LOW};
use super::text::{Left, Node, Relation, Right};
use super::MOST_RUNS;

/// Some node's set at some record that counts has too many runs.
#[derive(Clone, Copy, PartialEq, Eq, Debug)]
pub struct Over;

/// A node's sets, one for each record.
type Column = Vec<Set>;

/// Up to here the quantifiers are written out over the sets; longer recordings go number by number.
const SHORT: usize = 40;

/// The text's set at the first record. Every node counts for [`Over`]: at every record where the text has one of
/// F, G, X, U and W, else at the first.
pub fn answer(records: &[Record], node: &Node) -> Result<Set, Over> {
    let temporal = node.parts().into_iter().any(Node::is_temporal);
    let judged = if temporal { records.len() } else { 1 };
    let how = if records.len() <= SHORT { over_sets } else { over_numbers };
    let mut column = column(records, judged, node, how)?;
    Ok(column.swap_remove(0))
}

/// The same by a chosen way to work out F, G, U and W.
pub fn answer_by(records: &[Record], node: &Node, how: Quantify) -> Result<Set, Over> {
    let mut column = column(records, records.len(), node, how)?;
    Ok(column.swap_remove(0))
}

fn column(records: &[Record], judged: usize, node: &Node, how: Quantify) -> Result<Column, Over> {
    let of = |child: &Node| column(records, judged, child, how);
    let sets: Column = match node {
        Node::Or(p, q) => pairwise(of(p)?, of(q)?, Set::or),
        Node::And(p, q) => pairwise(of(p)?, of(q)?, Set::and),
        Node::Not(p) => of(p)?.iter().map(Set::not).collect(),
        Node::Next(p) => {
            let sets = of(p)?;
            (0..judged).map(|i| sets[(i + 1).min(judged - 1)].clone()).collect()
        }
        Node::Sometime(p) => how(Kind::Until, &vec![Set::whole(); judged], &of(p)?)?,
        Node::Always(p) => how(Kind::WeakUntil, &of(p)?, &vec![Set::empty(); judged])?,
        Node::Until(p, q) => how(Kind::Until, &of(p)?, &of(q)?)?,
        Node::WeakUntil(p, q) => how(Kind::WeakUntil, &of(p)?, &of(q)?)?,
        Node::Compare(left, relation, right) => {
            records[..judged].iter().map(|record| compare(record, *left, *relation, *right)).collect()
        }
        Node::Fall(curve) => records[..judged].iter().map(|record| Set::if_true(record.slope[*curve] == FALLING)).collect(),
        Node::Rise(curve) => records[..judged].iter().map(|record| Set::if_true(record.slope[*curve] == RISING)).collect(),
        Node::Pigment(k) => records[..judged].iter().map(|record| Set::if_true(record.pigment == *k)).collect(),
        listed => vec![listed_set(listed, records); judged],
    };
    if sets.iter().any(|set| set.runs().len() > MOST_RUNS) {
        return Err(Over);
    }
    Ok(sets)
}

fn pairwise(left: Column, right: Column, operation: fn(&Set, &Set) -> Set) -> Column {
    left.iter().zip(&right).map(|(p, q)| operation(p, q)).collect()
}

/// The numbers that stand in the relation at the record.
fn compare(record: &Record, left: Left, relation: Relation, right: Right) -> Set {
    if right != Right::Variable {
        return Set::if_true(meaning::compare(record, left, relation, right, 0));
    }
    let here = match left {
        Left::Curve(curve) => record.value[curve],
        Left::Time => record.time,
    };
    Set::of(vec![match relation {
        Relation::AtLeast => (LOW, here),
        Relation::AtMost => (here, HIGH),
        Relation::Above => (LOW, here - 1),
        Relation::Below => (here + 1, HIGH),
        Relation::Equal => (here, here),
    }])
}

/// Which of the two untils: F(p) is U(true,p), and G(p) is W(p,false).
#[derive(Clone, Copy, PartialEq, Eq)]
pub enum Kind {
    Until,
    WeakUntil,
}

/// The column of U(p,q) or W(p,q) from those of p and q.
pub type Quantify = fn(Kind, &[Set], &[Set]) -> Result<Column, Over>;

/// At each record i: the numbers with q at some j from i on and p from i to j-1, and for W those with p from i on.
pub fn over_sets(kind: Kind, p: &[Set], q: &[Set]) -> Result<Column, Over> {
    let at = |i: usize| {
        let mut held = Set::whole();
        let mut runs = Vec::new();
        for j in i..q.len() {
            runs.extend_from_slice(q[j].and(&held).runs());
            held = held.and(&p[j]);
            if held.is_empty() {
                break;
            }
        }
        if kind == Kind::WeakUntil {
            runs.extend_from_slice(held.runs());
        }
        Set::of(runs)
    };
    Ok((0..q.len()).map(at).collect())
}

/// The same number by number: between two neighbouring ends of runs all numbers fare alike, so one of them is tried.
pub fn over_numbers(kind: Kind, p: &[Set], q: &[Set]) -> Result<Column, Over> {
    let mut starts = vec![LOW];
    for set in p.iter().chain(q) {
        for (low, high) in set.runs() {
            starts.extend([*low, high + 1]);
        }
    }
    starts.sort_unstable();
    starts.dedup();
    starts.retain(|start| *start <= HIGH);

    let records = q.len();
    let mut runs: Vec<Vec<(i64, i64)>> = vec![Vec::new(); records];
    for (place, start) in starts.iter().enumerate() {
        let end = starts.get(place + 1).map_or(HIGH, |next| next - 1);
        // The first record from i on where p fails and where q holds; `records` if there is none.
        let (mut p_fails, mut q_holds) = (records, records);
        for i in (0..records).rev() {
            if !p[i].contains(*start) {
                p_fails = i;
            }
            if q[i].contains(*start) {
                q_holds = i;
            }
            let until = q_holds < records && q_holds <= p_fails;
            let always = p_fails == records;
            if until || kind == Kind::WeakUntil && always {
                match runs[i].last_mut() {
                    Some(last) if last.1 + 1 == *start => last.1 = end,
                    _ => runs[i].push((*start, end)),
                }
                // Runs come in ascending order and only the last grows, so their number never falls.
                if runs[i].len() > MOST_RUNS {
                    return Err(Over);
                }
            }
        }
    }
    Ok(runs.into_iter().map(Set::of).collect())
}

/// The set of a listed question, from its sentence.
fn listed_set(listed: &Node, records: &[Record]) -> Set {
    let half_lines = |chosen: Vec<&Record>, curve: usize| -> Vec<(i64, i64)> {
        chosen.iter().map(|record| (record.value[curve], HIGH)).collect()
    };
    let after = |k: i64| -> Vec<&Record> { records.iter().filter(|record| record.time > k).collect() };
    match listed {
        Node::High(curve) => Set::of(records.iter().map(|record| (LOW, record.value[*curve])).collect()),
        Node::Low(curve) => Set::of(half_lines(records.iter().collect(), *curve)),
        Node::LowAfter(curve, k) => Set::of(half_lines(after(*k), *curve)),
        Node::CapAfter(curve, k) => {
            after(*k).iter().fold(Set::whole(), |set, record| set.and(&Set::of(vec![(record.value[*curve], HIGH)])))
        }
        Node::Peaks(curve) => Set::of_numbers(top_times(records, *curve)),
        Node::Dips(curve) => Set::of_numbers(dip_times(records, *curve)),
        Node::Cross => Set::of_numbers(crossing_times(records)),
        Node::Crossup => Set::of_numbers(upward_crossing_times(records)),
        Node::Dose(k) => Set::of_numbers(dose_times(records, *k)),
        Node::Ampl(curve) => {
            let values = || records.iter().map(|record| record.value[*curve]);
            Set::of(vec![(LOW, values().max().unwrap() - values().min().unwrap())])
        }
        Node::Gaps(curve) => {
            let times = top_times(records, *curve);
            let later = |place: usize| times[place + 1..].iter();
            Set::of_numbers(times.iter().enumerate().flat_map(|(place, from)| later(place).map(move |to| to - from)))
        }
        Node::Steps(curve) => Set::of_numbers(top_times(records, *curve).windows(2).map(|tops| tops[1] - tops[0])),
        Node::Lag => {
            let (of_a, of_b) = (top_times(records, 0), top_times(records, 1));
            Set::of_numbers(of_a.iter().flat_map(|a| of_b.iter().map(move |b| b - a)))
        }
        _ => unreachable!("not a listed question"),
    }
}
