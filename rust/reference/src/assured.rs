//! The texts that kept readings answer as the recording did: the class by its definition, node by node.

use super::text::{Left, Node, Relation, Right};

/// The text is assured under these marks.
pub fn is_assured(node: &Node, marks: &[i64]) -> bool {
    is_plain(node, marks) || is_steady(node) && is_even(node) || is_of_the_first(node, marks)
}

/// None of F, G, X, U and W, and every after-time is a mark.
fn is_plain(node: &Node, marks: &[i64]) -> bool {
    node.parts().into_iter().all(|part| match part {
        Node::LowAfter(_, k) | Node::CapAfter(_, k) => marks.contains(k),
        part => !part.is_temporal(),
    })
}

/// At a reading without a pigment the text is `value`, whatever v is.
fn is_fixed(node: &Node, value: bool) -> bool {
    match node {
        Node::Pigment(_) => !value,
        Node::Not(p) => is_fixed(p, !value),
        Node::Or(p, q) if value => is_fixed(p, true) || is_fixed(q, true),
        Node::Or(p, q) => is_fixed(p, false) && is_fixed(q, false),
        Node::And(p, q) if value => is_fixed(p, true) && is_fixed(q, true),
        Node::And(p, q) => is_fixed(p, false) || is_fixed(q, false),
        _ => false,
    }
}

/// True at a reading that is left out, it is true at the next (`onward`); or true at the next, it is true at the one left out.
fn drifts(node: &Node, onward: bool) -> bool {
    match node {
        Node::Compare(Left::Curve(0), Relation::Above | Relation::AtMost, Right::CurveB) => true,
        Node::Compare(Left::Time, Relation::Above | Relation::AtLeast, _) => onward,
        Node::Compare(Left::Time, Relation::Below | Relation::AtMost, _) => !onward,
        Node::Pigment(_) => onward,
        Node::Not(p) => drifts(p, !onward),
        Node::Or(p, q) | Node::And(p, q) => drifts(p, onward) && drifts(q, onward) || is_fixed(node, !onward),
        Node::Sometime(_) | Node::Always(_) | Node::Until(..) | Node::WeakUntil(..) => true,
        _ => false,
    }
}

/// At every kept reading the text means the same of the kept readings as of the recording.
fn is_steady(node: &Node) -> bool {
    match node {
        Node::Or(p, q) | Node::And(p, q) => is_steady(p) && is_steady(q),
        Node::Not(p) => is_steady(p),
        Node::Sometime(p) => is_steady(p) && drifts(p, true) || is_slope(p),
        Node::Always(p) => is_steady(p) && drifts(p, false) || matches!(&**p, Node::Not(p) if is_slope(p)),
        Node::Next(p) => is_steady(p) && drifts(p, true) && drifts(p, false),
        Node::Until(p, q) | Node::WeakUntil(p, q) => {
            let holds_on = is_fixed(p, true) || drifts(p, false) && drifts(q, false);
            is_steady(p) && is_steady(q) && drifts(q, true) && holds_on
        }
        atom => is_atom(atom),
    }
}

/// For refusal 8: no node made by `|`, `&` or `!` has a set of more runs at a reading that is left out.
fn is_even(node: &Node) -> bool {
    let is_temporal = |node: &Node| node.parts().into_iter().any(Node::is_temporal);
    let is_calm = |node: &Node| {
        !is_temporal(node) || drifts(node, true) && drifts(node, false) || is_fixed(node, true) || is_fixed(node, false)
    };
    node.parts().into_iter().all(|part| match part {
        Node::Or(..) | Node::And(..) | Node::Not(_) => is_calm(part),
        part => !part.is_listed(),
    })
}

/// A text of few runs: of the first reading, of one bound, of the last reading, or yes or no.
fn is_of_the_first(node: &Node, marks: &[i64]) -> bool {
    match node {
        Node::Or(p, q) | Node::And(p, q) => is_of_the_first(p, marks) && is_of_the_first(q, marks),
        Node::Not(p) => is_of_the_first(p, marks),
        Node::Sometime(p) if is_somewhere(p, marks) => true,
        Node::Always(p) if is_throughout(p, marks) => true,
        temporal if temporal.is_temporal() => is_steady(temporal) && !writes_v(temporal),
        atom => is_atom(atom),
    }
}

fn is_somewhere(node: &Node, marks: &[i64]) -> bool {
    match node {
        Node::And(p, q) => is_after(p, marks) && is_bound(q),
        Node::Always(p) => is_atom(p),
        p => is_bound(p),
    }
}

fn is_throughout(node: &Node, marks: &[i64]) -> bool {
    match node {
        Node::Or(p, q) => matches!(&**p, Node::Not(p) if is_after(p, marks)) && is_bound(q),
        p => is_bound(p),
    }
}

fn is_atom(node: &Node) -> bool {
    matches!(node, Node::Compare(..) | Node::Fall(_) | Node::Rise(_) | Node::Pigment(_))
}

fn is_slope(node: &Node) -> bool {
    matches!(node, Node::Fall(_) | Node::Rise(_))
}

/// A curve and v or a number, but not by `=`.
fn is_bound(node: &Node) -> bool {
    matches!(node, Node::Compare(Left::Curve(_), relation, Right::Variable | Right::Number(_)) if *relation != Relation::Equal)
}

/// `T>k` with k a mark.
fn is_after(node: &Node, marks: &[i64]) -> bool {
    matches!(node, Node::Compare(Left::Time, Relation::Above, Right::Number(k)) if marks.contains(k))
}

fn writes_v(node: &Node) -> bool {
    node.parts().into_iter().any(|part| matches!(part, Node::Compare(_, _, Right::Variable)))
}
