//! The grammar once more, as a list of ways to split a text: every way is tried, and every reading found is given. It takes
//! exponential time, so it is for short texts.

use super::recording::MOST_PIGMENT;
use super::set::{HIGH, LOW};
use super::text::{Left, Node, OfOne, OfTwo, Relation, Right};

/// All readings of the text.
pub fn readings(text: &str) -> Vec<Node> {
    or(text).into_iter().filter(Node::is_unmixed).collect()
}

/// `p|q` split at any `|`, the left part an or again; else an and.
fn or(text: &str) -> Vec<Node> {
    let mut found = and(text);
    for (left, right) in splits(text, "|") {
        found.extend(both(or(left), and(right), Node::Or));
    }
    found
}

/// `p&q` split at any `&`, the left part an and again; else a not.
fn and(text: &str) -> Vec<Node> {
    let mut found = not(text);
    for (left, right) in splits(text, "&") {
        found.extend(both(and(left), not(right), Node::And));
    }
    found
}

fn not(text: &str) -> Vec<Node> {
    let mut found = primary(text);
    if let Some(rest) = text.strip_prefix('!') {
        found.extend(not(rest).into_iter().map(|p| Node::Not(p.into())));
    }
    found
}

fn primary(text: &str) -> Vec<Node> {
    let mut found = Vec::new();
    if let Some(inner) = within(text, "(") {
        found.extend(or(inner));
    }
    let of_one: [(&str, OfOne); 3] = [("F(", Node::Sometime), ("G(", Node::Always), ("X(", Node::Next)];
    for (name, make) in of_one {
        if let Some(inner) = within(text, name) {
            found.extend(or(inner).into_iter().map(|p| make(p.into())));
        }
    }
    let of_two: [(&str, OfTwo); 2] = [("U(", Node::Until), ("W(", Node::WeakUntil)];
    for (name, make) in of_two {
        if let Some(inner) = within(text, name) {
            for (left, right) in splits(inner, ",") {
                found.extend(both(or(left), or(right), make));
            }
        }
    }
    found.extend(atom(text));
    found.extend(listed(text));
    found
}

fn atom(text: &str) -> Vec<Node> {
    let mut found = Vec::new();
    let relations = [
        (">=", Relation::AtLeast),
        ("<=", Relation::AtMost),
        (">", Relation::Above),
        ("<", Relation::Below),
        ("=", Relation::Equal),
    ];
    for (sign, relation) in relations {
        for (left, right) in splits(text, sign) {
            let lefts = [("A", Left::Curve(0)), ("B", Left::Curve(1)), ("T", Left::Time)];
            for (_, subject) in lefts.into_iter().filter(|(name, _)| *name == left) {
                if right == "v" {
                    found.push(Node::Compare(subject, relation, Right::Variable));
                }
                if let Some(number) = number(right) {
                    found.push(Node::Compare(subject, relation, Right::Number(number)));
                }
                if left == "A" && right == "B" {
                    found.push(Node::Compare(subject, relation, Right::CurveB));
                }
            }
        }
    }
    for (letter, curve) in CURVES {
        found.extend((text == format!("fall({letter})")).then_some(Node::Fall(curve)));
        found.extend((text == format!("rise({letter})")).then_some(Node::Rise(curve)));
    }
    for k in 1..=MOST_PIGMENT {
        found.extend((text == format!("P={k}")).then_some(Node::Pigment(k)));
    }
    found
}

fn listed(text: &str) -> Vec<Node> {
    let mut found = Vec::new();
    for (letter, curve) in CURVES {
        let of_curve = [
            ("high", Node::High(curve)),
            ("low", Node::Low(curve)),
            ("peaks", Node::Peaks(curve)),
            ("dips", Node::Dips(curve)),
            ("ampl", Node::Ampl(curve)),
            ("gaps", Node::Gaps(curve)),
            ("steps", Node::Steps(curve)),
        ];
        for (name, node) in of_curve {
            found.extend((text == format!("{name}({letter})")).then_some(node));
        }
        if let Some(time) = within(text, &format!("lowafter({letter},")).and_then(number) {
            found.push(Node::LowAfter(curve, time));
        }
        if let Some(time) = within(text, &format!("capafter({letter},")).and_then(number) {
            found.push(Node::CapAfter(curve, time));
        }
    }
    found.extend((text == "cross").then_some(Node::Cross));
    found.extend((text == "crossup").then_some(Node::Crossup));
    found.extend((text == "lag").then_some(Node::Lag));
    for k in 1..=MOST_PIGMENT {
        found.extend((text == format!("dose({k})")).then_some(Node::Dose(k)));
    }
    found
}

const CURVES: [(&str, usize); 2] = [("A", 0), ("B", 1)];

/// A number of the axis, written as numbers are.
fn number(text: &str) -> Option<i64> {
    let number: i64 = text.parse().ok()?;
    ((LOW..=HIGH).contains(&number) && number.to_string() == text).then_some(number)
}

/// What stands between `open` and a closing bracket at the end.
fn within<'a>(text: &'a str, open: &str) -> Option<&'a str> {
    text.strip_prefix(open)?.strip_suffix(')')
}

/// The parts before and after each place where the sign stands.
fn splits<'a>(text: &'a str, sign: &str) -> Vec<(&'a str, &'a str)> {
    text.match_indices(sign).map(|(place, _)| (&text[..place], &text[place + sign.len()..])).collect()
}

fn both(left: Vec<Node>, right: Vec<Node>, make: impl Fn(Box<Node>, Box<Node>) -> Node) -> Vec<Node> {
    let mut found = Vec::new();
    for p in &left {
        for q in &right {
            found.push(make(p.clone().into(), q.clone().into()));
        }
    }
    found
}
