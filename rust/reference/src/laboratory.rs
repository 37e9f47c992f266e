//! What a buyer's laboratory may ask: texts and pairs of A alone, with after-times among the marks.

use super::text::{Left, Node, Right};
use super::{kept, Refused};

/// Nothing where the laboratory may ask the text, else refusal 11 of the marks, then 14.
pub fn opened(node: &Node, marks: &[u8]) -> Result<(), Refused> {
    let marks = kept::accepted_marks(marks)?;
    if node.parts().into_iter().any(|part| is_shut(part, &marks)) {
        return Err(Refused::plain(14));
    }
    Ok(())
}

/// A part that names B, `cross`, `crossup` or `lag`, that is one of F, G, X, U and W, or whose after-time is not among the marks.
fn is_shut(part: &Node, marks: &[i64]) -> bool {
    match part {
        Node::Compare(left, _, right) => *left == Left::Curve(1) || *right == Right::CurveB,
        Node::LowAfter(curve, k) | Node::CapAfter(curve, k) => *curve == 1 || !marks.contains(k),
        Node::Fall(curve)
        | Node::Rise(curve)
        | Node::High(curve)
        | Node::Low(curve)
        | Node::Peaks(curve)
        | Node::Dips(curve)
        | Node::Ampl(curve)
        | Node::Gaps(curve)
        | Node::Steps(curve) => *curve == 1,
        Node::Cross | Node::Crossup | Node::Lag => true,
        Node::Pigment(_) | Node::Dose(_) => false,
        Node::Or(..) | Node::And(..) | Node::Not(_) => false,
        Node::Sometime(_) | Node::Always(_) | Node::Next(_) | Node::Until(..) | Node::WeakUntil(..) => true,
    }
}
