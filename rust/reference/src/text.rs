//! Question texts: their tree, and a reader from left to right.

use super::recording::MOST_PIGMENT;
use super::set::{HIGH, LOW};
use super::Refused;

pub const MOST_BYTES: usize = 256;
pub const MOST_NODES: usize = 32;
pub const MOST_BRACKETS: usize = 16;

/// What stands at the left of a relation.
#[derive(Clone, Copy, PartialEq, Eq, Debug)]
pub enum Left {
    Curve(usize),
    Time,
}

#[derive(Clone, Copy, PartialEq, Eq, Debug)]
pub enum Relation {
    AtLeast,
    AtMost,
    Above,
    Below,
    Equal,
}

/// What stands at the right of a relation.
#[derive(Clone, Copy, PartialEq, Eq, Debug)]
pub enum Right {
    Variable,
    Number(i64),
    CurveB,
}

#[derive(Clone, PartialEq, Eq, Debug)]
pub enum Node {
    Or(Box<Node>, Box<Node>),
    And(Box<Node>, Box<Node>),
    Not(Box<Node>),
    Sometime(Box<Node>),
    Always(Box<Node>),
    Next(Box<Node>),
    Until(Box<Node>, Box<Node>),
    WeakUntil(Box<Node>, Box<Node>),
    Compare(Left, Relation, Right),
    Fall(usize),
    Rise(usize),
    /// `P=k`
    Pigment(u8),
    High(usize),
    Low(usize),
    LowAfter(usize, i64),
    CapAfter(usize, i64),
    Peaks(usize),
    Dips(usize),
    Cross,
    Crossup,
    Dose(u8),
    Ampl(usize),
    Gaps(usize),
    Steps(usize),
    Lag,
}

/// How a node is made of its parts.
pub type OfOne = fn(Box<Node>) -> Node;
pub type OfTwo = fn(Box<Node>, Box<Node>) -> Node;
pub type OfCurve = fn(usize) -> Node;
pub type OfCurveAndTime = fn(usize, i64) -> Node;

/// The relations as they are written; a longer sign stands before the one that begins it.
pub const RELATIONS: [(&str, Relation); 5] =
    [(">=", Relation::AtLeast), ("<=", Relation::AtMost), (">", Relation::Above), ("<", Relation::Below), ("=", Relation::Equal)];

impl Node {
    /// The node and all nodes below it.
    pub fn parts(&self) -> Vec<&Node> {
        let mut parts = vec![self];
        match self {
            Node::Or(p, q) | Node::And(p, q) | Node::Until(p, q) | Node::WeakUntil(p, q) => {
                parts.extend(p.parts());
                parts.extend(q.parts());
            }
            Node::Not(p) | Node::Sometime(p) | Node::Always(p) | Node::Next(p) => parts.extend(p.parts()),
            _ => {}
        }
        parts
    }

    /// One of F, G, X, U and W.
    pub fn is_temporal(&self) -> bool {
        matches!(self, Node::Sometime(_) | Node::Always(_) | Node::Next(_) | Node::Until(..) | Node::WeakUntil(..))
    }

    /// A listed question.
    pub fn is_listed(&self) -> bool {
        matches!(
            self,
            Node::High(_)
                | Node::Low(_)
                | Node::LowAfter(..)
                | Node::CapAfter(..)
                | Node::Peaks(_)
                | Node::Dips(_)
                | Node::Cross
                | Node::Crossup
                | Node::Dose(_)
                | Node::Ampl(_)
                | Node::Gaps(_)
                | Node::Steps(_)
                | Node::Lag
        )
    }

    /// No listed name stands beside F, G, X, U or W.
    pub fn is_unmixed(&self) -> bool {
        let parts = self.parts();
        !(parts.iter().any(|part| part.is_temporal()) && parts.iter().any(|part| part.is_listed()))
    }
}

/// The one reading of an accepted text, or refusal 5, 6 or 7.
pub fn accepted(text: &[u8]) -> Result<Node, Refused> {
    if text.is_empty() || text.len() > MOST_BYTES {
        return Err(Refused::plain(5));
    }
    let node = reading(text).ok_or(Refused::plain(6))?;
    if node.parts().len() > MOST_NODES || most_open_brackets(text) > MOST_BRACKETS {
        return Err(Refused::plain(7));
    }
    Ok(node)
}

/// The most brackets that are open at a byte of the text, every `(` counted.
pub fn most_open_brackets(text: &[u8]) -> usize {
    let open_at = |end: usize| {
        let count = |bracket: u8| text[..end].iter().filter(|byte| **byte == bracket).count();
        count(b'(').saturating_sub(count(b')'))
    };
    (0..=text.len()).map(open_at).max().unwrap_or(0)
}

/// The reading of the text, of any length, if it has one.
pub fn reading(text: &[u8]) -> Option<Node> {
    let mut reader = Reader { rest: text };
    let node = reader.text()?;
    (reader.rest.is_empty() && node.is_unmixed()).then_some(node)
}

/// Reads from left to right; each function takes what it reads off the rest.
struct Reader<'a> {
    rest: &'a [u8],
}

impl Reader<'_> {
    /// Takes the word off the rest, if the rest begins with it.
    fn take(&mut self, word: &str) -> Option<()> {
        self.rest = self.rest.strip_prefix(word.as_bytes())?;
        Some(())
    }

    fn text(&mut self) -> Option<Node> {
        let mut node = self.and()?;
        while self.take("|").is_some() {
            node = Node::Or(node.into(), self.and()?.into());
        }
        Some(node)
    }

    fn and(&mut self) -> Option<Node> {
        let mut node = self.not()?;
        while self.take("&").is_some() {
            node = Node::And(node.into(), self.not()?.into());
        }
        Some(node)
    }

    fn not(&mut self) -> Option<Node> {
        if self.take("!").is_some() {
            return Some(Node::Not(self.not()?.into()));
        }
        self.primary()
    }

    fn primary(&mut self) -> Option<Node> {
        if self.take("(").is_some() {
            return self.closed(Reader::text);
        }
        let one = |make: OfOne| move |reader: &mut Self| Some(make(reader.text()?.into()));
        let two = |make: OfTwo| {
            move |reader: &mut Self| {
                let p = reader.text()?;
                reader.take(",")?;
                Some(make(p.into(), reader.text()?.into()))
            }
        };
        if self.take("F(").is_some() {
            return self.closed(one(Node::Sometime));
        }
        if self.take("G(").is_some() {
            return self.closed(one(Node::Always));
        }
        if self.take("X(").is_some() {
            return self.closed(one(Node::Next));
        }
        if self.take("U(").is_some() {
            return self.closed(two(Node::Until));
        }
        if self.take("W(").is_some() {
            return self.closed(two(Node::WeakUntil));
        }
        self.named()
    }

    /// `fall`, `rise`, `P=k`, the listed questions; else a relation.
    fn named(&mut self) -> Option<Node> {
        let of_curve: [(&str, OfCurve); 9] = [
            ("fall(", Node::Fall),
            ("rise(", Node::Rise),
            ("high(", Node::High),
            ("low(", Node::Low),
            ("peaks(", Node::Peaks),
            ("dips(", Node::Dips),
            ("ampl(", Node::Ampl),
            ("gaps(", Node::Gaps),
            ("steps(", Node::Steps),
        ];
        for (name, make) in of_curve {
            if self.take(name).is_some() {
                return self.closed(|reader| Some(make(reader.curve()?)));
            }
        }
        let after: [(&str, OfCurveAndTime); 2] = [("lowafter(", Node::LowAfter), ("capafter(", Node::CapAfter)];
        for (name, make) in after {
            if self.take(name).is_some() {
                return self.closed(|reader| {
                    let curve = reader.curve()?;
                    reader.take(",")?;
                    Some(make(curve, reader.number()?))
                });
            }
        }
        if self.take("dose(").is_some() {
            return self.closed(|reader| Some(Node::Dose(reader.pigment()?)));
        }
        if self.take("P=").is_some() {
            return Some(Node::Pigment(self.pigment()?));
        }
        // Before `cross`, which begins it.
        if self.take("crossup").is_some() {
            return Some(Node::Crossup);
        }
        if self.take("cross").is_some() {
            return Some(Node::Cross);
        }
        if self.take("lag").is_some() {
            return Some(Node::Lag);
        }
        self.relation()
    }

    fn relation(&mut self) -> Option<Node> {
        let left = match self.take("T") {
            Some(()) => Left::Time,
            None => Left::Curve(self.curve()?),
        };
        let relation = RELATIONS.iter().find(|(sign, _)| self.take(sign).is_some())?.1;
        let right = if self.take("v").is_some() {
            Right::Variable
        } else if left == Left::Curve(0) && self.take("B").is_some() {
            Right::CurveB
        } else {
            Right::Number(self.number()?)
        };
        Some(Node::Compare(left, relation, right))
    }

    fn curve(&mut self) -> Option<usize> {
        if self.take("A").is_some() {
            return Some(0);
        }
        self.take("B")?;
        Some(1)
    }

    /// A decimal number on the axis; as many digits as there are belong to it.
    fn number(&mut self) -> Option<i64> {
        let minus = self.take("-").is_some();
        let length = self.rest.iter().take_while(|byte| byte.is_ascii_digit()).count();
        let (digits, rest) = self.rest.split_at(length);
        self.rest = rest;
        let leading_zero = digits.first() == Some(&b'0') && (digits.len() > 1 || minus);
        // 2,000,000,000 has ten digits.
        if digits.is_empty() || digits.len() > 10 || leading_zero {
            return None;
        }
        let size = digits.iter().fold(0, |size, digit| size * 10 + i64::from(digit - b'0'));
        let number = if minus { -size } else { size };
        (LOW..=HIGH).contains(&number).then_some(number)
    }

    /// A number that is a pigment's.
    fn pigment(&mut self) -> Option<u8> {
        let number = self.number()?;
        (1..=i64::from(MOST_PIGMENT)).contains(&number).then_some(number as u8)
    }

    /// What `read` reads, with its closing bracket.
    fn closed(&mut self, read: impl FnOnce(&mut Self) -> Option<Node>) -> Option<Node> {
        let node = read(self)?;
        self.take(")")?;
        Some(node)
    }
}
