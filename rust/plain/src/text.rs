//! Texts: read by descent into a list of nodes.

use crate::recording::{FALLING, MOST_PIGMENT, RISING};
use crate::set::HIGH;
use crate::Refused;

/// A node of the text; children stand before their parents in the list.
#[derive(Clone, Copy, Debug)]
pub enum Op {
    Or(usize, usize),
    And(usize, usize),
    Not(usize),
    Sometime(usize),
    Always(usize),
    Next(usize),
    Until(usize, usize),
    WeakUntil(usize, usize),
    /// Left (0 A, 1 B, 2 T), the least and the greatest sign of left - right that fit, right.
    Compare(usize, i32, i32, Right),
    Slope(usize, u8),
    Pigment(u8),
    High(usize),
    Low(usize),
    LowAfter(usize, i32),
    CapAfter(usize, i32),
    Peaks(usize),
    Dips(usize),
    Cross,
    Crossup,
    Dose(u8),
    Ampl(usize),
    Gaps(usize),
    Steps(usize),
    Lag,
}

#[derive(Clone, Copy, Debug)]
pub enum Right {
    Variable,
    Number(i32),
    CurveB,
}

pub fn is_temporal(op: &Op) -> bool {
    matches!(op, Op::Sometime(_) | Op::Always(_) | Op::Next(_) | Op::Until(..) | Op::WeakUntil(..))
}

pub fn is_listed(op: &Op) -> bool {
    let is_atom = matches!(op, Op::Compare(..) | Op::Slope(..) | Op::Pigment(_));
    !is_temporal(op) && !is_atom && !matches!(op, Op::Or(..) | Op::And(..) | Op::Not(_))
}

/// The text's nodes, its root last.
pub fn nodes(text: &[u8]) -> Result<Vec<Op>, Refused> {
    if text.is_empty() || text.len() > 256 {
        return Err((5, 0));
    }
    let mut parser = Parser { text, at: 0, open: 0, deepest: 0, nodes: Vec::with_capacity(32) };
    let whole = parser.or().is_some() && parser.at == text.len();
    let nodes = parser.nodes;
    if !whole || nodes.iter().any(is_temporal) && nodes.iter().any(is_listed) {
        return Err((6, 0));
    }
    if nodes.len() > 32 || parser.deepest > 16 {
        return Err((7, 0));
    }
    Ok(nodes)
}

struct Parser<'a> {
    text: &'a [u8],
    at: usize,
    open: usize,
    deepest: usize,
    nodes: Vec<Op>,
}

impl Parser<'_> {
    fn take(&mut self, byte: u8) -> bool {
        let found = self.text.get(self.at) == Some(&byte);
        self.at += usize::from(found);
        found
    }

    fn push(&mut self, op: Op) -> Option<usize> {
        self.nodes.push(op);
        Some(self.nodes.len() - 1)
    }

    fn or(&mut self) -> Option<usize> {
        let mut left = self.and()?;
        while self.take(b'|') {
            let right = self.and()?;
            left = self.push(Op::Or(left, right))?;
        }
        Some(left)
    }

    fn and(&mut self) -> Option<usize> {
        let mut left = self.not()?;
        while self.take(b'&') {
            let right = self.not()?;
            left = self.push(Op::And(left, right))?;
        }
        Some(left)
    }

    fn not(&mut self) -> Option<usize> {
        if self.take(b'!') {
            let p = self.not()?;
            return self.push(Op::Not(p));
        }
        self.primary()
    }

    fn open(&mut self) -> Option<()> {
        if !self.take(b'(') {
            return None;
        }
        self.open += 1;
        self.deepest = self.deepest.max(self.open);
        Some(())
    }

    fn close(&mut self) -> Option<()> {
        self.open = self.open.checked_sub(1)?;
        self.take(b')').then_some(())
    }

    fn primary(&mut self) -> Option<usize> {
        let start = self.at;
        while self.text.get(self.at).is_some_and(u8::is_ascii_alphabetic) {
            self.at += 1;
        }
        let name = &self.text[start..self.at];
        match name {
            b"cross" => return self.push(Op::Cross),
            b"crossup" => return self.push(Op::Crossup),
            b"lag" => return self.push(Op::Lag),
            b"A" => return self.relation(0),
            b"B" => return self.relation(1),
            b"T" => return self.relation(2),
            b"P" if self.take(b'=') => {
                let k = self.pigment()?;
                return self.push(Op::Pigment(k));
            }
            _ => self.open()?,
        }
        let op = match name {
            b"" => {
                let p = self.or()?;
                self.close()?;
                return Some(p);
            }
            b"F" => Op::Sometime(self.or()?),
            b"G" => Op::Always(self.or()?),
            b"X" => Op::Next(self.or()?),
            b"U" | b"W" => {
                let p = self.or()?;
                if !self.take(b',') {
                    return None;
                }
                let q = self.or()?;
                if name == b"U" {
                    Op::Until(p, q)
                } else {
                    Op::WeakUntil(p, q)
                }
            }
            b"fall" => Op::Slope(self.curve()?, FALLING),
            b"rise" => Op::Slope(self.curve()?, RISING),
            b"high" => Op::High(self.curve()?),
            b"low" => Op::Low(self.curve()?),
            b"peaks" => Op::Peaks(self.curve()?),
            b"dips" => Op::Dips(self.curve()?),
            b"dose" => Op::Dose(self.pigment()?),
            b"ampl" => Op::Ampl(self.curve()?),
            b"gaps" => Op::Gaps(self.curve()?),
            b"steps" => Op::Steps(self.curve()?),
            b"lowafter" | b"capafter" => {
                let curve = self.curve()?;
                if !self.take(b',') {
                    return None;
                }
                let k = self.number()?;
                if name == b"lowafter" {
                    Op::LowAfter(curve, k)
                } else {
                    Op::CapAfter(curve, k)
                }
            }
            _ => return None,
        };
        self.close()?;
        self.push(op)
    }

    fn curve(&mut self) -> Option<usize> {
        if self.take(b'A') {
            return Some(0);
        }
        self.take(b'B').then_some(1)
    }

    fn relation(&mut self, left: usize) -> Option<usize> {
        let (from, to) = if self.take(b'>') {
            (i32::from(!self.take(b'=')), 1)
        } else if self.take(b'<') {
            (-1, -i32::from(!self.take(b'=')))
        } else if self.take(b'=') {
            (0, 0)
        } else {
            return None;
        };
        let right = if self.take(b'v') {
            Right::Variable
        } else if left == 0 && self.take(b'B') {
            Right::CurveB
        } else {
            Right::Number(self.number()?)
        };
        self.push(Op::Compare(left, from, to, right))
    }

    fn pigment(&mut self) -> Option<u8> {
        let number = self.number()?;
        (1..=i32::from(MOST_PIGMENT)).contains(&number).then_some(number as u8)
    }

    fn number(&mut self) -> Option<i32> {
        let minus = self.take(b'-');
        let start = self.at;
        let mut size: i64 = 0;
        while let Some(digit) = self.text.get(self.at).filter(|byte| byte.is_ascii_digit()) {
            size = size * 10 + i64::from(digit - b'0');
            self.at += 1;
            if size > i64::from(HIGH) {
                return None;
            }
        }
        let digits = self.at - start;
        if digits == 0 || self.text[start] == b'0' && (digits > 1 || minus) {
            return None;
        }
        Some(if minus { -size as i32 } else { size as i32 })
    }
}
