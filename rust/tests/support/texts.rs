//! Question texts of many shapes: made from the grammar, or changed byte by byte.

use super::random::Random;
use reference::recording::{Record, MOST_PIGMENT};
use reference::set::{HIGH, LOW};

/// Texts with a reading, each kind of piece among them.
pub const GOOD: [&str; 37] = [
    "A>=v",
    "B<=v",
    "T>v",
    "A<v",
    "B=v",
    "T>=30",
    "A<=-7",
    "A>B",
    "A<=B",
    "fall(A)",
    "rise(B)",
    "P=7",
    "P=16",
    "high(A)",
    "low(B)",
    "lowafter(A,40)",
    "capafter(B,0)",
    "peaks(A)",
    "dips(B)",
    "cross",
    "crossup",
    "dose(1)",
    "dose(10)",
    "ampl(A)",
    "gaps(B)",
    "steps(A)",
    "lag",
    "!A=v",
    "(A=v)",
    "F(A=v)",
    "G(B<v)",
    "X(T=v)",
    "U(A=v,B=v)",
    "W(A>v,T=v)",
    "A=v|B=v&T=v",
    "A=2000000000",
    "A=-2000000000",
];

/// Which operators and names a made text has.
#[derive(Clone, Copy, PartialEq, Eq)]
pub enum Kind {
    /// F, G, X, U, W and atoms.
    Temporal,
    /// Listed questions and atoms.
    Listed,
    /// Both: such a text has no reading if it has one of each.
    Mixed,
}

/// A text of about `size` nodes; its numbers lie near the recording's.
pub fn made(random: &mut Random, kind: Kind, size: usize, records: &[Record]) -> String {
    let kind = if kind == Kind::Mixed { random.pick(&[Kind::Temporal, Kind::Listed, Kind::Mixed]) } else { kind };
    let text = made_or(random, kind, size, records);
    if random.once_in(12) {
        format!("({text})")
    } else {
        text
    }
}

fn made_or(random: &mut Random, kind: Kind, size: usize, records: &[Record]) -> String {
    if size < 3 || random.below(3) > 0 {
        return made_and(random, kind, size, records);
    }
    let left = 1 + random.below(size - 2);
    format!("{}|{}", made_or(random, kind, left, records), made_and(random, kind, size - 1 - left, records))
}

fn made_and(random: &mut Random, kind: Kind, size: usize, records: &[Record]) -> String {
    if size < 3 || random.below(3) == 0 {
        return made_not(random, kind, size, records);
    }
    let left = 1 + random.below(size - 2);
    format!("{}&{}", made_and(random, kind, left, records), made_not(random, kind, size - 1 - left, records))
}

fn made_not(random: &mut Random, kind: Kind, size: usize, records: &[Record]) -> String {
    if size < 2 || random.below(4) > 0 {
        return made_primary(random, kind, size, records);
    }
    format!("!{}", made_not(random, kind, size - 1, records))
}

fn made_primary(random: &mut Random, kind: Kind, size: usize, records: &[Record]) -> String {
    if size < 2 {
        return leaf(random, kind, records);
    }
    if kind == Kind::Listed || random.once_in(6) {
        return format!("({})", made_or(random, kind, size, records));
    }
    if size < 3 || random.below(2) > 0 {
        let name = random.pick(&["F", "G", "X"]);
        return format!("{name}({})", made_or(random, kind, size - 1, records));
    }
    let name = random.pick(&["U", "W"]);
    let left = 1 + random.below(size - 2);
    let (p, q) = (made_or(random, kind, left, records), made_or(random, kind, size - 1 - left, records));
    format!("{name}({p},{q})")
}

fn leaf(random: &mut Random, kind: Kind, records: &[Record]) -> String {
    if kind == Kind::Temporal || random.once_in(4) {
        atom(random, records)
    } else {
        let k = number(random, records);
        listed(random, records, k)
    }
}

/// An atom, mostly one with `v`.
pub fn atom(random: &mut Random, records: &[Record]) -> String {
    let relation = random.pick(&[">=", "<=", ">", "<", "=", "="]);
    match random.below(11) {
        0 => format!("A{relation}B"),
        1 => format!("{}({})", random.pick(&["fall", "rise"]), random.pick(&["A", "B"])),
        2 | 3 => format!("{}{relation}{}", random.pick(&["A", "B", "T"]), number(random, records)),
        4 => format!("P={}", pigment(random, records)),
        _ => format!("{}{relation}v", random.pick(&["A", "A", "B", "T"])),
    }
}

/// A listed question; `k` is its after-time, if it has one.
pub fn listed(random: &mut Random, records: &[Record], k: i64) -> String {
    let curve = random.pick(&["A", "B"]);
    match random.below(13) {
        0 => "cross".into(),
        1 => "crossup".into(),
        2 => "lag".into(),
        3 => format!("lowafter({curve},{k})"),
        4 => format!("capafter({curve},{k})"),
        5 => format!("dose({})", pigment(random, records)),
        _ => format!("{}({curve})", random.pick(&["high", "low", "peaks", "dips", "ampl", "gaps", "steps"])),
    }
}

/// A pigment, mostly one of the recording.
pub fn pigment(random: &mut Random, records: &[Record]) -> u8 {
    let added: Vec<u8> = records.iter().map(|record| record.pigment).filter(|pigment| *pigment > 0).collect();
    if added.is_empty() || random.once_in(6) {
        return 1 + random.below(MOST_PIGMENT.into()) as u8;
    }
    random.pick(&added)
}

/// A number of the axis, near one of the recording.
pub fn number(random: &mut Random, records: &[Record]) -> i64 {
    if records.is_empty() || random.once_in(12) {
        return random.pick(&[LOW, LOW + 1, -1, 0, 1, HIGH - 1, HIGH]);
    }
    let record = records[random.below(records.len())];
    let near = random.pick(&[record.time, record.time, record.value[0], record.value[1]]);
    (near + random.between(-1, 1)).clamp(LOW, HIGH)
}

/// The text with one to three changes: a byte left out, doubled, put in, replaced, swapped with the next, a cut, or a number
/// that is just not one.
pub fn changed(random: &mut Random, text: &str) -> Vec<u8> {
    const BYTES: &[u8] = b"ABTPvFGXUW|&!(),<>=-0123456789fallrisehighlowaftercappeaksdipsamplgapsstepslagcrossupdose \n\0\xff";
    let mut bytes = text.as_bytes().to_vec();
    for _ in 0..1 + random.below(3) {
        if bytes.is_empty() {
            break;
        }
        let at = random.below(bytes.len());
        match random.below(8) {
            0 => drop(bytes.remove(at)),
            1 => bytes.insert(at, bytes[at]),
            2 => bytes.insert(at, random.pick(BYTES)),
            3 => bytes[at] = random.pick(BYTES),
            4 if at + 1 < bytes.len() => bytes.swap(at, at + 1),
            5 => bytes.truncate(at),
            6 => {
                let numbers = [
                    "-0",
                    "00",
                    "01",
                    "-",
                    "0",
                    "17",
                    "-1",
                    "2000000001",
                    "-2000000001",
                    "2147483647",
                    "4294967296",
                    "18446744073709551616",
                ];
                let is_digit = |byte: &u8| byte.is_ascii_digit() || *byte == b'v';
                let from = bytes.iter().position(is_digit).unwrap_or(at);
                bytes.splice(from..from + 1, random.pick(&numbers).bytes());
            }
            _ => bytes.insert(at, random.pick(b"()!")),
        }
    }
    bytes
}

/// The nine listed questions that stand for a formula, each as it is written, with its formula.
pub fn nine(curve: &str, k: i64, pigment: u8) -> [(String, String); 9] {
    [
        (format!("high({curve})"), format!("F({curve}>=v)")),
        (format!("low({curve})"), format!("F({curve}<=v)")),
        (format!("lowafter({curve},{k})"), format!("F(T>{k}&{curve}<=v)")),
        (format!("capafter({curve},{k})"), format!("G(!(T>{k})|{curve}<=v)")),
        (format!("peaks({curve})"), turns("rise", "fall", curve)),
        (format!("dips({curve})"), turns("fall", "rise", curve)),
        ("cross".into(), "F(A>B&X(A<=B&T=v))".into()),
        ("crossup".into(), "F(A<=B&X(A>B&T=v))".into()),
        (format!("dose({pigment})"), format!("F(P={pigment}&T=v)")),
    ]
}

/// The formula of the times at which a curve goes over from one slope to the other: `peaks` from `rise` to `fall`, `dips` its mirror.
pub fn turns(from: &str, to: &str, curve: &str) -> String {
    format!("F({from}({curve})&X(U(!{from}({curve})&!{to}({curve}),{to}({curve})&T=v)))")
}

/// A target near the recording's numbers, anywhere, at the axis ends, or off the axis.
pub fn target(random: &mut Random, records: &[Record]) -> i64 {
    match random.below(12) {
        0 => random.pick(&[LOW, LOW + 1, HIGH - 1, HIGH, 0]),
        1 => random.pick(&[LOW - 1, HIGH + 1, i64::MIN, i64::MAX, i64::MIN + HIGH, 1 << 32, -(1 << 32), (1 << 32) + 30]),
        2 => random.between(LOW, HIGH),
        _ => number(random, records) + random.between(-20, 20),
    }
}
