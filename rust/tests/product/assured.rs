//! Covers: the assured call: texts and marks of every kind beside the definition; texts made by the three lines of the header; the order
//! of refusals; and what 1 promises: of recordings of all shapes, kept readings and readings put back among them answer the question,
//! the degree call, the band and a report as the recording does, 8 among the answers; thinned piece by piece past 4,096 readings and in
//! a growing run too. What is not assured is often answered otherwise: the promise is not empty.

use crate::calls::{at_the_desk, bytes_of, count, hex, number_of, place, same_bytes, shown, Tally};
use crate::support::cases::{begin, cases, one_alone};
use crate::support::random::Random;
use crate::support::recordings::{self, odd_marks, with_many_events};
use crate::support::texts::{self, Kind, GOOD};
use mill::sys::{self, mill_question, mill_thin, MILL_SET_BYTES};
use mill::Refusal;
use reference::kept::{chosen, mark_bytes, selected_bytes};
use reference::recording::{bytes, in_rules, Record};
use reference::text::accepted;
use reference::{self};

/// Asks and compares; what came back.
#[track_caller]
pub fn assured(text: &[u8], marks: &[u8]) -> Result<bool, u32> {
    count();
    let expected = reference::assured(text, marks);
    let found = at_the_desk(|desk| {
        let [first, other, ..] = desk.turn();
        let (text_at, marks_at) = (desk.second.put(text, first), desk.third.put(marks, other));
        // SAFETY: each pointer lies before as many bytes as its length says.
        unsafe { sys::mill_assured(text_at, text.len(), marks_at, marks.len()) }
    });
    let returned = expected.map_or_else(reference::Refused::returned, u64::from);
    assert_eq!(found, returned, "{}\nmarks {}\n{}", place(), hex(marks), shown(text));
    expected.map_err(|refused| refused.number)
}

/// Atoms of one reading, joined freely.
fn atoms(random: &mut Random, records: &[Record], size: usize) -> String {
    if size < 2 {
        return texts::atom(random, records);
    }
    let left = 1 + random.below(size - 1);
    let (p, q) = (atoms(random, records, left), atoms(random, records, size - left));
    match random.below(5) {
        0 => format!("!({p})"),
        1 | 2 => format!("({p}|{q})"),
        _ => format!("({p}&{q})"),
    }
}

fn side(random: &mut Random) -> String {
    random.pick(&["A>B", "A<=B", "!A>B", "!A<=B"]).into()
}

/// A part of line 2. With `named`, v may stand at an addition.
fn lasting(random: &mut Random, records: &[Record], size: usize, named: bool) -> String {
    let curve = random.pick(&["A", "B"]);
    let slope = random.pick(&["fall", "rise"]);
    let pigment = texts::pigment(random, records);
    let here = |random: &mut Random| {
        let size = 1 + random.below(2);
        let text = atoms(random, records, size);
        if named || !text.contains('v') {
            text
        } else {
            "A>B".into()
        }
    };
    match random.below(7) {
        0 => format!("F({slope}({curve}))"),
        1 => format!("G(!{slope}({curve}))"),
        2 if size > 1 => {
            let behind = lasting(random, records, size - 1, named);
            let behind = if random.once_in(2) { format!("X({behind})") } else { behind };
            match random.below(3) {
                0 => format!("G(!P={pigment}|{}|{behind})", here(random)),
                _ => format!("F(P={pigment}&{}&{behind})", here(random)),
            }
        }
        3 if size > 1 => {
            let (p, q) = (over(random, records, size / 2, named), over(random, records, size - size / 2, named));
            format!("{}({p},{q})", random.pick(&["U", "W"]))
        }
        4 => format!("{}({})", random.pick(&["F", "G"]), over(random, records, size, named)),
        5 => format!("G(!P={pigment}|{})", here(random)),
        _ => format!("F(P={pigment}&{})", here(random)),
    }
}

/// What F, G, U and W stand over in line 2: sides and parts of the line.
fn over(random: &mut Random, records: &[Record], size: usize, named: bool) -> String {
    if size < 2 {
        return side(random);
    }
    let part = lasting(random, records, size - 1, named);
    match random.below(4) {
        0 => part,
        1 => format!("!{part}"),
        _ => format!("({}{}{part})", side(random), random.pick(&["&", "|"])),
    }
}

/// A part of line 3.
fn firstly(random: &mut Random, records: &[Record], marks: &[i64], size: usize) -> String {
    let curve = random.pick(&["A", "B"]);
    let relation = random.pick(&[">=", "<=", ">", "<"]);
    let right = if random.once_in(3) { texts::number(random, records).to_string() } else { "v".into() };
    match random.below(8) {
        0 | 1 => texts::atom(random, records),
        2 => format!("{}({curve}{relation}{right})", random.pick(&["F", "G"])),
        3 if !marks.is_empty() => format!("F(T>{}&{curve}{relation}{right})", random.pick(marks)),
        4 if !marks.is_empty() => format!("G(!(T>{})|{curve}{relation}{right})", random.pick(marks)),
        5 => format!("F(G({}))", texts::atom(random, records)),
        6 => format!("F(T>{}&{})", texts::number(random, records), over(random, records, size, false)),
        _ => lasting(random, records, size, false),
    }
}

/// Parts of one line, joined.
fn joined(random: &mut Random, size: usize, part: &mut dyn FnMut(&mut Random) -> String) -> String {
    if size < 2 {
        return part(random);
    }
    let left = 1 + random.below(size - 1);
    let (p, q) = (joined(random, left, part), joined(random, size - left, part));
    match random.below(5) {
        0 => format!("!({p})"),
        1 | 2 => format!("({p})|({q})"),
        _ => format!("({p})&({q})"),
    }
}

/// A text made by the three lines.
fn by_the_lines(random: &mut Random, records: &[Record], marks: &[i64]) -> String {
    let (size, within) = (random.pick(&[1, 1, 2, 3]), random.pick(&[1, 1, 2, 3]));
    match random.below(7) {
        0 => {
            let after = if marks.is_empty() { None } else { Some(random.pick(marks)) };
            let mut part = |random: &mut Random| match after {
                Some(k) => texts::listed(random, records, k),
                None => format!("{}(A)", random.pick(&["high", "peaks", "gaps"])),
            };
            joined(random, size, &mut part)
        }
        1..=3 => joined(random, size, &mut |random| lasting(random, records, within, true)),
        _ => joined(random, size, &mut |random| firstly(random, records, marks, within)),
    }
}

/// A text of any kind: by the lines, one with any of F, G, X, U and W, no text at all.
fn any_text(random: &mut Random, records: &[Record], marks: &[i64]) -> Vec<u8> {
    let size = random.pick(&[1, 2, 3, 4, 6, 10, 40]);
    let text = match random.below(10) {
        0 => texts::made(random, Kind::Mixed, size, records),
        1 => texts::made(random, Kind::Listed, size, records),
        2 => random.pick(&GOOD).into(),
        3..=5 => texts::made(random, Kind::Temporal, size, records),
        6 => format!("{}|{}", by_the_lines(random, records, marks), by_the_lines(random, records, marks)),
        _ => by_the_lines(random, records, marks),
    };
    match random.below(30) {
        0 => texts::changed(random, &text),
        1 => format!("{}{text}{}", "(".repeat(17), ")".repeat(17)).into_bytes(),
        2 => text.repeat(40).into_bytes(),
        3 => vec![],
        _ => text.into_bytes(),
    }
}

#[test]
fn random_texts_and_marks() {
    let (mut tally, mut ones) = (Tally::default(), [0u64; 2]);
    cases("assured, random texts and marks", 120_000, |random| {
        let records = recordings::any(random);
        let own = recordings::marks(random, &records);
        let marks = if random.once_in(8) { odd_marks(random) } else { mark_bytes(&own) };
        let found = assured(&any_text(random, &records, &own), &marks);
        tally.add(found.err().unwrap_or(0));
        if let Ok(one) = found {
            ones[usize::from(one)] += 1;
        }
    });
    tally.saw(&[0, 5, 6, 7, 11], 500);
    assert!(one_alone() || ones.iter().all(|count| *count > 15_000), "0 and 1 came up {ones:?} times");
}

/// Every text that the three lines make, and that is not too large, is assured.
#[test]
fn texts_by_the_three_lines() {
    let mut seen = 0;
    cases("assured, texts by the three lines", 60_000, |random| {
        let records = recordings::any(random);
        let marks = recordings::marks(random, &records);
        let text = by_the_lines(random, &records, &marks);
        let found = assured(text.as_bytes(), &mark_bytes(&marks));
        assert!(found != Ok(false) && found != Err(6) && found != Err(11), "{text} under {marks:?}: {found:?}");
        seen += u64::from(found == Ok(true));
    });
    assert!(one_alone() || seen > 50_000, "{seen} texts assured");
}

/// Texts that are assured under the mark 40, and texts that are not.
const ASSURED: [&str; 32] = [
    "F(P=3&A=v)",
    "F(P=3&B=v)",
    "F(P=3&T=v)",
    "G(!P=3|A>B)",
    "F(P=3&A>B)",
    "F(P=3&A=v)|F(P=4&A=v)",
    "F(A>=v)",
    "F(A<v)",
    "G(B<=v)",
    "F(T>40&A<=v)",
    "G(!(T>40)|A<=v)",
    "F(A>B)",
    "G(A<=B)",
    "F(fall(A))",
    "G(!rise(B))",
    "F(G(A=v))",
    "A>=v&F(P=3)",
    "!F(A>B)|G(!P=3|A>B)&F(fall(A))",
    "F(P=3&X(F(P=4&A=v)))",
    "G(!P=3|X(G(!P=3)))",
    "U(!P=4,P=3)",
    "G(A>B|F(P=3))",
    "!F(A<=B&F(P=3))",
    "F(T>100&A>B)",
    "G(!(T>100)|A<=B)",
    "A=v|F(A>B)&F(B>=50)",
    "high(A)",
    "peaks(A)&!cross",
    "lowafter(A,40)",
    "capafter(B,40)|dose(3)",
    "A=v",
    "T>7",
];

const OTHERS: [&str; 22] = [
    "capafter(A,39)",
    "lowafter(A,40)|lowafter(A,41)",
    "F(T>41&A<=v)",
    "F(T>=40&A<=v)",
    "G(!(T>41)|A<=v)",
    "G(T<=40|A<=v)",
    "F(A=v)",
    "G(A=v)",
    "F(A>=B)",
    "F(A<B)",
    "G(A=B)",
    "X(A>=v)",
    "X(A>B|P=3)",
    "F(P=3&X(A=v))",
    "F(A=60&X(A=v))",
    "U(A>=40,A=v)",
    "F(A>B&A=v)",
    "F(fall(A)&A>B)",
    "F(P=3&A=v)|A=v",
    "F(P=3&A=v)&F(B>=50)",
    "F(P=3&A=v)&F(B>=v)",
    "G(F(A=v))",
];

#[test]
fn texts_by_hand() {
    begin("assured, texts by hand", 0);
    for marks in [&[40][..], &[40, 0, 7], &[2_000_000_000, 40, 40]] {
        for text in ASSURED {
            assert_eq!(assured(text.as_bytes(), &mark_bytes(marks)), Ok(true), "{text}");
        }
        for text in OTHERS {
            assert_eq!(assured(text.as_bytes(), &mark_bytes(marks)), Ok(false), "{text}");
        }
    }
    // Without the mark, and with one that is near.
    for text in ["F(T>40&A<=v)", "G(!(T>40)|A<=v)", "lowafter(A,40)", "capafter(B,40)|dose(3)"] {
        for marks in [&[][..], &[39, 41]] {
            assert_eq!(assured(text.as_bytes(), &mark_bytes(marks)), Ok(false), "{text}");
        }
    }
    // Numbers below 0 are no marks, whatever the bits.
    for text in ["F(T>-1&A<=v)", "lowafter(A,-294967296)", "capafter(A,-2000000000)"] {
        assert_eq!(assured(text.as_bytes(), &mark_bytes(&[0, 2_000_000_000])), Ok(false), "{text}");
    }
    assert_eq!(mill::assured(b"F(P=3&A=v)", &[40]), Ok(true));
    assert_eq!(mill::assured(b"F(A=v)", &[40]), Ok(false));
    assert_eq!(mill::assured(b"F(A=v", &[40]), Err(Refusal::NoReading));
    assert_eq!(mill::assured(b"F(A=v)", &[2_000_000_001]), Err(Refusal::BadMarks));
}

/// Each of 5, 6 and 7 comes before 11.
#[test]
fn order_of_refusals() {
    begin("assured, order of refusals", 0);
    let deep = format!("{}A=v{}", "(".repeat(17), ")".repeat(17));
    let large = format!("{}A=v", "!".repeat(32));
    let marks = [vec![], vec![1], vec![0; 3], vec![0; 36], vec![255; 4], mark_bytes(&[40, 2_000_000_001])];
    for (index, marks) in marks.iter().enumerate() {
        for (text, number) in [("", 5), (&"A".repeat(257)[..], 5), ("A=", 6), ("F(high(A))", 6), (&deep, 7), (&large, 7)] {
            assert_eq!(assured(text.as_bytes(), marks), Err(number), "{text}");
        }
        let expected = if index == 0 { Ok(true) } else { Err(11) };
        assert_eq!(assured(b"high(A)", marks), expected);
        assert_eq!(assured(format!("{}A=v", "!".repeat(31)).as_bytes(), marks), expected);
    }
}

/// What the question, the degree, the band call and a report of one batch return and write of the readings.
fn answers(readings: &[u8], text: &[u8], room: usize, target: i64) -> impl PartialEq + std::fmt::Debug {
    let report = mill::Report::start(1, text, target).and_then(|mut report| report.add(readings));
    let band = mill::band(readings, text, 5);
    (bytes_of(readings, text, room, mill_question), mill::degree(readings, text, target), band, report)
}

/// Outputs: with room for every set mostly.
fn room(random: &mut Random) -> usize {
    random.pick(&[MILL_SET_BYTES, MILL_SET_BYTES, MILL_SET_BYTES, 8, 16, 0])
}

/// Of every selection that includes the kept readings.
#[test]
fn what_one_promises() {
    let (mut tally, mut dropped, mut temporal, mut differ) = (Tally::default(), 0u64, 0u64, 0u64);
    cases("what 1 promises", 40_000, |random| {
        let records = if random.once_in(10) { with_many_events(random) } else { recordings::any(random) };
        let full = bytes(&records);
        let marks = recordings::marks(random, &records);
        let kept = chosen(&records, &marks);
        let seldom = random.pick(&[2, 5, 20]);
        let some: Vec<bool> = kept.iter().map(|kept| *kept || random.once_in(seldom)).collect();
        let held = [selected_bytes(&full, &kept), selected_bytes(&full, &some)];
        for _ in 0..3 {
            let text = any_text(random, &records, &marks);
            let (room, target) = (room(random), texts::target(random, &records));
            let of_full = answers(&full, &text, room, target);
            let same = held.each_ref().map(|held| answers(held, &text, room, target) == of_full);
            match assured(&text, &mark_bytes(&marks)) {
                Ok(true) => {
                    assert_eq!(same, [true; 2], "{}: {} under {marks:?} of {records:?}", place(), shown(&text));
                    tally.add(number_of(&reference::question(&full, &text, room)));
                    dropped += u64::from(held[0].len() < full.len());
                    temporal += u64::from(accepted(&text).unwrap().parts().iter().any(|part| part.is_temporal()));
                }
                Ok(false) => differ += u64::from(!same[0]),
                Err(_) => assert_eq!(same, [true; 2], "what is refused is refused alike"),
            }
        }
    });
    tally.saw(&[0], 30_000);
    tally.saw(&[8], 5);
    tally.saw(&[10], 500);
    assert!(one_alone() || dropped > 20_000 && temporal > 20_000, "{dropped} with readings dropped, {temporal} with F to W");
    assert!(one_alone() || differ > 150, "{differ} texts that are not assured were answered otherwise");
}

/// 8 of v at additions: the same from kept as from full, on either side of 256 runs. And why a bare `A=v` may not stand beside it.
#[test]
fn refusal_8_at_additions() {
    begin("assured, 8 at additions", 0);
    for additions in [255, 256, 257] {
        // Readings with an addition at every second one, of values 2 apart, then one that is left out.
        let mut records: Vec<Record> = (0..2 * additions + 3)
            .map(|index| Record { time: index, value: [2 * index, 5_000], slope: [1, 1], pigment: (index % 2) as u8 * 3 })
            .collect();
        let last = records.len() - 2;
        records[last].pigment = 0;
        let full = bytes(&records);
        let kept = selected_bytes(&full, &chosen(&records, &[]));
        assert!(kept.len() < full.len());
        for text in ["F(P=3&A=v)", "F(P=3&A=v)|F(P=4&A=v)", "!F(P=3&A=v)", "G(!P=3|!A=v)", "F(P=3&X(F(P=3&A=v)))"] {
            assert_eq!(assured(text.as_bytes(), &[]), Ok(true));
            let of_full = answers(&full, text.as_bytes(), MILL_SET_BYTES, 7);
            assert_eq!(answers(&kept, text.as_bytes(), MILL_SET_BYTES, 7), of_full, "{text}");
        }
        let refused = mill::question(&full, b"F(P=3&A=v)") == Err(Refusal::TooManyRuns);
        assert_eq!(refused, additions > 256);
    }
    // 256 additions; the first and the last reading have values of theirs, the second, which is left out, one of its own.
    let value = |index: i64| if index == 1 { 42 } else { 4 * index.clamp(2, 257) };
    let records: Vec<Record> = (0..259)
        .map(|index| Record {
            time: index,
            value: [value(index), 0],
            slope: [1, 1],
            pigment: if (2..258).contains(&index) { 3 } else { 0 },
        })
        .collect();
    let full = bytes(&records);
    let kept = selected_bytes(&full, &chosen(&records, &[]));
    assert_eq!(kept.len(), full.len() - 16);
    let text = b"F(P=3&A=v)|A=v";
    assert_eq!(assured(text, &[]), Ok(false));
    assert_eq!(mill::question(&full, text), Err(Refusal::TooManyRuns));
    assert_eq!(mill::question(&kept, text).map(|set| set.runs().len()), Ok(256));
}

/// Thinned piece by piece, past 4,096 readings too: what the text means of the join; and of a growing run.
#[test]
fn pieces_and_growing_runs() {
    let mut past = 0;
    cases("assured, pieces and growing runs", 400, |random| {
        let count = if random.once_in(20) { 5_000 } else { 1 + random.below(60) };
        let records = recordings::accepted(random, count);
        let full = bytes(&records);
        let marks = recordings::marks(random, &records);
        let (mut held, mut taken) = (Vec::new(), 0);
        while taken < full.len() {
            let end = (taken + 16 * (1 + random.below(if count == 5_000 { 900 } else { 9 }))).min(full.len());
            let piece = [&held, &full[taken..end]].concat();
            let (returned, kept) = bytes_of(&piece, &mark_bytes(&marks), 65_536, mill_thin);
            if sys::mill_number(returned) != 0 {
                return;
            }
            (held, taken) = (kept, end);
        }
        past += u64::from(count > 4_096);
        let own: Vec<u32> = marks.iter().map(|mark| *mark as u32).collect();
        let mut run = mill::Live::start(&own).unwrap();
        let grown = full.chunks(16).all(|reading| run.add(reading).is_ok());
        for _ in 0..if count == 5_000 { 2 } else { 6 } {
            let text = by_the_lines(random, &records, &marks);
            let Ok(node) = accepted(text.as_bytes()) else { continue };
            if assured(text.as_bytes(), &mark_bytes(&marks)) != Ok(true) {
                continue;
            }
            if count > 4_096 {
                // What the text means of the join, which is no recording.
                let expected = reference::asked(&in_rules(&full).unwrap(), &node, MILL_SET_BYTES);
                let found = bytes_of(&held, text.as_bytes(), MILL_SET_BYTES, mill_question);
                same_bytes(&expected, found, || format!("{text} under {marks:?}"));
            } else {
                let of_full = answers(&full, text.as_bytes(), MILL_SET_BYTES, 7);
                assert_eq!(answers(&held, text.as_bytes(), MILL_SET_BYTES, 7), of_full, "{text} under {marks:?} of {records:?}");
                if grown {
                    assert_eq!(answers(&run.kept().unwrap(), text.as_bytes(), MILL_SET_BYTES, 7), of_full, "{text}");
                }
            }
        }
    });
    assert!(one_alone() || past > 5, "{past} joins past 4,096 readings");
}
