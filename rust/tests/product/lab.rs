//! Covers: the laboratory's calls: texts and marks of every kind; recordings that differ in B alone, kept against kept, full against
//! full and kept against full, give the same; what is refused neither 11 nor 14 is the plain call's; the order of refusals; 256 and 257
//! tops; and that each part of 14 is needed: what would leak.

use crate::calls::{
    at_the_desk, bytes_of, count, degree_numbers, hex, number_of, pair_numbers, same_bytes, same_numbers, shown, Tally,
};
use crate::question::room;
use crate::support::cases::{begin, cases, one_alone};
use crate::support::r2::r2_bytes;
use crate::support::r5::{self, r5_bytes};
use crate::support::random::Random;
use crate::support::recordings::{self, flat, odd_marks, with_many_events, with_tops};
use crate::support::texts::{self, Kind, GOOD};
use mill::sys::{self, MILL_SET_BYTES};
use mill::{Curve, Refusal, Run};
use reference::kept::mark_bytes;
use reference::recording::{bytes, Record};
use reference::text::accepted;
use reference::{self};

/// What a laboratory call returned, and what it wrote.
type Outcome = (u64, Vec<u8>);

/// Asks and compares; what came back.
#[track_caller]
pub fn lab_question(recording: &[u8], marks: &[u8], text: &[u8], room: usize) -> Outcome {
    count();
    let found = at_the_desk(|desk| {
        let [first, other, output, last] = desk.turn();
        let recording_at = desk.recording.put(recording, first);
        let (marks_at, text_at) = (desk.second.put(marks, other), desk.third.put(text, last));
        // SAFETY: each pointer lies before as many bytes as its length says.
        desk.written(room, output, |out| unsafe {
            sys::mill_lab_question(recording_at, recording.len(), marks_at, marks.len(), text_at, text.len(), out, room)
        })
    });
    let call = || format!("mill_lab_question, {room} bytes of output\nmarks {}\n{}\n{}", hex(marks), shown(text), hex(recording));
    same_bytes(&reference::lab_question(recording, marks, text, room), found.clone(), call);
    found
}

/// Asks for a degree and compares; what came back.
#[track_caller]
pub fn lab_degree(recording: &[u8], marks: &[u8], text: &[u8], target: i64) -> Outcome {
    count();
    let (returned, numbers, filler) = at_the_desk(|desk| {
        let [first, other, output, last] = desk.turn();
        let recording_at = desk.recording.put(recording, first);
        let (marks_at, text_at) = (desk.second.put(marks, other), desk.third.put(text, last));
        let [distance, degree, ..] = desk.number_places(output, 8).map(|place| place.cast());
        let (recording_len, marks_len, text_len) = (recording.len(), marks.len(), text.len());
        // SAFETY: each pointer lies before as many bytes as its length says, or before its number.
        let returned = unsafe {
            sys::mill_lab_degree(recording_at, recording_len, marks_at, marks_len, text_at, text_len, target, distance, degree)
        };
        let [distance, degree, ..] = desk.numbers_after(output, 8);
        (returned, [distance, degree], desk.filler())
    });
    let expected = degree_numbers(&reference::lab_degree(recording, marks, text, target));
    let call = || format!("mill_lab_degree of {target}\nmarks {}\n{}\n{}", hex(marks), shown(text), hex(recording));
    let written = expected.1.is_some();
    same_numbers(expected, returned, &numbers, filler, call);
    (returned, if written { numbers.concat() } else { vec![] })
}

/// Asks for a pair and compares; what came back.
#[track_caller]
pub fn lab_pair(recording: &[u8], curve: u32, target: i64) -> Outcome {
    count();
    let (returned, numbers, filler) = at_the_desk(|desk| {
        let [first, _, output, _] = desk.turn();
        let recording_at = desk.recording.put(recording, first);
        let [earlier, later, ..] = desk.number_places(output, 4).map(|place| place.cast());
        // SAFETY: the pointer lies before as many bytes as its length says, the others before their numbers.
        let returned = unsafe { sys::mill_lab_pair(recording_at, recording.len(), curve, target, earlier, later) };
        let [earlier, later, ..] = desk.numbers_after(output, 4);
        (returned, [earlier, later], desk.filler())
    });
    let expected = pair_numbers(&reference::lab_pair(recording, curve, target));
    let written = expected.1.is_some();
    same_numbers(expected, returned, &numbers, filler, || {
        format!("mill_lab_pair of curve {curve}, {target}\n{}", hex(recording))
    });
    (returned, if written { numbers.concat() } else { vec![] })
}

fn number(outcome: &Outcome) -> u32 {
    sys::mill_number(outcome.0)
}

/// A text that the laboratory may ask, if `marks` are those that it hands in.
fn lab_text(random: &mut Random, records: &[Record], marks: &[i64], size: usize) -> String {
    if size > 1 {
        let left = 1 + random.below(size - 1);
        let (p, q) = (lab_text(random, records, marks, left), lab_text(random, records, marks, size - left));
        return match random.below(4) {
            0 => format!("!({p})"),
            1 => format!("({p})&({q})"),
            _ => format!("{p}|{q}"),
        };
    }
    let relation = random.pick(&[">=", "<=", ">", "<", "="]);
    match random.below(8) {
        0 => format!("A{relation}{}", texts::number(random, records)),
        1 => format!("{}{relation}v", random.pick(&["A", "T"])),
        2 => format!("{}(A)", random.pick(&["fall", "rise"])),
        3 => format!("{}{}", random.pick(&["P=", "!P="]), texts::pigment(random, records)),
        4 => format!("dose({})", texts::pigment(random, records)),
        5 if !marks.is_empty() => format!("{}(A,{})", random.pick(&["lowafter", "capafter"]), random.pick(marks)),
        _ => format!("{}(A)", random.pick(&["high", "low", "peaks", "dips", "ampl", "gaps", "steps"])),
    }
}

/// A text of any kind: one that the laboratory may ask, one of B or of F, G, X, U and W, an after-time that is no mark, no text at all.
fn any_text(random: &mut Random, records: &[Record], marks: &[i64]) -> Vec<u8> {
    let size = random.pick(&[1, 1, 2, 3, 5, 9]);
    let text = match random.below(10) {
        0 => texts::made(random, Kind::Mixed, size, records),
        1 => texts::made(random, Kind::Listed, size, records),
        2 => random.pick(&GOOD).into(),
        3 => {
            let k = random.pick(&[-1, 0, 7, 2_000_000_000]);
            format!("{}|capafter(A,{k})", lab_text(random, records, marks, size))
        }
        _ => lab_text(random, records, marks, size),
    };
    if random.once_in(9) {
        return texts::changed(random, &text);
    }
    text.into_bytes()
}

/// The same recording with another B: in all records, in some, or of another shape altogether.
fn other_b(random: &mut Random, records: &[Record]) -> Vec<Record> {
    let other = recordings::accepted(random, records.len());
    let seldom = random.pick(&[1, 1, 2, 10]);
    let mut twin = records.to_vec();
    for (record, other) in twin.iter_mut().zip(other) {
        if random.once_in(seldom) {
            (record.value[1], record.slope[1]) = (other.value[1], other.slope[1]);
        }
    }
    twin
}

/// The calls on each of the recordings, alike in all else: the same returned, and the same bytes.
#[track_caller]
fn alike(random: &mut Random, records: &[Record], recordings: &[&[u8]], marks: &[i64], tally: &mut Tally) {
    let (text, room, target) = (any_text(random, records, marks), room(random), texts::target(random, records));
    let marks = mark_bytes(marks);
    let same = |outcomes: Vec<Outcome>| {
        assert!(outcomes.iter().all(|outcome| *outcome == outcomes[0]), "{}: {outcomes:?} of {records:?}", shown(&text));
        number(&outcomes[0])
    };
    tally.add(same(recordings.iter().map(|recording| lab_question(recording, &marks, &text, room)).collect()));
    same(recordings.iter().map(|recording| lab_degree(recording, &marks, &text, target)).collect());
    for target in [target, recordings::gap(random, records, 0)] {
        let curve = random.pick(&[0, 0, 0, 1, 2, u32::MAX]);
        same(recordings.iter().map(|recording| lab_pair(recording, curve, target)).collect());
    }
}

/// Recordings that differ in B alone: what each keeps, and each in full.
#[test]
fn what_differs_in_b_alone_is_alike() {
    let (mut tally, mut kept_apart, mut told_apart) = (Tally::default(), 0, 0);
    cases("what differs in B alone is alike", 12_000, |random| {
        let records = match random.below(25) {
            0 => with_many_events(random),
            1..=14 => recordings::any(random),
            count => recordings::accepted(random, 4 * count),
        };
        let twin = other_b(random, &records);
        let marks = recordings::marks(random, &records);
        let [full, other] = [&records, &twin].map(|records| bytes(records));
        let thin = |recording: &[u8]| reference::thin(recording, &mark_bytes(&marks), usize::MAX).unwrap();
        let (kept, other_kept) = (thin(&full), thin(&other));
        let times = |recording: &[u8]| recording.chunks(16).map(|reading| reading[..4].to_vec()).collect::<Vec<_>>();
        kept_apart += u64::from(times(&kept) != times(&other_kept));
        told_apart += u64::from(mill::question(&full, b"high(B)|cross|lag") != mill::question(&other, b"high(B)|cross|lag"));
        for _ in 0..3 {
            alike(random, &records, &[&kept, &other_kept, &full, &other], &marks, &mut tally);
        }
    });
    tally.saw(&[0], 10_000);
    tally.saw(&[5, 6, 8, 10], 20);
    tally.saw(&[9], 5);
    tally.saw(&[14], 2_000);
    assert!(one_alone() || kept_apart > 3_000 && told_apart > 3_000, "{kept_apart} kept apart, {told_apart} told apart by B");
}

/// Full recordings under marks of any kind, 11 among them.
#[test]
fn any_marks_on_full_recordings() {
    let mut tally = Tally::default();
    cases("any marks on full recordings", 12_000, |random| {
        let records = recordings::any(random);
        let [full, other] = [&records, &other_b(random, &records)].map(|records| bytes(records));
        let own = recordings::marks(random, &records);
        let marks = if random.once_in(3) { odd_marks(random) } else { mark_bytes(&own) };
        let (text, room, target) = (any_text(random, &records, &own), room(random), texts::target(random, &records));
        let of_full = lab_question(&full, &marks, &text, room);
        assert_eq!(of_full, lab_question(&other, &marks, &text, room));
        assert_eq!(lab_degree(&full, &marks, &text, target), lab_degree(&other, &marks, &text, target));
        tally.add(number(&of_full));
    });
    tally.saw(&[0, 11, 14], 500);
    tally.saw(&[6, 10], 20);
}

/// One that neither 11 nor 14 refuses answers as the plain call does, on any bytes.
#[test]
fn else_as_the_plain_call() {
    let (mut tally, mut plain) = (Tally::default(), 0);
    cases("else as the plain call", 20_000, |random| {
        let records = if random.once_in(20) { with_many_events(random) } else { recordings::any(random) };
        let mut recording = bytes(&records);
        if random.once_in(6) {
            recording = recordings::damaged(random, recording);
        }
        let own = recordings::marks(random, &records);
        let marks = if random.once_in(6) { odd_marks(random) } else { mark_bytes(&own) };
        let (text, room, target) = (any_text(random, &records, &own), room(random), texts::target(random, &records));
        let lab = lab_question(&recording, &marks, &text, room);
        tally.add(number(&lab));
        if ![11, 14].contains(&number(&lab)) {
            plain += 1;
            assert_eq!(lab, bytes_of(&recording, &text, room, sys::mill_question), "{}", shown(&text));
        }
        let lab = lab_degree(&recording, &marks, &text, target);
        if ![11, 14].contains(&number(&lab)) {
            assert_eq!(lab, written_by_degree(&recording, &text, target));
        }
        for curve in [0, 1, 2] {
            let lab = lab_pair(&recording, curve, target);
            if number(&lab) != 14 {
                assert_eq!(lab, written_by_pair(&recording, curve, target));
            }
        }
    });
    tally.saw(&[0, 1, 3, 11, 14], 300);
    tally.saw(&[6, 10], 20);
    tally.saw(&[4, 8, 9], 5);
    assert!(one_alone() || plain > 8_000, "{plain} calls as the plain one");
}

fn written_by_degree(recording: &[u8], text: &[u8], target: i64) -> Outcome {
    let (mut distance, mut degree) = (0u64, 0u64);
    // SAFETY: the pointers lie before what their lengths say; 64 bits have the size and the alignment of a double.
    let returned = unsafe {
        let places = ((&raw mut distance).cast(), (&raw mut degree).cast());
        sys::mill_degree(recording.as_ptr(), recording.len(), text.as_ptr(), text.len(), target, places.0, places.1)
    };
    (returned, if returned == 1 { [distance, degree].map(u64::to_le_bytes).concat() } else { vec![] })
}

fn written_by_pair(recording: &[u8], curve: u32, target: i64) -> Outcome {
    let (mut earlier, mut later) = (0, 0);
    // SAFETY: the pointer lies before what its length says, the others before their numbers.
    let returned = unsafe { sys::mill_pair(recording.as_ptr(), recording.len(), curve, target, &mut earlier, &mut later) };
    (returned, if returned == 1 { [earlier, later].map(u32::to_le_bytes).concat() } else { vec![] })
}

/// Texts that 14 refuses with the marks 0, 40 and 2,000,000,000, and texts that it does not.
#[test]
fn what_the_laboratory_may_ask() {
    begin("what the laboratory may ask", 0);
    let marks = mark_bytes(&[40, 0, 2_000_000_000]);
    let shut = [
        "B=v",
        "B>=7",
        "A>B",
        "A=B",
        "A<=B",
        "fall(B)",
        "rise(B)",
        "high(B)",
        "low(B)",
        "peaks(B)",
        "dips(B)",
        "ampl(B)",
        "gaps(B)",
        "steps(B)",
        "lowafter(B,40)",
        "capafter(B,0)",
        "cross",
        "crossup",
        "lag",
        "!lag",
        "high(A)&!(A=v|cross)",
        "lowafter(A,39)",
        "lowafter(A,41)",
        "capafter(A,-40)",
        "capafter(A,-1)",
        "high(A)|lowafter(A,1999999999)",
        "lowafter(A,40)|lowafter(A,41)",
        "F(A=v)",
        "G(A>=v)",
        "X(A=v)",
        "U(A>=40,A=v)",
        "W(A<=v,T=v)",
        "!F(P=3&T=v)",
        "A=v|X(T=v)",
    ];
    let open = [
        "A=v",
        "A>=7",
        "T=v",
        "T>40",
        "P=3",
        "!P=16",
        "fall(A)",
        "rise(A)",
        "high(A)",
        "low(A)",
        "peaks(A)",
        "dips(A)",
        "dose(16)",
        "ampl(A)",
        "gaps(A)",
        "steps(A)",
        "lowafter(A,40)",
        "capafter(A,0)",
        "lowafter(A,2000000000)",
        "(high(A)&!peaks(A))|dose(1)",
    ];
    for recording in [r2_bytes(), r5_bytes(), bytes(&flat(1)), bytes(&flat(4096))] {
        for (texts, expected) in [(&shut[..], 14), (&open[..], 0)] {
            for text in texts {
                assert_eq!(number(&lab_question(&recording, &marks, text.as_bytes(), MILL_SET_BYTES)), expected, "{text}");
                assert_eq!(number(&lab_degree(&recording, &marks, text.as_bytes(), 40)), expected, "{text}");
            }
        }
    }
    // Repeats and order of the marks make no difference; without marks no after-time is one.
    let repeated = mark_bytes(&[2_000_000_000, 40, 40, 40, 0, 0, 40, 40]);
    assert_eq!(number(&lab_question(&r2_bytes(), &repeated, b"lowafter(A,40)&capafter(A,0)", 64)), 0);
    assert_eq!(number(&lab_question(&r2_bytes(), &[], b"lowafter(A,40)", 64)), 14);
    // A text that is read, and what its bytes show: one of the letters B, F, G, X, U, W, `cross` or `lag`, or an after-time.
    cases("what the bytes show", 6_000, |random| {
        let records = recordings::any(random);
        let text = any_text(random, &records, &[40]);
        if accepted(&text).is_err() {
            return;
        }
        let written = String::from_utf8(text.clone()).unwrap();
        let named = written.contains(['B', 'F', 'G', 'X', 'U', 'W']) || written.contains("cross") || written.contains("lag");
        let after = written.match_indices("after(A,").any(|(at, name)| !written[at + name.len()..].starts_with("40)"));
        let found = number(&lab_question(&bytes(&records), &mark_bytes(&[40]), &text, 1 << 15));
        assert_eq!(found == 14, named || after, "{written}");
    });
}

/// The order: 1 to 7, 11, 14, 9, 8, 10; for degrees 12 after 14; for pairs 1 to 4, 12, 14, 9.
#[test]
fn the_order_of_refusals() {
    begin("the order of refusals", 0);
    let good = r2_bytes();
    let many = bytes(&with_tops(4096, [257, 0]));
    let mut bad = good.clone();
    bad[4 * 16 + 13] = 3;
    let (odd, marks, off) = (vec![0; 3], mark_bytes(&[40]), 2_000_000_001);
    let large = "!".repeat(32) + "B=v";
    for (recording, marks, text, expected) in [
        (&good[1..], &odd, "", 1),
        (&bytes(&flat(4097))[..], &odd, "", 2),
        (&bad[..], &odd, "", 3),
        (&[][..], &odd, "", 4),
        (&good[..], &odd, "", 5),
        (&good[..], &odd, "B", 6),
        (&good[..], &odd, &large, 7),
        (&good[..], &odd, "B=v", 11),
        (&many[..], &odd, "gaps(A)", 11),
        (&many[..], &marks, "gaps(A)|B=v", 14),
        (&many[..], &marks, "gaps(A)|lowafter(A,41)", 14),
        (&many[..], &marks, "peaks(A)|lag", 14),
    ] {
        assert_eq!(number(&lab_question(recording, marks, text.as_bytes(), 0)), expected, "{text}");
        assert_eq!(number(&lab_degree(recording, marks, text.as_bytes(), off)), expected, "{text}");
        assert_eq!(lab_question(recording, marks, text.as_bytes(), 0).0 as u32, if expected == 3 { 4 } else { 0 });
    }
    assert_eq!(number(&lab_degree(&many, &marks, b"gaps(A)", off)), 12);
    assert_eq!(number(&lab_degree(&many, &marks, b"gaps(A)|peaks(A)", 7)), 9);
    assert_eq!(number(&lab_question(&many, &marks, b"gaps(A)|peaks(A)", 0)), 9);
    assert_eq!(number(&lab_question(&many, &marks, b"peaks(A)", 0)), 8);
    assert_eq!(number(&lab_question(&good, &marks, b"peaks(A)", 7)), 10);
    for (recording, curve, target, expected) in [
        (&good[1..], 2, off, 1),
        (&bytes(&flat(4097))[..], 2, off, 2),
        (&bad[..], 2, off, 3),
        (&[][..], 2, off, 4),
        (&good[..], 2, 40, 12),
        (&good[..], 1, off, 12),
        (&good[..], 1, 40, 14),
        (&bytes(&with_tops(4096, [0, 257]))[..], 1, 40, 14),
        (&many[..], 1, 40, 14),
        (&many[..], 0, off, 12),
        (&many[..], 0, 40, 9),
    ] {
        assert_eq!(number(&lab_pair(recording, curve, target)), expected, "{curve} {target}");
    }
}

/// 256 tops of A are answered, 257 refused 8 and, where the tops themselves count, 9; whatever B has.
#[test]
fn two_hundred_and_fifty_six_tops_and_one_more() {
    begin("two hundred and fifty-six tops and one more", 0);
    let marks = mark_bytes(&[40]);
    for of_b in [0, 3, 300] {
        for (tops, peaks, gaps) in [(256, 0, 0), (257, 8, 9)] {
            let recording = bytes(&with_tops(4096, [tops, of_b]));
            let kept = reference::thin(&recording, &marks, usize::MAX).unwrap();
            for recording in [recording, kept] {
                assert_eq!(number(&lab_question(&recording, &marks, b"peaks(A)", MILL_SET_BYTES)), peaks);
                assert_eq!(number(&lab_degree(&recording, &marks, b"peaks(A)", 7)), peaks);
                assert_eq!(number(&lab_question(&recording, &marks, b"gaps(A)", MILL_SET_BYTES)), gaps);
                assert_eq!(number(&lab_degree(&recording, &marks, b"steps(A)", 7)), gaps);
                assert_eq!(number(&lab_pair(&recording, 0, 16)), gaps);
                assert_eq!(number(&lab_pair(&recording, 1, 16)), 14);
            }
        }
    }
    let peaks = lab_question(&bytes(&with_tops(4096, [256, 0])), &[], b"peaks(A)", MILL_SET_BYTES);
    assert_eq!((peaks.0, peaks.1.len()), (2048, 2048));
}

/// R2 and R5 differ in B at one reading, and R5 keeps it. What the laboratory may ask does not tell them apart; each of these would: a
/// text that names B, one with F, an after-time that is no mark, and marks that are not those of the thinning.
#[test]
fn what_would_leak() {
    begin("what would leak", 0);
    let [kept, other] = [r2_bytes(), r5_bytes()].map(|recording| mill::thin(&recording, &[]).unwrap());
    let times = |recording: &[u8]| -> Vec<i64> { recording.chunks(16).map(|reading| i64::from(reading[0])).collect() };
    assert_eq!((times(&kept), times(&other)), (vec![0, 10, 30, 40, 60, 80], r5::KEPT.to_vec()));
    let apart = |text: &str| mill::question(&kept, text.as_bytes()) != mill::question(&other, text.as_bytes());
    for text in ["high(B)", "F(T=v)", "F(A=9&X(A=v))", "capafter(A,10)"] {
        assert!(apart(text), "{text}");
        for recording in [&kept, &other] {
            assert_eq!(mill::lab_question(recording, &[], text.as_bytes()), Err(Refusal::NotForLaboratory), "{text}");
        }
    }
    for text in ["high(A)", "peaks(A)", "T=v", "ampl(A)&!dips(A)"] {
        assert!(!apart(text), "{text}");
        assert_eq!(mill::lab_question(&kept, &[], text.as_bytes()), mill::lab_question(&other, &[], text.as_bytes()));
    }
    // Thinned without marks and asked with the mark 10: the answers differ, for R5 keeps the reading at 20.
    let from = |low: i32| vec![Run { low, high: 2_000_000_000 }];
    let told = |kept: &[u8]| mill::lab_question(kept, &[10], b"capafter(A,10)").unwrap().runs().to_vec();
    assert_eq!(told(&kept), from(7));
    assert_eq!(told(&other), from(8));
    // Thinned with it: the same.
    for recording in [r2_bytes(), r5_bytes()] {
        let kept = mill::thin(&recording, &[10]).unwrap();
        assert_eq!(told(&kept), from(8));
        assert_eq!(mill::lab_degree(&kept, &[10], b"peaks(A)", 40), Ok(mill::Degree::Met));
        assert_eq!(mill::lab_pair(&kept, Curve::A, 40), Ok(None));
        assert_eq!(mill::lab_pair(&kept, Curve::B, 40), Err(Refusal::NotForLaboratory));
    }
    assert_eq!(number_of(&reference::lab_question(&kept, &[1], b"high(A)", 8)), 11);
}
