//! Covers: the cases of questions at the limits that the scope names to be run, and the traps: each with its outcome written here, so that
//! a common error of both sides would show.

use crate::calls::{degree, question, thin};
use crate::support::cases::begin;
use crate::support::r1::{r1_bytes, RIGHT_AFTER};
use crate::support::r2::{self, r2_bytes};
use crate::support::r3::{self, r3_bytes};
use crate::support::r4::{self, r4_bytes};
use crate::support::recordings::{flat, plateau, upside_down, with_additions, with_crossings, with_dips, with_most_tops};
use crate::support::recordings::{with_slopes, with_tops, with_tops_at, with_values};
use crate::support::slopes::{every, written, TURNS};
use crate::support::texts::turns;
use mill::Run;
use reference::recording::{bytes, Record, FALLING, FLAT, RISING};
use reference::set::{HIGH, LOW};

const ROOM: usize = 2048;

/// The runs that the library answers, after the comparison.
#[track_caller]
fn runs(recording: &[u8], text: &str) -> Vec<(i64, i64)> {
    begin("edges", 0);
    assert_eq!(question(recording, text.as_bytes(), ROOM), 0, "{text}");
    let runs = mill::question(recording, text.as_bytes()).expect(text);
    runs.iter().map(|Run { low, high }| ((*low).into(), (*high).into())).collect()
}

#[track_caller]
fn refused(recording: &[u8], text: &str) -> u32 {
    begin("edges", 0);
    question(recording, text.as_bytes(), ROOM)
}

#[test]
fn r1_keeps_what_comes_right_after() {
    let (text, expected) = RIGHT_AFTER;
    assert_eq!(runs(&r1_bytes(), text), expected);
    for marks in [&[][..], &[40]] {
        assert_eq!(runs(&mill::thin(&r1_bytes(), marks).unwrap(), text), expected);
    }
    assert_eq!(thin(&r1_bytes(), &[], 128), 0);
    assert_eq!(thin(&r1_bytes(), &[], 127), 10);
}

#[test]
fn what_is_not_kept_is_lost() {
    for (recording, length, lost) in [(r2_bytes(), 96, &r2::LOST[..]), (r3_bytes(), 112, &r3::LOST), (r4_bytes(), 64, &r4::LOST)]
    {
        assert_eq!(thin(&recording, &[], length), 0);
        assert_eq!(thin(&recording, &[], length - 1), 10);
        let kept = mill::thin(&recording, &[]).unwrap();
        for (text, on_full, on_kept) in lost {
            assert_eq!(runs(&recording, text), *on_full, "{text}");
            assert_eq!(runs(&kept, text), *on_kept, "{text}");
        }
    }
}

#[test]
fn two_hundred_and_fifty_six_runs_and_one_more() {
    for curve in ["A", "B"] {
        let tops = |count: usize| bytes(&with_tops(4096, if curve == "A" { [count, 0] } else { [0, count] }));
        assert_eq!(runs(&tops(256), &format!("peaks({curve})")).len(), 256);
        assert_eq!(question(&tops(256), format!("peaks({curve})").as_bytes(), 2048), 0);
        assert_eq!(question(&tops(256), format!("peaks({curve})").as_bytes(), 2047), 10);
        assert_eq!(refused(&tops(257), &format!("peaks({curve})")), 8);
        assert_eq!(question(&tops(257), format!("peaks({curve})").as_bytes(), 0), 8);
        // The complement has one run more, and each `!` is a node.
        assert_eq!(refused(&tops(256), &format!("!peaks({curve})")), 8);
        assert_eq!(refused(&tops(256), &format!("!!peaks({curve})")), 8);
        assert_eq!(runs(&tops(255), &format!("!peaks({curve})")).len(), 256);
        assert_eq!(refused(&tops(256), &turns("rise", "fall", curve)), 0);
        assert_eq!(refused(&tops(257), &turns("rise", "fall", curve)), 8);
        assert_eq!(degree(&tops(256), format!("peaks({curve})").as_bytes(), 9), 0);
        assert_eq!(degree(&tops(257), format!("peaks({curve})").as_bytes(), 9), 8);
        // The other curve has none.
        let other = if curve == "A" { "B" } else { "A" };
        assert_eq!(runs(&tops(257), &format!("peaks({other})")), []);
    }
}

#[test]
fn two_hundred_and_fifty_six_dips_and_one_more() {
    for (curve, other) in [("A", "B"), ("B", "A")] {
        let dips = |count: usize| bytes(&with_dips(4096, if curve == "A" { [count, 0] } else { [0, count] }));
        let (text, formula) = (format!("dips({curve})"), turns("fall", "rise", curve));
        let every: Vec<(i64, i64)> = (0..256).map(|i| 1 + i * 4095 / 256).map(|time| (time, time)).collect();
        assert_eq!(runs(&dips(256), &text), every);
        assert_eq!(runs(&dips(256), &formula), every);
        assert_eq!(question(&dips(256), text.as_bytes(), 2047), 10);
        for text in [&text, &formula] {
            assert_eq!(refused(&dips(257), text), 8);
            assert_eq!(question(&dips(257), text.as_bytes(), 0), 8);
            assert_eq!(degree(&dips(256), text.as_bytes(), 9), 0);
            assert_eq!(degree(&dips(257), text.as_bytes(), 9), 8);
        }
        assert_eq!(refused(&dips(256), &format!("!dips({curve})")), 8);
        assert_eq!(runs(&dips(255), &format!("!dips({curve})")).len(), 256);
        assert_eq!(runs(&dips(257), &format!("dips({other})")), []);
        // 9 is not for dips.
        let most = upside_down(with_most_tops(usize::from(curve == "B"), 4096));
        assert_eq!(refused(&bytes(&most), &text), 8);
    }
}

#[test]
fn two_hundred_and_fifty_six_crossings_and_one_more() {
    let crossings = |count: usize| bytes(&with_crossings(4096, count));
    let every = |later: i64| (0..256).map(|i| 1 + i * 4094 / 256 + later).map(|time| (time, time)).collect::<Vec<_>>();
    assert_eq!(runs(&crossings(256), "crossup"), every(0));
    assert_eq!(runs(&crossings(256), "cross"), every(1));
    // Each upward one and the crossing after it join in a run.
    assert_eq!(runs(&crossings(256), "cross|crossup").len(), 256);
    for text in ["crossup", "F(A<=B&X(A>B&T=v))", "cross", "F(A>B&X(A<=B&T=v))"] {
        assert_eq!(refused(&crossings(256), text), 0);
        assert_eq!(question(&crossings(256), text.as_bytes(), 2047), 10);
        assert_eq!(refused(&crossings(257), text), 8);
        assert_eq!(question(&crossings(257), text.as_bytes(), 0), 8);
        assert_eq!(degree(&crossings(256), text.as_bytes(), 9), 0);
        assert_eq!(degree(&crossings(257), text.as_bytes(), 9), 8);
    }
    assert_eq!(refused(&crossings(256), "!crossup"), 8);
    assert_eq!(runs(&crossings(255), "!crossup").len(), 256);
}

/// Additions lie apart here; 9 is not for them.
#[test]
fn two_hundred_and_fifty_six_additions_and_one_more() {
    for k in [1, 9, 10, 16] {
        let additions = |count: usize| bytes(&with_additions(4096, count, k));
        let every: Vec<(i64, i64)> = (0..256).map(|i| 16 * i).map(|time| (time, time)).collect();
        for text in [format!("dose({k})"), format!("F(P={k}&T=v)")] {
            assert_eq!(runs(&additions(256), &text), every);
            assert_eq!(question(&additions(256), text.as_bytes(), 2048), 0);
            assert_eq!(question(&additions(256), text.as_bytes(), 2047), 10);
            for count in [257, 1_000, 2_048] {
                assert_eq!(refused(&additions(count), &text), 8, "{count}");
            }
            assert_eq!(question(&additions(257), text.as_bytes(), 0), 8);
            assert_eq!(degree(&additions(256), text.as_bytes(), 9), 0);
            assert_eq!(degree(&additions(257), text.as_bytes(), 9), 8);
            // All records: neighbours join.
            assert_eq!(runs(&additions(4096), &text), [(0, 4095)]);
            assert_eq!(degree(&additions(4096), text.as_bytes(), 5_000), 0);
            assert_eq!(runs(&additions(0), &text), []);
        }
        assert_eq!(refused(&additions(256), &format!("!dose({k})")), 8);
        assert_eq!(runs(&additions(255), &format!("!dose({k})")).len(), 256);
        // Another pigment was never added.
        for other in (1..=16).filter(|other| *other != k) {
            assert_eq!(runs(&additions(257), &format!("dose({other})")), []);
        }
    }
}

/// Every second record has one pigment and the others have another: apart each, together one run.
#[test]
fn additions_join_before_runs_are_counted() {
    let two = |count: usize| {
        let mut records = flat(count);
        records.iter_mut().enumerate().for_each(|(index, record)| record.pigment = [1, 2][index % 2]);
        bytes(&records)
    };
    assert_eq!(runs(&two(512), "dose(1)").len(), 256);
    assert_eq!(runs(&two(512), "dose(1)|dose(2)"), [(0, 511)]);
    assert_eq!(runs(&two(512), "dose(1)&dose(2)"), []);
    assert_eq!(runs(&two(512), "F((P=1|P=2)&T=v)"), [(0, 511)]);
    assert_eq!(refused(&two(513), "dose(1)|dose(2)"), 8);
    assert_eq!(runs(&two(513), "dose(2)").len(), 256);
    assert_eq!(refused(&two(514), "dose(2)"), 8);
    assert_eq!(runs(&two(4096), "F((P=1|P=2)&T=v)"), [(0, 4095)]);
    // Runs of three neighbours, then one record without: 300 of them are 8 though they hold 900 times.
    let threes = |count: usize| {
        let mut records = flat(4 * count);
        records.iter_mut().enumerate().for_each(|(index, record)| record.pigment = [7, 7, 7, 0][index % 4]);
        bytes(&records)
    };
    let every: Vec<(i64, i64)> = (0..256).map(|i| (4 * i, 4 * i + 2)).collect();
    assert_eq!(runs(&threes(256), "dose(7)"), every);
    assert_eq!(runs(&threes(256), "F(P=7&T=v)"), every);
    assert_eq!(refused(&threes(257), "dose(7)"), 8);
    assert_eq!(refused(&threes(300), "F(P=7&T=v)"), 8);
}

#[test]
fn an_addition_at_the_first_and_at_the_last_record() {
    for (text, formula) in [("dose(5)", "F(P=5&T=v)"), ("dose(5)|dose(6)", "F(P=5&T=v)|F(P=6&T=v)")] {
        let mut records = flat(1);
        records[0].pigment = 5;
        records[0].time = HIGH;
        assert_eq!(runs(&bytes(&records), text), [(HIGH, HIGH)]);
        assert_eq!(runs(&bytes(&records), formula), [(HIGH, HIGH)]);
        let mut records = flat(9);
        records[0].pigment = 5;
        assert_eq!(runs(&bytes(&records), text), [(0, 0)]);
        records[8].pigment = 5;
        assert_eq!(runs(&bytes(&records), text), [(0, 0), (8, 8)]);
        assert_eq!(runs(&bytes(&records), formula), [(0, 0), (8, 8)]);
        records[0].pigment = 0;
        assert_eq!(runs(&bytes(&records), text), [(8, 8)]);
    }
}

/// `P=k` is an atom: it is judged at a record, goes with F, G, X, U and W, and is no other field.
#[test]
fn the_atom_of_a_pigment() {
    let r3 = r3_bytes();
    for (text, expected) in r3::ANSWERS {
        assert_eq!(runs(&r3, text), expected, "{text}");
    }
    assert_eq!(runs(&r3, "X(X(P=7&T=v))"), [(20, 20)]);
    assert_eq!(runs(&r3, "U(!P=16,P=16&T=v)"), [(40, 40)]);
    assert_eq!(runs(&r3, "W(!P=7,T=v)"), [(0, 0), (10, 10), (20, 20)]);
    assert_eq!(runs(&r3, "G(!P=1)"), [(LOW, HIGH)]);
    assert_eq!(runs(&r3, "F(P=16&fall(A)&T=v)"), [(40, 40)]);
    assert_eq!(runs(&r3, "!P=7&high(A)"), [(LOW, 10)]);
    // A of 3, T of 3 and a slope of 2 are no pigments.
    let records = [Record { time: 3, value: [3, 3], slope: [RISING, RISING], pigment: 1 }];
    for k in 1..=16 {
        assert_eq!(runs(&bytes(&records), &format!("dose({k})")), if k == 1 { vec![(3, 3)] } else { vec![] });
        assert_eq!(runs(&bytes(&records), &format!("P={k}")), if k == 1 { vec![(LOW, HIGH)] } else { vec![] });
    }
    let unread = ["P=0", "P=17", "P=01", "P=v", "P=-1", "P>=1", "P>0", "P<=16", "P=B", "A=P", "P", "P=", "P=1P=1", "p=1"];
    let doses = ["dose(0)", "dose(17)", "dose(01)", "dose(017)", "dose(v)", "dose(A)", "dose()", "dose", "dose(1", "doses(1)"];
    for text in unread.iter().chain(&doses).chain(&["F(dose(1))", "dose(1)|X(P=1)", "dose(1)&dose(17)", "dose(4294967297)"]) {
        assert_eq!(refused(&r3, text), 6, "{text}");
        assert_eq!(degree(&r3, text.as_bytes(), 0), 6, "{text}");
    }
}

/// Recordings of before Paper 3 read as they did: nothing is added, and their lines stay.
#[test]
fn recordings_without_pigments() {
    for recording in [r1_bytes(), r2_bytes(), bytes(&with_tops(4096, [256, 256]))] {
        for k in 1..=16 {
            assert_eq!(runs(&recording, &format!("dose({k})")), []);
            assert_eq!(runs(&recording, &format!("F(P={k}&T=v)")), []);
        }
        assert_eq!(runs(&recording, "P=1"), []);
        assert_eq!(runs(&recording, "!P=1"), [(LOW, HIGH)]);
    }
}

#[test]
fn two_hundred_and_fifty_six_tops_of_differences_and_one_more() {
    let tops = |a: usize, b: usize| bytes(&with_tops(4096, [a, b]));
    for text in ["gaps(A)", "steps(A)", "lag", "gaps(A)|high(B)", "high(A)&!steps(A)"] {
        assert_eq!(refused(&tops(257, 0), text), 9, "{text}");
        assert_eq!(degree(&tops(257, 0), text.as_bytes(), 5), 9);
        assert_ne!(refused(&tops(256, 0), text), 9, "{text}");
    }
    assert_eq!(refused(&tops(0, 257), "lag"), 9);
    assert_eq!(refused(&tops(257, 0), "gaps(B)"), 0);
    assert_eq!(refused(&tops(0, 257), "steps(A)|gaps(A)"), 0);
    assert_eq!(runs(&tops(0, 256), "lag"), []);
    // 4,095 / 256 apart: 15 or 16 records.
    assert_eq!(runs(&tops(256, 256), "steps(A)"), [(15, 16)]);
    // Each number of steps makes one run: its differences are one or two neighbours.
    assert_eq!(runs(&tops(256, 0), "gaps(A)").len(), 255);
    assert_eq!(question(&tops(256, 0), b"gaps(A)", 2039), 10);
    assert_eq!(degree(&tops(256, 0), b"gaps(A)", 5_000), 0);
    assert_eq!(refused(&tops(256, 256), "lag"), 8);
    // 9 comes before 8, wherever it stands, and after 12.
    assert_eq!(refused(&tops(257, 0), "peaks(A)|gaps(A)"), 9);
    assert_eq!(refused(&tops(257, 0), "!(peaks(A)&steps(A))"), 9);
    assert_eq!(degree(&tops(257, 0), b"gaps(A)", 2_000_000_001), 12);
    assert_eq!(degree(&tops(257, 0), b"peaks(A)", -2_000_000_001), 12);
}

#[test]
fn four_thousand_and_ninety_six_records_and_one_more() {
    let most = bytes(&flat(4096));
    assert_eq!(runs(&most, "high(A)"), [(LOW, 0)]);
    assert_eq!(runs(&most, "F(T=v)&T<=v"), [(0, 4095)]);
    let more = bytes(&flat(4097));
    assert_eq!(more.len(), 65_552);
    for length in [65_552, 65_568, 131_072] {
        let recording = [&more[..], &vec![9; 70_000]].concat()[..length].to_vec();
        assert_eq!(refused(&recording, "high(A)"), 2);
        assert_eq!(degree(&recording, b"high(A)", 0), 2);
    }
    let partial = [&more[..], &[0]].concat();
    assert_eq!(refused(&partial, "high(A)"), 1);
    assert_eq!(degree(&partial, b"high(A)", 0), 1);
    // The last record counts.
    let mut bad = most.clone();
    bad[65_535] = 1;
    assert_eq!(refused(&bad, ""), 3);
    let mut top = plateau(0, 0, 4094);
    top[4095].value = [5, 0];
    assert_eq!(runs(&bytes(&top), "peaks(A)|high(A)&A<v"), [(1, 5), (4095, 4095)]);
    assert_eq!(runs(&bytes(&top), &turns("rise", "fall", "A")), [(4095, 4095)]);
}

#[test]
fn thirty_two_nodes_and_thirty_three() {
    let r1 = r1_bytes();
    let nots = |count: usize| format!("{}A=v", "!".repeat(count));
    assert_eq!(runs(&r1, &nots(30)), [(40, 40)]);
    assert_eq!(runs(&r1, &nots(31)), [(LOW, 39), (41, HIGH)]);
    assert_eq!(refused(&r1, &nots(32)), 7);
    assert_eq!(degree(&r1, nots(31).as_bytes(), 40), 0);
    assert_eq!(degree(&r1, nots(32).as_bytes(), 40), 7);
    assert_eq!(refused(&r1, &nots(253)), 7);
    assert_eq!(refused(&r1, &nots(254)), 5);
    for sign in ["|", "&"] {
        let chain = |atoms: usize| vec!["A=v"; atoms].join(sign);
        assert_eq!(runs(&r1, &chain(16)), [(40, 40)]);
        assert_eq!(runs(&r1, &format!("!!{}", &chain(15))), [(40, 40)]);
        assert_eq!(refused(&r1, &format!("!!!{}", &chain(15))), 0);
        assert_eq!(refused(&r1, &format!("!!!!{}", &chain(15))), 7);
        assert_eq!(refused(&r1, &chain(17)), 7);
        assert_eq!(refused(&r1, &format!("!!{}", chain(16))), 7);
    }
    let listed = |names: usize| vec!["lag"; names].join("|");
    assert_eq!(runs(&r1, &listed(16)), []);
    assert_eq!(refused(&r1, &listed(17)), 7);
    assert_eq!(refused(&r1, &format!("!{}", listed(16))), 0);
    assert_eq!(refused(&r1, &format!("!!{}", listed(16))), 7);
}

#[test]
fn sixteen_brackets_and_seventeen() {
    let r1 = r1_bytes();
    let wrapped = |count: usize, inner: &str| format!("{}{inner}{}", "(".repeat(count), ")".repeat(count));
    assert_eq!(runs(&r1, &wrapped(16, "A>=v")), [(LOW, 40)]);
    assert_eq!(refused(&r1, &wrapped(17, "A>=v")), 7);
    assert_eq!(runs(&r1, &wrapped(15, "fall(A)")), []);
    assert_eq!(refused(&r1, &wrapped(16, "fall(A)")), 7);
    assert_eq!(runs(&r1, &wrapped(15, "peaks(A)")), [(30, 30), (70, 70)]);
    assert_eq!(refused(&r1, &wrapped(16, "peaks(A)")), 7);
    assert_eq!(refused(&r1, &wrapped(16, "lag")), 0);
    assert_eq!(refused(&r1, &wrapped(126, "A>=v")), 7);
    assert_eq!(refused(&r1, &wrapped(126, "A>=w")), 6);
    assert_eq!(refused(&r1, &format!("{}A>=v", "(".repeat(252))), 6);
    let nested = |count: usize| format!("{}A=v{}", "X(".repeat(count), ")".repeat(count));
    assert_eq!(runs(&r1, &nested(16)), [(45, 45)]);
    assert_eq!(refused(&r1, &nested(17)), 7);
    // Brackets that are closed again do not count.
    assert_eq!(runs(&r1, &vec!["(fall(A))"; 16].join("|")), []);
    assert_eq!(runs(&r1, &format!("{}|{}", vec!["(A=v)"; 15].join("|"), wrapped(16, "A=v"))), [(40, 40)]);
    assert_eq!(refused(&r1, &format!("{}|{}", vec!["(A=v)"; 15].join("|"), wrapped(17, "A=v"))), 7);
    // 6 comes before 7.
    assert_eq!(refused(&r1, &format!("F({})|lag", wrapped(30, "A=v"))), 6);
    assert_eq!(refused(&r1, &format!("{}&{}", vec!["A=v"; 20].join("|"), "peaks(T)")), 6);
}

#[test]
fn texts_of_256_bytes_and_257() {
    let r1 = r1_bytes();
    let chain = vec!["A>=-2000000000"; 16].join("&");
    let text = format!("!{}{chain}{}", "(".repeat(8), ")".repeat(8));
    assert_eq!(text.len(), 256);
    assert_eq!(runs(&r1, &text), []);
    assert_eq!(refused(&r1, &format!("{text}x")), 5);
    assert_eq!(refused(&r1, &format!("{}x", &text[..255])), 6);
    assert_eq!(refused(&r1, &format!("A>{}", "1".repeat(254))), 6);
    assert_eq!(refused(&r1, &format!("A>{}", "1".repeat(255))), 5);
    assert_eq!(question(&r1, &vec![b'('; 10_000], 8), 5);
    assert_eq!(question(&r1, &[0; 256], 8), 6);
    assert_eq!(question(&[], &[0; 257], 8), 4);
    assert_eq!(question(&r1, b"", 8), 5);
}

#[test]
fn only_nodes_count_and_not_what_is_inside_until() {
    // 256 early records hold the ranges 0..6, 10..16, ..; 256 late ones 5..11, 15..21, ..
    let mut values = vec![[0, 0]];
    values.extend((0..256).map(|k| [10 * k, 10 * k + 6]));
    values.extend((0..256).map(|k| [10 * k + 5, 10 * k + 11]));
    let recording = with_values(&values);
    let (late, early) = ("F(T>256&A<=v&B>=v)", "T>0&T<=256&A<=v&B>=v");
    assert_eq!(runs(&recording, late).len(), 256);
    assert_eq!(runs(&recording, &format!("F({early})")).len(), 256);
    assert_eq!(runs(&recording, &format!("{late}|F({early})")), [(0, 2_561)]);
    // The two meet in 511 runs: too many for a node.
    assert_eq!(refused(&recording, &format!("{late}&F({early})")), 8);
    assert_eq!(refused(&recording, &format!("U({late}|T>0,{early})")), 8);
    // Here q swallows them at the first record, and no node has more than 256.
    assert_eq!(runs(&recording, &format!("U({late}|T>0,T=0|{early})")), [(LOW, HIGH)]);
    assert_eq!(runs(&recording, &format!("W({late}&T=0|T>0&T<=256,T=0|{early})")), [(LOW, HIGH)]);
    assert_eq!(refused(&recording, &format!("W({late}&T=0|T>0&T<=256,{early})")), 8);
    // With 5..1280 at the first record it swallows some: 256 runs are left of 511. With 5..1275 one more is left.
    values[0] = [5, 1_280];
    let recording = with_values(&values);
    let left: Vec<(i64, i64)> = (257..=511).map(|k| (5 * k, 5 * k + 1)).collect();
    let some = format!("U({late}|T>0,T=0&A<=v&B>=v|{early})");
    assert_eq!(runs(&recording, &some), [&[(5, 1_281)], &left[..]].concat());
    assert_eq!(degree(&recording, some.as_bytes(), 1_283), 0);
    values[0] = [5, 1_275];
    assert_eq!(refused(&with_values(&values), &some), 8);
}

#[test]
fn more_runs_at_a_later_record_than_at_the_first() {
    let mut values: Vec<[i64; 2]> = (0..255).map(|k| [2 * k + 1, 0]).collect();
    values.extend((0..256).map(|k| [2 * k, 0]));
    let recording = with_values(&values);
    assert_eq!(runs(&recording, "F(A=v)"), [(0, 510)]);
    // At record 255 the set has 256 runs and its complement 257.
    assert_eq!(refused(&recording, "!F(A=v)"), 8);
    assert_eq!(refused(&recording, "A=1|!F(A=v)"), 8);
    values.push([512, 0]);
    let one_more = with_values(&values);
    assert_eq!(refused(&one_more, "F(A=v)"), 8);
    assert_eq!(refused(&one_more, "X(A=v)|F(A=v)&A=v"), 8);
    assert_eq!(refused(&one_more, "A=v|T<0&F(A=v)"), 8);
    // Without F, G, X, U and W only the first record counts.
    assert_eq!(runs(&one_more, "A=v|low(A)"), [(0, HIGH)]);
}

#[test]
fn grouping_from_the_left_is_visible() {
    // 150 tops of either curve, 300 runs together.
    let (of_a, of_b): (Vec<i64>, Vec<i64>) = (1..=150).map(|i| (100 * i, 100 * i + 50)).unzip();
    let recording = with_tops_at([&of_a, &of_b]);
    assert_eq!(refused(&recording, "peaks(A)|peaks(B)|high(A)|low(A)"), 8);
    assert_eq!(runs(&recording, "peaks(A)|(peaks(B)|high(A)|low(A))"), [(LOW, HIGH)]);
    assert_eq!(runs(&recording, "high(A)|low(A)|peaks(A)|peaks(B)"), [(LOW, HIGH)]);
    assert_eq!(refused(&recording, "!peaks(A)&!peaks(B)&A<v&A>v"), 8);
    assert_eq!(runs(&recording, "!peaks(A)&(!peaks(B)&A<v&A>v)"), []);
    assert_eq!(refused(&recording, "!peaks(A)&!peaks(B)|high(A)|low(A)"), 8);
}

#[test]
fn without_temporal_operators_only_the_first_record_counts() {
    // 256 tops; the first reading of A is the time of one of them, the others lie apart.
    let mut records = with_tops(4096, [256, 0]);
    records.iter_mut().for_each(|record| record.value[0] = 100_000);
    records[0].value[0] = 1;
    let recording = bytes(&records);
    assert_eq!(runs(&recording, "peaks(A)|A=v").len(), 256);
    assert_eq!(refused(&recording, "peaks(A)|A=v&B=0|A=v"), 0);
    records[0].value[0] = 100_000;
    assert_eq!(refused(&bytes(&records), "peaks(A)|A=v"), 8);
}

#[test]
fn neighbours_join_before_runs_are_counted() {
    let recording = with_values(&(0..256).map(|k| [2 * k, 2 * k + 1]).collect::<Vec<_>>());
    assert_eq!(runs(&recording, "F(A=v)|F(B=v)"), [(0, 511)]);
    assert_eq!(runs(&recording, "F(A=v|B=v)"), [(0, 511)]);
    assert_eq!(runs(&recording, "F(A=v)&F(B=v)"), []);
    assert_eq!(runs(&recording, "F(A=v)").len(), 256);
    assert_eq!(refused(&recording, "!F(A=v)"), 8);
    // With a run that reaches the axis end a complement has no more runs than the set.
    let capped = |count: i64| with_values(&(0..count).map(|k| [2 * k, 1_000_000]).collect::<Vec<_>>());
    assert_eq!(runs(&capped(255), "!(F(A=v)|B<=v)").len(), 256);
    assert_eq!(refused(&capped(256), "!(F(A=v)|B<=v)"), 8);
}

#[test]
fn many_differences_that_join() {
    let mut times: Vec<i64> = (1..=128).map(|i| 2 * i).collect();
    times.extend((0..128).map(|j| 260 + 3 * j));
    let recording = with_tops_at([&times, &[]]);
    assert_eq!(runs(&recording, "gaps(A)"), [(2, 4), (6, 637), (639, 639)]);
    assert_eq!(runs(&recording, "steps(A)"), [(2, 4)]);
    assert_eq!(runs(&recording, "lag"), []);
    let (of_a, of_b): (Vec<i64>, Vec<i64>) = ((1..=256).map(|i| 2 * i).collect(), (0..256).map(|j| 1_000 + 3 * j).collect());
    assert_eq!(runs(&with_tops_at([&of_a, &of_b]), "lag"), [(488, 488), (490, 1_761), (1_763, 1_763)]);
    assert_eq!(runs(&with_tops_at([&of_b, &of_a]), "lag"), [(-1_763, -1_763), (-1_761, -490), (-488, -488)]);
    // Both curves alike: negative, zero and positive.
    let even: Vec<i64> = (1..=256).map(|i| 100 * i).collect();
    assert_eq!(refused(&with_tops_at([&even[..129], &even[..129]]), "lag"), 8);
    assert_eq!(runs(&with_tops_at([&even[..128], &even[..128]]), "lag").len(), 255);
    assert_eq!(runs(&with_tops_at([&even[..128], &even[..129]]), "lag").len(), 256);
    assert_eq!(runs(&with_tops_at([&even, &[]]), "gaps(A)"), (1..=255).map(|i| (100 * i, 100 * i)).collect::<Vec<_>>());
    assert_eq!(runs(&with_tops_at([&even, &[]]), "steps(A)"), [(100, 100)]);
    // 129 even tops and one between two of them: 100, 200, .., 12,800 and 50, 150, .., 12,750. Behind them it makes 12,850 too.
    let and_one = |time: i64| with_tops_at([&[&even[..129], &[time]].concat(), &[]]);
    assert_eq!(runs(&and_one(150), "gaps(A)").len(), 256);
    assert_eq!(refused(&and_one(12_950), "gaps(A)"), 8);
    assert_eq!(runs(&and_one(12_950), "steps(A)"), [(50, 50), (100, 100)]);
}

#[test]
fn axis_ends() {
    let ends = bytes(&[
        Record { time: 0, value: [-1_000_000_000, 1_000_000_000], slope: [RISING, RISING], pigment: 0 },
        Record { time: 2_000_000_000, value: [1_000_000_000, -1_000_000_000], slope: [FALLING, FALLING], pigment: 0 },
    ]);
    assert_eq!(runs(&ends, "ampl(A)"), [(LOW, HIGH)]);
    assert_eq!(runs(&ends, "ampl(B)"), [(LOW, HIGH)]);
    assert_eq!(runs(&ends, "peaks(A)"), [(HIGH, HIGH)]);
    assert_eq!(runs(&ends, "X(T<v)"), []);
    assert_eq!(runs(&ends, "X(T<=v)"), [(HIGH, HIGH)]);
    assert_eq!(runs(&ends, "X(T>v)"), [(LOW, HIGH - 1)]);
    assert_eq!(runs(&ends, "!X(T=v)"), [(LOW, HIGH - 1)]);
    assert_eq!(runs(&ends, "!(A=v|X(T=v))"), [(LOW, -1_000_000_001), (-999_999_999, HIGH - 1)]);
    assert_eq!(runs(&ends, "A>=-2000000000"), [(LOW, HIGH)]);
    assert_eq!(runs(&ends, "T=2000000000"), []);
    assert_eq!(runs(&ends, "lowafter(A,2000000000)"), []);
    assert_eq!(runs(&ends, "capafter(A,2000000000)"), [(LOW, HIGH)]);
    assert_eq!(runs(&ends, "lowafter(A,-2000000000)"), [(-1_000_000_000, HIGH)]);
    assert_eq!(runs(&ends, "lowafter(A,-1)"), [(-1_000_000_000, HIGH)]);
    assert_eq!(runs(&ends, "lowafter(A,0)"), [(1_000_000_000, HIGH)]);
    assert_eq!(runs(&ends, "capafter(B,-1)"), [(1_000_000_000, HIGH)]);
    assert_eq!(runs(&ends, "capafter(B,0)"), [(-1_000_000_000, HIGH)]);
    assert_eq!(question(&ends, b"X(T<v)", 0), 0);
    assert_eq!(question(&ends, b"X(T<=v)", 7), 10);
    assert_eq!(question(&ends, b"X(T<=v)", 8), 0);
    assert_eq!(degree(&ends, b"X(T<=v)", -2_000_000_000), 0);
    assert_eq!(refused(&ends, "A=2000000001"), 6);
    assert_eq!(refused(&ends, "A=-2000000001"), 6);
    assert_eq!(refused(&ends, "lowafter(A,2000000001)"), 6);
    let apart = with_tops_at([&[1, 2_000_000_000], &[2, 1_999_999_999]]);
    assert_eq!(runs(&apart, "gaps(A)"), [(1_999_999_999, 1_999_999_999)]);
    assert_eq!(runs(&apart, "lag"), [(-1_999_999_998, -1_999_999_998), (-1, -1), (1, 1), (1_999_999_998, 1_999_999_998)]);
}

#[test]
fn the_last_record_repeats() {
    let r1 = r1_bytes();
    assert_eq!(runs(&r1[112..], "X(A=v)"), [(45, 45)]);
    assert_eq!(runs(&r1[112..], "F(A=v)"), [(45, 45)]);
    assert_eq!(runs(&r1[112..], "G(A=v)"), [(45, 45)]);
    assert_eq!(runs(&r1[112..], "U(A=7,A=v)"), [(45, 45)]);
    assert_eq!(runs(&r1[112..], "U(A=v,A=7)"), []);
    assert_eq!(runs(&r1[112..], "W(A=v,A=7)"), [(45, 45)]);
    assert_eq!(runs(&r1[112..], "W(A=7,A=v)"), [(45, 45)]);
    assert_eq!(runs(&r1, "F(G(A=v))"), [(45, 45)]);
    assert_eq!(runs(&r1, "G(F(A=v))"), [(45, 45)]);
    assert_eq!(runs(&r1, "F(fall(A)&!X(!fall(A))&T=v)"), [(30, 30), (70, 70)]);
}

/// The runs of these times.
fn singles(times: &[i64]) -> Vec<(i64, i64)> {
    times.iter().map(|time| (*time, *time)).collect()
}

#[test]
fn tops_and_dips_by_the_recorded_slopes() {
    for (slopes, tops, dips) in TURNS {
        for (curve, name, other) in [(0, "A", "B"), (1, "B", "A")] {
            let up = with_slopes(curve, &written(slopes));
            let down = upside_down(up.clone());
            for (recording, tops, dips) in [(bytes(&up), tops, dips), (bytes(&down), dips, tops)] {
                for text in [format!("peaks({name})"), turns("rise", "fall", name)] {
                    assert_eq!(runs(&recording, &text), singles(tops), "{slopes}");
                }
                for text in [format!("dips({name})"), turns("fall", "rise", name)] {
                    assert_eq!(runs(&recording, &text), singles(dips), "{slopes}");
                }
                assert_eq!(runs(&recording, &format!("peaks({other})|dips({other})")), [], "{slopes}");
            }
        }
    }
}

/// The names and their formulas, of every list of up to seven slopes.
#[test]
fn turns_of_every_seven_slopes() {
    for slopes in every(7) {
        let recording = bytes(&with_slopes(0, &slopes));
        assert_eq!(runs(&recording, "peaks(A)"), runs(&recording, &turns("rise", "fall", "A")), "{slopes:?}");
        assert_eq!(runs(&recording, "dips(A)"), runs(&recording, &turns("fall", "rise", "A")), "{slopes:?}");
    }
}

/// Falling, flat, falling: 2,047 shoulders, and no top for any question on tops.
#[test]
fn shoulders_are_no_tops() {
    for (curve, name) in [(0, "A"), (1, "B")] {
        let shoulders = bytes(&with_slopes(curve, &[FALLING, FLAT].repeat(2048)));
        for text in ["peaks(c)", "dips(c)", "gaps(c)", "steps(c)", "lag"] {
            assert_eq!(runs(&shoulders, &text.replace('c', name)), [], "{text}");
        }
        assert_eq!(runs(&shoulders, &turns("rise", "fall", name)), []);
        // A rise before them all makes the first of them one.
        let one = bytes(&with_slopes(curve, &[&[RISING][..], &[FLAT, FALLING].repeat(2047), &[FLAT]].concat()));
        assert_eq!(runs(&one, &format!("peaks({name})")), [(2, 2)]);
        assert_eq!(runs(&one, &turns("rise", "fall", name)), [(2, 2)]);
        assert_eq!(runs(&one, &format!("gaps({name})|dips({name})")), []);
    }
}

/// One plateau, as long as there can be, and two behind each other.
#[test]
fn long_plateaus() {
    for (curve, name) in [(0, "A"), (1, "B")] {
        let (peaks, dips) = (format!("peaks({name})"), format!("dips({name})"));
        let one = plateau(curve, 0, 4094);
        for text in [&peaks, &turns("rise", "fall", name)] {
            assert_eq!(runs(&bytes(&one), text), [(4095, 4095)]);
            assert_eq!(runs(&bytes(&upside_down(one.clone())), text), []);
        }
        for text in [&dips, &turns("fall", "rise", name)] {
            assert_eq!(runs(&bytes(&upside_down(one.clone())), text), [(4095, 4095)]);
            assert_eq!(runs(&bytes(&one), text), []);
        }
        let flat = vec![FLAT; 2046];
        let two = bytes(&with_slopes(curve, &[&[RISING][..], &flat, &[FALLING], &flat, &[RISING]].concat()));
        assert_eq!((runs(&two, &peaks), runs(&two, &dips)), (vec![(2047, 2047)], vec![(4094, 4094)]));
        // Flat to the end: no top comes.
        assert_eq!(runs(&bytes(&one[..4095]), &format!("{peaks}|{dips}")), []);
    }
}

/// Gaps, steps, lag and number 9 count the tops that have a rise, and no other.
#[test]
fn differences_of_tops_with_a_rise() {
    // A: tops at 3, 9, 20 and a shoulder at 12; B: a top at 7 and shoulders at 9 and 20.
    let slopes_a = written("/--\\--/--\\--\\--/----\\---");
    let slopes_b = written("-/-----\\-\\----------\\---");
    let mut records = with_slopes(0, &slopes_a);
    records.iter_mut().zip(&slopes_b).for_each(|(record, slope)| record.slope[1] = *slope);
    let recording = bytes(&records);
    assert_eq!(runs(&recording, "peaks(A)"), [(3, 3), (9, 9), (20, 20)]);
    assert_eq!(runs(&recording, "peaks(B)"), [(7, 7)]);
    assert_eq!(runs(&recording, "gaps(A)"), [(6, 6), (11, 11), (17, 17)]);
    assert_eq!(runs(&recording, "steps(A)"), [(6, 6), (11, 11)]);
    assert_eq!(runs(&recording, "lag"), [(-13, -13), (-2, -2), (4, 4)]);
    assert_eq!(runs(&recording, "gaps(B)|steps(B)"), []);
    // 256 tops among 1,024 falls, each after a rise and three flat records; one more is 9.
    let tops = |count: usize| bytes(&with_slopes(0, &written("/---\\-\\-\\-\\").repeat(count)));
    assert_eq!(runs(&tops(256), "steps(A)"), [(11, 11)]);
    assert_eq!(runs(&tops(256), "gaps(A)").len(), 255);
    assert_eq!(refused(&tops(257), "steps(A)"), 9);
    assert_eq!(refused(&tops(257), "lag"), 9);
    assert_eq!(refused(&tops(257), "peaks(A)"), 8);
    assert_eq!(refused(&tops(257), "gaps(B)"), 0);
}

/// As many tops as there can be: rise, fall, rise, fall.
#[test]
fn two_thousand_and_forty_eight_tops() {
    for (curve, name, other) in [(0, "A", "B"), (1, "B", "A")] {
        let most = bytes(&with_most_tops(curve, 4096));
        for text in [format!("peaks({name})"), turns("rise", "fall", name), turns("fall", "rise", name)] {
            assert_eq!(refused(&most, &text), 8, "{text}");
        }
        for text in [format!("gaps({name})"), format!("steps({name})"), "lag".into(), format!("peaks({name})|lag")] {
            assert_eq!(refused(&most, &text), 9, "{text}");
        }
        assert_eq!(runs(&most, &format!("peaks({other})|gaps({other})")), []);
    }
}

#[test]
fn crossings_from_and_to_a_tie() {
    let values = with_values(&[[0, 0], [1, 0], [0, 0], [0, 1], [0, 0], [2, 1], [1, 0], [-1, 0], [0, 0]]);
    assert_eq!(runs(&values, "crossup"), [(1, 1), (5, 5)]);
    assert_eq!(runs(&values, "cross"), [(2, 2), (7, 7)]);
    // The first record crosses nothing.
    assert_eq!(runs(&with_values(&[[1, 0], [2, 0]]), "crossup|cross"), []);
    // Never the other, nor read as it.
    let up = with_values(&[[0, 0], [1, 0]]);
    assert_eq!((runs(&up, "crossup"), runs(&up, "cross")), (vec![(1, 1)], vec![]));
    for text in
        ["crossups", "cross(A)", "crossup(A)", "crossu", "crosss", "dip(A)", "dips", "dips(T)", "F(crossup)", "X(dips(A))"]
    {
        assert_eq!(refused(&up, text), 6, "{text}");
    }
}
