//! Covers: the lines of the recordings R1 to R4, the table's examples and its orders, on the independent implementation.

use crate::support::r1::{self, r1, r1_bytes};
use crate::support::r2::{self, r2_bytes};
use crate::support::r3::{self, r3_bytes};
use crate::support::r4::{self, r4_bytes};
use crate::support::recordings::{flat, upside_down, with_additions, with_crossings, with_dips, with_most_tops};
use crate::support::recordings::{with_slopes, with_tops, with_tops_at};
use reference::set::{HIGH, LOW};
use reference::{degree, kept, order, pair, question, recording, thin, Degree, Refused};

const ROOM: usize = 1 << 20;

/// The runs that the text answers on R1.
fn runs(text: &str) -> Vec<(i64, i64)> {
    runs_of(&r1_bytes(), text)
}

fn runs_of(recording: &[u8], text: &str) -> Vec<(i64, i64)> {
    let bytes = question(recording, text.as_bytes(), ROOM).expect(text);
    let number = |at: usize| i64::from(i32::from_le_bytes(bytes[at..at + 4].try_into().unwrap()));
    (0..bytes.len()).step_by(8).map(|at| (number(at), number(at + 4))).collect()
}

fn refused(number: u32) -> Refused {
    Refused::plain(number)
}

fn times(bytes: &[u8]) -> Vec<i64> {
    recording::in_rules(bytes).unwrap().iter().map(|record| record.time).collect()
}

/// The times of the readings that are kept under the marks.
fn kept_times(recording: &[u8], marks: &[u32]) -> Vec<i64> {
    let marks: Vec<i64> = marks.iter().map(|mark| i64::from(*mark)).collect();
    times(&thin(recording, &kept::mark_bytes(&marks), ROOM).unwrap())
}

#[test]
fn marked_lines() {
    for (text, expected) in r1::ANSWERS {
        assert_eq!(runs(text), expected, "{text}");
    }
    for (marks, expected) in r1::KEPT {
        assert_eq!(kept_times(&r1_bytes(), marks), expected, "{marks:?}");
    }
    let (text, expected) = r1::RIGHT_AFTER;
    assert_eq!(runs(text), expected);
    assert_eq!(runs_of(&thin(&r1_bytes(), &[], ROOM).unwrap(), text), expected);
}

#[test]
fn lines_of_r2() {
    for (text, expected) in r2::ANSWERS {
        assert_eq!(runs_of(&r2_bytes(), text), expected, "{text}");
    }
    for (marks, expected) in r2::KEPT {
        assert_eq!(kept_times(&r2_bytes(), marks), expected, "{marks:?}");
    }
    let kept = thin(&r2_bytes(), &[], ROOM).unwrap();
    for (text, on_full, on_kept) in r2::LOST {
        assert_eq!(runs_of(&r2_bytes(), text), on_full, "{text}");
        assert_eq!(runs_of(&kept, text), on_kept, "{text}");
    }
}

#[test]
fn lines_of_r3() {
    for (text, expected) in r3::ANSWERS {
        assert_eq!(runs_of(&r3_bytes(), text), expected, "{text}");
    }
    for (marks, expected) in r3::KEPT {
        assert_eq!(kept_times(&r3_bytes(), marks), expected, "{marks:?}");
    }
    let kept = thin(&r3_bytes(), &[], ROOM).unwrap();
    for (text, on_full, on_kept) in r3::LOST {
        assert_eq!(runs_of(&r3_bytes(), text), on_full, "{text}");
        assert_eq!(runs_of(&kept, text), on_kept, "{text}");
    }
}

#[test]
fn lines_of_r4() {
    assert_eq!(kept_times(&r4_bytes(), &[]), r4::KEPT);
    let kept = thin(&r4_bytes(), &[], ROOM).unwrap();
    for (text, on_full, on_kept) in r4::LOST {
        assert_eq!(runs_of(&r4_bytes(), text), on_full, "{text}");
        assert_eq!(runs_of(&kept, text), on_kept, "{text}");
    }
    for (text, on_full, _) in r4::LOST_BY_01 {
        assert_eq!(runs_of(&r4_bytes(), text), on_full, "{text}");
        assert_eq!(runs_of(&kept, text), on_full, "{text}");
    }
}

/// 2,047 falls on shoulders are no top, whatever is asked of tops.
#[test]
fn shoulders_are_no_tops() {
    let slopes = [recording::FALLING, recording::FLAT].repeat(2048);
    let shoulders = recording::bytes(&with_slopes(0, &slopes));
    for text in ["peaks(A)", "dips(A)", "gaps(A)", "steps(A)", "lag"] {
        assert_eq!(runs_of(&shoulders, text), [], "{text}");
    }
    assert_eq!(pair(&shoulders, 0, 2), Ok(None));
    assert_eq!(kept_times(&shoulders, &[]), [0, 4094, 4095]);
}

/// As many tops as there can be.
#[test]
fn two_thousand_and_forty_eight_tops() {
    let most = recording::bytes(&with_most_tops(0, 4096));
    assert_eq!(question(&most, b"peaks(A)", ROOM), Err(refused(8)));
    assert_eq!(question(&most, b"gaps(A)", ROOM), Err(refused(9)));
    assert_eq!(pair(&most, 0, 2), Err(refused(9)));
    assert_eq!(runs_of(&most, "gaps(B)"), []);
    assert_eq!(thin(&most, &[], ROOM), Ok(most.clone()));
    // As many dips and one top less: 9 counts tops alone.
    let dips = recording::bytes(&upside_down(with_most_tops(0, 514)));
    assert_eq!(runs_of(&dips, "gaps(A)").len(), 255);
    assert_eq!(question(&dips, b"dips(A)", ROOM), Err(refused(8)));
    assert_eq!(runs_of(&dips, "peaks(A)").len(), 256);
}

/// Bytes 14 and 15 of a record: 17 values of the first are good, and one of the second.
#[test]
fn pigments_out_of_their_rules() {
    for byte in 0..=255 {
        let mut recording = r1_bytes();
        recording[5 * 16 + 14] = byte;
        let expected = if byte <= 16 { Ok(vec![]) } else { Err(Refused { number: 3, place: 5 }) };
        assert_eq!(question(&recording, b"lag", ROOM), expected, "pigment {byte}");
        recording[5 * 16 + 14] = 0;
        recording[5 * 16 + 15] = byte;
        let expected = if byte == 0 { Ok(vec![]) } else { Err(Refused { number: 3, place: 5 }) };
        assert_eq!(question(&recording, b"lag", ROOM), expected, "byte 15 of {byte}");
    }
}

#[test]
fn recordings_of_before_have_no_additions() {
    for k in 1..=16 {
        for recording in [r1_bytes(), r2_bytes()] {
            for text in [format!("dose({k})"), format!("F(P={k}&T=v)"), format!("F(P={k})")] {
                assert_eq!(runs_of(&recording, &text), [], "{text}");
            }
            assert_eq!(runs_of(&recording, &format!("G(!P={k})")), [(LOW, HIGH)]);
        }
    }
}

#[test]
fn table_examples() {
    let r1 = r1_bytes();
    assert_eq!(question(&[0; 17], b"high(A)", ROOM), Err(refused(1)));
    assert_eq!(question(&vec![0; 65_552], b"high(A)", ROOM), Err(refused(2)));
    let mut bad = r1.clone();
    bad[5 * 16 + 12] = 3;
    assert_eq!(question(&bad, b"high(A)", ROOM), Err(Refused { number: 3, place: 5 }));
    assert_eq!(question(&[], b"high(A)", ROOM), Err(refused(4)));
    assert_eq!(thin(&[], &[], 0), Ok(vec![]));
    assert_eq!(question(&r1, b"", ROOM), Err(refused(5)));
    assert_eq!(question(&r1, b"F(A>v", ROOM), Err(refused(6)));
    let brackets = |count: usize| format!("{}A>=v{}", "(".repeat(count), ")".repeat(count));
    assert_eq!(question(&r1, brackets(17).as_bytes(), ROOM), Err(refused(7)));
    assert_eq!(runs(&brackets(16)), [(LOW, 40)]);
    let tops = |count: usize| recording::bytes(&with_tops(4096, [count, 0]));
    assert_eq!(question(&tops(257), b"peaks(A)", ROOM), Err(refused(8)));
    assert_eq!(runs_of(&tops(256), "peaks(A)").len(), 256);
    let dips = |count: usize| recording::bytes(&with_dips(4096, [count, 0]));
    assert_eq!(question(&dips(257), b"dips(A)", ROOM), Err(refused(8)));
    assert_eq!(runs_of(&dips(256), "dips(A)").len(), 256);
    let crossings = |count: usize| recording::bytes(&with_crossings(4096, count));
    for text in ["cross", "crossup"] {
        assert_eq!(question(&crossings(257), text.as_bytes(), ROOM), Err(refused(8)));
        assert_eq!(runs_of(&crossings(256), text).len(), 256);
    }
    let additions = |count: usize| recording::bytes(&with_additions(4096, count, 5));
    for text in ["dose(5)", "F(P=5&T=v)"] {
        assert_eq!(question(&additions(257), text.as_bytes(), ROOM), Err(refused(8)));
        assert_eq!(runs_of(&additions(256), text).len(), 256);
        // Neighbours join.
        assert_eq!(runs_of(&additions(4096), text), [(0, 4095)]);
        assert_eq!(question(&additions(2048), text.as_bytes(), ROOM), Err(refused(8)));
    }
    assert_eq!(runs_of(&additions(4096), "dose(4)"), []);
    assert_eq!(question(&tops(257), b"gaps(A)", ROOM), Err(refused(9)));
    assert_eq!(runs_of(&tops(256), "gaps(A)").len(), 255);
    assert_eq!(pair(&tops(257), 0, 1), Err(refused(9)));
    assert_eq!(question(&r1, b"peaks(A)", 15), Err(refused(10)));
    assert_eq!(question(&r1, b"peaks(A)", 16).map(|bytes| bytes.len()), Ok(16));
    assert_eq!(thin(&r1, &[0; 3], ROOM), Err(refused(11)));
    assert_eq!(degree(&r1, b"high(A)", 2_000_000_001), Err(refused(12)));
    assert_eq!(pair(&r1, 2, 40), Err(refused(12)));
}

#[test]
fn degrees_and_pairs() {
    let r1 = r1_bytes();
    assert_eq!(degree(&r1, b"peaks(A)", 30), Ok(Degree::Met));
    assert_eq!(degree(&r1, b"peaks(A)", 51), Ok(Degree::Short { distance: 19.0, degree: 0.05 }));
    assert_eq!(degree(&r1, b"lag", 0), Ok(Degree::NoValue));
    assert_eq!(degree(&r1, b"high(A)", HIGH), Ok(Degree::Short { distance: 1_999_999_910.0, degree: 1.0 / 1_999_999_911.0 }));
    assert_eq!(pair(&r1, 0, 40), Ok(Some((30, 70))));
    assert_eq!(pair(&r1, 0, 39), Ok(None));
    assert_eq!(pair(&r1, 0, 0), Ok(None));
    assert_eq!(pair(&r1, 1, 40), Ok(None));
    // Several pairs fit: least earlier time.
    let several = with_tops_at([&[10, 20, 40, 50], &[]]);
    assert_eq!(pair(&several, 0, 30), Ok(Some((10, 40))));
    assert_eq!(pair(&several, 0, 10), Ok(Some((10, 20))));
}

#[test]
fn orders() {
    let empty_text = b"";
    assert_eq!(question(&[0; 65_553], empty_text, 0), Err(refused(1)));
    assert_eq!(question(&vec![9; 65_552], empty_text, 0), Err(refused(2)));
    assert_eq!(question(&[9; 16], empty_text, 0), Err(refused(3)));
    assert_eq!(question(&[], empty_text, 0), Err(refused(4)));
    // 12 stands before 9 and 8 in a degree, and 9 before 8.
    let many = recording::bytes(&with_tops(4096, [257, 257]));
    assert_eq!(degree(&many, b"gaps(A)|peaks(A)", i64::MIN), Err(refused(12)));
    assert_eq!(degree(&many, b"peaks(A)|gaps(A)", 0), Err(refused(9)));
    assert_eq!(question(&many, b"peaks(A)|lag", 0), Err(refused(9)));
    assert_eq!(question(&many, b"peaks(A)", 0), Err(refused(8)));
    assert_eq!(pair(&many, 0, i64::MAX), Err(refused(12)));
    assert_eq!(pair(&many, 0, -1), Err(refused(9)));
    assert_eq!(thin(&[9; 16], &[0; 3], 0), Err(refused(3)));
    assert_eq!(thin(&recording::bytes(&flat(1)), &[0; 3], 0), Err(refused(11)));
    assert_eq!(thin(&recording::bytes(&flat(1)), &[0; 4], 15), Err(refused(10)));
    assert_eq!(order(&[9; 16], &[1]), Err(refused(3)));
    assert_eq!(order(&[], &[1]), Err(refused(4)));
    assert_eq!(order(&recording::bytes(&flat(1)), &[1]), Err(refused(13)));
}

#[test]
fn r1_is_as_printed() {
    let times: Vec<i64> = r1().iter().map(|record| record.time).collect();
    assert_eq!(times, [0, 10, 20, 30, 40, 50, 60, 70]);
    assert_eq!(recording::accepted(&r1_bytes()), Ok(r1()));
}
