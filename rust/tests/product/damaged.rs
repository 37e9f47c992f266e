//! Covers: damaged recordings under all calls: every bit of a recording flipped, every length cut, every value of every
//! byte of a record, fields at and past their limits, and random damage.

use crate::calls::{degree, pair, question, thin, Tally};
use crate::entry::entry;
use crate::lab::{lab_degree, lab_pair, lab_question};
use crate::support::cases::{begin, cases};
use crate::support::r1::r1_bytes;
use crate::support::r2::r2_bytes;
use crate::support::r3::r3_bytes;
use crate::support::recordings::{self, damaged, with_tops_at};
use mill::sys::{MILL_ENTRY_BYTES, MILL_SET_BYTES};
use reference::recording::{bytes, Record};

/// All calls; the number of the pair call's outcome.
fn all_calls(recording: &[u8]) -> u32 {
    question(recording, b"peaks(A)|dips(A)", MILL_SET_BYTES);
    question(recording, b"dose(3)|dose(16)&P=3", MILL_SET_BYTES);
    degree(recording, b"high(B)", 7);
    thin(recording, &[40, 0, 0, 0], 65_536);
    lab_question(recording, &[40, 0, 0, 0], b"lowafter(A,40)|peaks(A)", MILL_SET_BYTES);
    lab_degree(recording, &[], b"ampl(A)", 7);
    lab_pair(recording, 0, 40);
    entry(recording, MILL_ENTRY_BYTES);
    pair(recording, 0, 40)
}

#[test]
fn every_bit_flipped() {
    let mut tally = Tally::default();
    for whole in [r1_bytes(), r2_bytes(), r3_bytes()] {
        for bit in 0..8 * whole.len() {
            begin("every bit flipped", bit as u64);
            let mut recording = whole.clone();
            recording[bit / 8] ^= 1 << (bit % 8);
            tally.add(all_calls(&recording));
        }
    }
    tally.saw(&[0, 3], 100);
}

#[test]
fn every_bit_flipped_where_several_pairs_fit() {
    let several = with_tops_at([&[10, 20, 40, 50, 80], &[]]);
    for bit in 0..8 * several.len() {
        begin("every bit flipped where several pairs fit", bit as u64);
        let mut recording = several.clone();
        recording[bit / 8] ^= 1 << (bit % 8);
        pair(&recording, 0, 30);
        pair(&recording, 0, 40);
    }
}

#[test]
fn every_length() {
    let mut whole = r1_bytes();
    whole.extend((0..40).map(|byte| byte as u8));
    for length in 0..=whole.len() {
        begin("every length", length as u64);
        let number = all_calls(&whole[..length]);
        let expected = match length {
            0 => 4,
            _ if length % 16 != 0 => 1,
            _ if length > 128 => 3,
            _ => 0,
        };
        assert_eq!(number, expected, "{length}");
    }
}

#[test]
fn every_byte_of_a_record() {
    for whole in [r1_bytes(), r2_bytes(), r3_bytes()] {
        for index in [0, 3, 7] {
            for at in 0..16 {
                for byte in 0..=255 {
                    begin("every byte of a record", byte.into());
                    let mut recording = whole.clone();
                    recording[16 * index + at] = byte;
                    question(&recording, b"cross", MILL_SET_BYTES);
                    question(&recording, b"crossup|dips(A)", MILL_SET_BYTES);
                    question(&recording, b"dose(3)|F(P=16)", MILL_SET_BYTES);
                    question(&recording, b"F(P=3&A=v|P=16&T=v)", MILL_SET_BYTES);
                    pair(&recording, 0, 40);
                    thin(&recording, &[], 65_536);
                    entry(&recording, 40);
                }
            }
        }
    }
}

#[test]
fn fields_at_their_limits() {
    let good = Record { time: 5, value: [0, 0], slope: [1, 1], pigment: 0 };
    let last = Record { time: 2_000_000_000, ..good };
    let with = |change: &dyn Fn(&mut Record)| {
        let mut middle = Record { time: 6, ..good };
        change(&mut middle);
        bytes(&[good, middle, last])
    };
    for (case, (number, recording)) in [
        (0, with(&|record| record.value[0] = 1_000_000_000)),
        (3, with(&|record| record.value[0] = 1_000_000_001)),
        (0, with(&|record| record.value[0] = -1_000_000_000)),
        (3, with(&|record| record.value[0] = -1_000_000_001)),
        (0, with(&|record| record.value[1] = 1_000_000_000)),
        (3, with(&|record| record.value[1] = 1_000_000_001)),
        (0, with(&|record| record.value[1] = -1_000_000_000)),
        (3, with(&|record| record.value[1] = -1_000_000_001)),
        (3, with(&|record| record.value[1] = i64::from(i32::MIN))),
        (0, with(&|record| record.time = 1_999_999_999)),
        (3, with(&|record| record.time = 2_000_000_000)),
        (3, with(&|record| record.time = 2_000_000_001)),
        (3, with(&|record| record.time = i64::from(u32::MAX))),
        (3, with(&|record| record.time = 1 << 31)),
        (3, with(&|record| record.time = 5)),
        (3, with(&|record| record.time = 4)),
        (0, with(&|record| record.slope = [2, 0])),
        (3, with(&|record| record.slope = [3, 0])),
        (3, with(&|record| record.slope = [0, 3])),
        (3, with(&|record| record.slope = [255, 0])),
        (0, with(&|record| record.pigment = 1)),
        (0, with(&|record| record.pigment = 16)),
        (3, with(&|record| record.pigment = 17)),
        (3, with(&|record| record.pigment = 128)),
        (3, with(&|record| record.pigment = 255)),
    ]
    .into_iter()
    .enumerate()
    {
        begin("fields at their limits", case as u64);
        assert_eq!(all_calls(&recording), number, "{case}");
    }
    let alone = |time: i64| bytes(&[Record { time, ..good }]);
    assert_eq!(all_calls(&alone(0)), 0);
    assert_eq!(all_calls(&alone(2_000_000_000)), 0);
    assert_eq!(all_calls(&alone(2_000_000_001)), 3);
    // A later bad record does not hide an earlier one, and 1 and 2 come before 3.
    let mut recording = bytes(&[good, good, good, last]);
    recording[15] = 0;
    assert_eq!(all_calls(&recording), 3);
    recording.push(0);
    assert_eq!(all_calls(&recording), 1);
}

/// Byte 14 is 0 to 16 and byte 15 is 0, in every record; the place is that record's.
#[test]
fn every_pigment_and_every_last_byte() {
    for whole in [r1_bytes(), r3_bytes()] {
        for index in 0..8u32 {
            for byte in 0..=255u8 {
                begin("every pigment and every last byte", byte.into());
                let changed = |at: usize| {
                    let mut recording = whole.clone();
                    recording[16 * index as usize + at] = byte;
                    recording
                };
                let refused = |most: u8| if byte <= most { None } else { Some(mill::Refusal::BadRecord { index }) };
                for (recording, most) in [(changed(14), 16), (changed(15), 0)] {
                    all_calls(&recording);
                    assert_eq!(mill::thin(&recording, &[]).err(), refused(most), "{byte}");
                    assert_eq!(mill::question(&recording, b"high(A)").err(), refused(most), "{byte}");
                }
            }
        }
    }
}

#[test]
fn random_damage() {
    let mut tally = Tally::default();
    cases("random damage", 15_000, |random| {
        let records = recordings::any(random);
        let recording = damaged(random, bytes(&records));
        tally.add(all_calls(&recording));
    });
    tally.saw(&[0, 1, 3], 1_000);
    tally.saw(&[4], 20);
}
