//! Covers: the degree call on random recordings, texts and targets, on and off the axis; that distance and degree are exact
//! to the bit, and untouched where nothing is short.

use crate::calls::{degree, Tally};
use crate::support::cases::{begin, cases};
use crate::support::recordings::{self, with_many_events};
use crate::support::texts::{self, target, Kind};
use mill::Degree;
use reference::recording::{bytes, Record, MOST_TIME, MOST_VALUE};
use reference::set::{HIGH, LOW};

#[test]
fn random_degrees() {
    let mut tally = Tally::default();
    cases("random degrees", 40_000, |random| {
        let mut records = recordings::any(random);
        if random.once_in(10) {
            records = with_many_events(random);
        }
        let size = 1 + random.below(7);
        let mut text = texts::made(random, Kind::Mixed, size, &records).into_bytes();
        if random.once_in(12) {
            text = texts::changed(random, &String::from_utf8(text).unwrap());
        }
        let target = target(random, &records);
        tally.add(degree(&bytes(&records), &text, target));
    });
    tally.saw(&[0, 6, 12], 400);
    tally.saw(&[8, 9], 20);
}

/// A recording whose only time is the last there is, so that `T=v` is every distance up to 4,000,000,000 from some target.
fn last_time() -> Vec<u8> {
    bytes(&[Record { time: HIGH, value: [0, 0], slope: [1, 1], pigment: 0 }])
}

#[test]
fn every_power_of_two_away() {
    let recording = last_time();
    for exponent in 0..32 {
        begin("every power of two away", exponent);
        for near in -2..=2 {
            let away = (1i64 << exponent) + near;
            assert_eq!(degree(&recording, b"T=v", HIGH - away), if away < 0 { 12 } else { 0 });
            if away <= HIGH {
                assert_eq!(degree(&recording, b"A=v", away), 0);
                assert_eq!(degree(&recording, b"A=v", -away), 0);
            }
        }
    }
}

/// Distances, and 1 / (1 + distance) rounded once to nearest, by its bits.
const DEGREES: [(u32, u64); 20] = [
    (1, 0x3FE0_0000_0000_0000),
    (2, 0x3FD5_5555_5555_5555),
    (3, 0x3FD0_0000_0000_0000),
    (4, 0x3FC9_9999_9999_999A),
    (7, 0x3FC0_0000_0000_0000),
    (8, 0x3FBC_71C7_1C71_C71C),
    (9, 0x3FB9_9999_9999_999A),
    (99, 0x3F84_7AE1_47AE_147B),
    (255, 0x3F70_0000_0000_0000),
    (256, 0x3F6F_E01F_E01F_E020),
    (999_999_999, 0x3E11_2E0B_E826_D695),
    (1_000_000_000, 0x3E11_2E0B_E7DD_0D1D),
    (1_073_741_823, 0x3E10_0000_0000_0000),
    (1_073_741_824, 0x3E0F_FFFF_FF80_0000),
    (2_147_483_647, 0x3E00_0000_0000_0000),
    (2_147_483_648, 0x3DFF_FFFF_FFC0_0000),
    (3_000_000_000, 0x3DF6_E80F_E012_FD75),
    (3_758_096_384, 0x3DF2_4924_9234_3EB2),
    (3_999_999_999, 0x3DF1_2E0B_E826_D695),
    (4_000_000_000, 0x3DF1_2E0B_E814_6437),
];

#[test]
fn degrees_bit_by_bit() {
    let recording = last_time();
    for (away, bits) in DEGREES {
        begin("degrees bit by bit", away.into());
        let target = HIGH - i64::from(away);
        assert_eq!(degree(&recording, b"T=v", target), 0);
        match mill::degree(&recording, b"T=v", target) {
            Ok(Degree::Short { distance, degree }) => assert_eq!((distance, degree.to_bits()), (f64::from(away), bits)),
            other => panic!("{other:?} at {away}"),
        }
    }
    assert_eq!(mill::degree(&recording, b"T=v", HIGH), Ok(Degree::Met));
    assert_eq!(mill::degree(&recording, b"T<v", HIGH), Ok(Degree::NoValue));
}

/// Sets that lie at the ends of times, values and the axis, and targets at and beside each of these ends.
#[test]
fn ends_of_every_range() {
    let ends = bytes(&[
        Record { time: 0, value: [-MOST_VALUE, MOST_VALUE], slope: [2, 0], pigment: 16 },
        Record { time: 1, value: [MOST_VALUE, -MOST_VALUE], slope: [0, 2], pigment: 0 },
        Record { time: MOST_TIME - 1, value: [0, 0], slope: [2, 2], pigment: 0 },
        Record { time: MOST_TIME, value: [-MOST_VALUE, MOST_VALUE], slope: [0, 0], pigment: 16 },
    ]);
    let texts = [
        "A=v",
        "B=v",
        "A<v",
        "B>v",
        "!A=v",
        "A<=v&B>=v",
        "T=v",
        "T<v",
        "A>=-2000000000",
        "A>=2000000000",
        "high(A)",
        "low(B)",
        "ampl(A)",
        "peaks(A)",
        "dips(B)",
        "gaps(A)",
        "steps(A)",
        "lag",
        "cross",
        "crossup",
        "dose(16)",
        "!dose(16)",
        "dose(1)",
        "F(P=16&T=v)",
        "P=16",
        "lowafter(A,1999999999)",
        "capafter(B,0)",
        "lowafter(B,2000000000)",
        "F(T=v)",
        "F(T=v&T>0)",
        "G(A>v)",
        "X(X(X(T<=v)))",
        "X(X(X(T<v)))",
        "!F(A=v)",
    ];
    let mut tally = Tally::default();
    for (case, text) in texts.iter().enumerate() {
        begin("ends of every range", case as u64);
        for end in [LOW, -MOST_VALUE, 0, MOST_VALUE, HIGH] {
            for target in end - 2..=end + 2 {
                tally.add(degree(&ends, text.as_bytes(), target));
            }
        }
        for target in [i64::MIN, i64::MAX, i64::MIN - LOW, i64::from(i32::MIN), i64::from(i32::MAX), 1 << 32] {
            assert_eq!(degree(&ends, text.as_bytes(), target), 12);
        }
    }
    tally.saw(&[0, 12], 100);
}
