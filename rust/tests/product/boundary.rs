//! Covers: the C boundary itself: null with length 0, inputs that overlap, lengths past 32 bits, and that the guards hold.

use crate::guarded::{Against, Guarded};
use crate::support::r1::r1_bytes;
use crate::support::r2::r2_bytes;
use crate::support::recordings::flat;
use mill::sys::{
    mill_assured, mill_band, mill_degree, mill_entry, mill_find, mill_lab_degree, mill_lab_pair, mill_lab_question,
    mill_live_add, mill_live_entry, mill_live_kept, mill_live_restore, mill_live_save, mill_live_start, mill_order, mill_pair,
    mill_question, mill_report_add, mill_report_start, mill_thin, MILL_LIVE_BYTES, MILL_REPORT_BYTES,
};
use reference::recording::bytes;
use std::ptr::{null, null_mut};

fn refusal(number: u64) -> u64 {
    number << 32
}

#[test]
fn null_with_length_0() {
    let r1 = r1_bytes();
    let (recording, length) = (r1.as_ptr(), r1.len());
    let (mut earlier, mut later) = (77u32, 78u32);
    // SAFETY: each pointer lies before as many bytes as its length says; null goes with 0.
    unsafe {
        assert_eq!(mill_pair(null(), 0, 0, 40, &mut earlier, &mut later), refusal(4));
        assert_eq!(mill_order(null(), 0, null(), 0, &mut earlier, &mut later), refusal(4));
        assert_eq!(mill_order(recording, length, null(), 0, &mut earlier, &mut later), 0);
        assert_eq!((earlier, later), (77, 78));
        assert_eq!(mill_thin(null(), 0, null(), 0, null_mut(), 0), 0);
        assert_eq!(mill_thin(null(), 0, [0u8; 3].as_ptr(), 3, null_mut(), 0), refusal(11));
        assert_eq!(mill_thin(recording, length, null(), 0, null_mut(), 0), refusal(10));
        let mut room = [0u8; 128];
        assert_eq!(mill_thin(recording, length, null(), 0, room.as_mut_ptr(), 128), 128);
        assert_eq!(room.to_vec(), mill::thin(&r1, &[]).unwrap());
    }
}

#[test]
fn null_with_length_0_in_the_laboratory() {
    let r1 = r1_bytes();
    let (recording, length) = (r1.as_ptr(), r1.len());
    let (mut distance, mut degree, mut out, mut earlier, mut later) = (77.0, 7.5, [9u8; 64], 77, 78);
    let high = b"high(A)".as_ptr();
    // SAFETY: each pointer lies before as many bytes as its length says; null goes with 0.
    unsafe {
        assert_eq!(mill_lab_question(null(), 0, null(), 0, null(), 0, null_mut(), 0), refusal(4));
        assert_eq!(mill_lab_question(recording, length, null(), 0, null(), 0, out.as_mut_ptr(), 64), refusal(5));
        assert_eq!(mill_lab_question(recording, length, null(), 0, high, 7, null_mut(), 0), refusal(10));
        assert_eq!(mill_lab_question(recording, length, null(), 0, b"dips(B)".as_ptr(), 7, null_mut(), 0), refusal(14));
        assert_eq!(mill_lab_question(recording, length, null(), 0, b"dose(1)".as_ptr(), 7, null_mut(), 0), 0);
        assert_eq!(mill_lab_degree(null(), 0, null(), 0, null(), 0, i64::MIN, &mut distance, &mut degree), refusal(4));
        assert_eq!(mill_lab_degree(recording, length, null(), 0, null(), 0, 0, &mut distance, &mut degree), refusal(5));
        assert_eq!(mill_lab_degree(recording, length, null(), 0, high, 7, 0, &mut distance, &mut degree), 0);
        assert_eq!(mill_lab_pair(null(), 0, 1, 40, &mut earlier, &mut later), refusal(4));
        // Marks, text and recording may lie in one another.
        assert_eq!(mill_lab_question(recording, length, recording.add(64), 4, recording, 20, out.as_mut_ptr(), 64), refusal(6));
    }
    assert_eq!((distance, degree, out, earlier, later), (77.0, 7.5, [9; 64], 77, 78));
}

#[test]
fn null_with_length_0_in_reports() {
    let r1 = r1_bytes();
    let (mut met, mut empty, mut distances, mut mean) = (77, 78, 79, 7.5);
    let mut report = [9u8; MILL_REPORT_BYTES];
    // SAFETY: each pointer lies before as many bytes as its length says; null goes with 0.
    unsafe {
        assert_eq!(mill_report_start(1, null(), 0, i64::MIN, null_mut(), 0), refusal(5));
        assert_eq!(mill_report_start(1, b"lag".as_ptr(), 3, 0, null_mut(), 0), refusal(10));
        assert_eq!(mill_report_add(null_mut(), 0, null(), 0, &mut met, &mut empty, &mut distances, &mut mean), refusal(15));
        let (at, length) = (report.as_mut_ptr(), report.len());
        assert_eq!(mill_report_start(1, b"lag".as_ptr(), 3, 0, at, length), 0);
        assert_eq!(mill_report_add(at, length, null(), 0, &mut met, &mut empty, &mut distances, &mut mean), refusal(4));
        assert_eq!(mill_report_add(at, length, r1.as_ptr(), 128, &mut met, &mut empty, &mut distances, &mut mean), refusal(15));
    }
    assert_eq!((met, empty, distances, mean), (77, 78, 79, 7.5));
}

#[test]
fn null_with_length_0_in_growing_runs() {
    let mut live = vec![9u8; MILL_LIVE_BYTES];
    let (at, length) = (live.as_mut_ptr(), live.len());
    // SAFETY: each pointer lies before as many bytes as its length says; null goes with 0.
    unsafe {
        assert_eq!(mill_live_start(null(), 0, null_mut(), 0), refusal(10));
        assert_eq!(mill_live_add(null_mut(), 0, null(), 0), refusal(11));
        assert_eq!(mill_live_save(null_mut(), 0, 1), refusal(11));
        assert_eq!(mill_live_restore(null_mut(), 0, 1), refusal(11));
        assert_eq!(mill_live_kept(null(), 0, null_mut(), 0), refusal(11));
        assert_eq!(mill_live_entry(null(), 0, null_mut(), 0), refusal(11));
        assert_eq!(mill_live_start(null(), 0, at, length), 0);
        assert_eq!(mill_live_add(at, length, null(), 0), refusal(1));
        assert_eq!(mill_live_kept(at, length, null_mut(), 0), 0);
        assert_eq!(mill_live_entry(at, length, null_mut(), 0), refusal(4));
        assert_eq!(mill_live_add(at, length, r1_bytes().as_ptr(), 16), 0);
        assert_eq!(mill_live_kept(at, length, null_mut(), 0), refusal(10));
        assert_eq!(mill_live_entry(at, length, null_mut(), 0), refusal(10));
    }
}

#[test]
fn null_with_length_0_in_summaries() {
    let r1 = r1_bytes();
    let mut out = [9u8; 40];
    // SAFETY: each pointer lies before as many bytes as its length says; null goes with 0.
    unsafe {
        assert_eq!(mill_entry(null(), 0, null_mut(), 0), refusal(4));
        assert_eq!(mill_entry(null(), 0, out.as_mut_ptr(), 40), refusal(4));
        assert_eq!(mill_entry(r1.as_ptr(), 128, null_mut(), 0), refusal(10));
        assert_eq!(mill_find(null(), 0, 0, 0, null_mut(), 0), 0);
        assert_eq!(mill_find(null(), 0, 1, i64::MIN, null_mut(), 0), refusal(12));
        assert_eq!(mill_find(null(), 0, 2, 0, out.as_mut_ptr(), 40), refusal(12));
        assert_eq!(out, [9; 40]);
        assert_eq!(mill_entry(r1.as_ptr(), 128, out.as_mut_ptr(), 40), 32);
        assert_eq!(mill_find(out.as_ptr(), 32, 0, 91, null_mut(), 0), 0);
        assert_eq!(mill_find(out.as_ptr(), 32, 0, 90, null_mut(), 0), refusal(10));
        assert_eq!(mill_find(out.as_ptr(), 31, 2, 90, null_mut(), 0), refusal(20));
    }
    // A recording lies in whole records, and two of them are an entry: its slopes are the least A, and its second time the greatest B.
    let found = mill::find_into(&r1, mill::Curve::B, 70, &mut out);
    assert_eq!((found, &out[..4]), (Ok(4), &[3, 0, 0, 0][..]));
}

#[test]
fn the_version_is_that_of_the_header() {
    let numbers: Vec<u32> = mill::VERSION.split('.').map(|part| part.parse().unwrap()).collect();
    assert_eq!(mill::version(), (numbers[0], numbers[1], numbers[2]));
}

#[test]
fn null_with_length_0_in_what_is_assured() {
    let text = b"high(A)";
    // SAFETY: each pointer lies before as many bytes as its length says; null goes with 0.
    unsafe {
        assert_eq!(mill_assured(null(), 0, null(), 0), refusal(5));
        assert_eq!(mill_assured(null(), 0, [0u8; 3].as_ptr(), 3), refusal(5));
        assert_eq!(mill_assured(text.as_ptr(), 7, null(), 0), 1);
        assert_eq!(mill_assured(text.as_ptr(), 7, text.as_ptr(), 7), refusal(11));
        // The four bytes of `A>=v` as a mark: 1,983,725,121.
        assert_eq!(mill_assured(b"A>=v".as_ptr(), 4, b"A>=v".as_ptr(), 4), 1);
        let after = b"lowafter(A,1983725121)";
        assert_eq!(mill_assured(after.as_ptr(), after.len(), b"A>=u".as_ptr(), 4), 0);
        assert_eq!(mill_assured(after.as_ptr(), after.len(), b"A>=v".as_ptr(), 4), 1);
    }
}

#[test]
fn null_with_length_0_in_questions() {
    let r1 = r1_bytes();
    let (recording, length) = (r1.as_ptr(), r1.len());
    let (mut distance, mut degree, mut out) = (77.0, 7.5, [9u8; 64]);
    let [mut low, mut high, mut lowest, mut highest] = [7i32; 4];
    // SAFETY: each pointer lies before as many bytes as its length says; null goes with 0.
    unsafe {
        assert_eq!(mill_band(null(), 0, null(), 0, 1, &mut low, &mut high, &mut lowest, &mut highest), refusal(4));
        assert_eq!(mill_band(recording, length, null(), 0, 1, &mut low, &mut high, &mut lowest, &mut highest), refusal(5));
        assert_eq!([low, high, lowest, highest], [7; 4]);
        assert_eq!(mill_question(null(), 0, b"high(A)".as_ptr(), 7, out.as_mut_ptr(), 64), refusal(4));
        assert_eq!(mill_question(null(), 0, null(), 0, null_mut(), 0), refusal(4));
        assert_eq!(mill_question(recording, length, null(), 0, out.as_mut_ptr(), 64), refusal(5));
        assert_eq!(mill_question(recording, length, b"lag".as_ptr(), 3, null_mut(), 0), 0);
        assert_eq!(mill_question(recording, length, b"cross".as_ptr(), 5, null_mut(), 0), refusal(10));
        assert_eq!(mill_degree(null(), 0, null(), 0, i64::MIN, &mut distance, &mut degree), refusal(4));
        assert_eq!(mill_degree(recording, length, null(), 0, 0, &mut distance, &mut degree), refusal(5));
    }
    assert_eq!((distance, degree, out), (77.0, 7.5, [9; 64]));
}

/// Places that hold a signalling NaN keep every bit where nothing is written, and get the bits of the distance and the degree where they are.
#[test]
fn the_places_of_distance_and_degree_by_their_bits() {
    let r1 = r1_bytes();
    let nans = (0x7FF0_0000_0000_0001_u64, 0xFFF7_FFFF_FFFF_FFFF_u64);
    for (text, target, returned, after) in [
        ("high(A)", 0, 0, nans),
        ("lag", 0, 2, nans),
        ("F(A>v", 0, refusal(6), nans),
        ("high(A)", 2_000_000_001, refusal(12), nans),
        ("peaks(A)", 51, 1, (19f64.to_bits(), 0.05f64.to_bits())),
    ] {
        let (mut distance, mut degree) = nans;
        // SAFETY: the pointers lie before what their lengths say; 64 bits have the size and the alignment of a double.
        let found = unsafe {
            let places = ((&raw mut distance).cast(), (&raw mut degree).cast());
            mill_degree(r1.as_ptr(), r1.len(), text.as_ptr(), text.len(), target, places.0, places.1)
        };
        assert_eq!((found, (distance, degree)), (returned, after), "{text}");
    }
}

#[test]
fn inputs_may_overlap() {
    let r2 = r2_bytes();
    let mut out = [0u8; 144];
    // SAFETY: the pointers lie within R2 and the output.
    unsafe {
        // The second record's time as the only mark, then that of the fifth with its A as two.
        let length = mill_thin(r2.as_ptr(), 144, r2.as_ptr().add(16), 4, out.as_mut_ptr(), 144);
        let expected = mill::thin(&r2, &[10]).unwrap();
        assert_eq!((out[..length as usize].to_vec(), length), (expected, 7 * 16));
        let length = mill_thin(r2.as_ptr(), 144, r2.as_ptr().add(64), 8, out.as_mut_ptr(), 144);
        let expected = mill::thin(&r2, &[40, 6]).unwrap();
        assert_eq!((out[..length as usize].to_vec(), length), (expected, 7 * 16));
    }
}

#[test]
fn a_text_may_lie_in_the_recording() {
    let r1 = r1_bytes();
    let mut out = [0u8; 128];
    // SAFETY: the pointers lie within R1 and the output.
    unsafe {
        // A recording is no text.
        assert_eq!(mill_question(r1.as_ptr(), 128, r1.as_ptr(), 128, out.as_mut_ptr(), 128), refusal(6));
    }
    // A recording in whose values a text is written: 0x763D_3E41, the bytes of `A>=v`, is past the limit, `lag` is not.
    let mut records = flat(3);
    records[0].value[0] = i64::from(i32::from_le_bytes(*b"lag\0"));
    let recording = bytes(&records);
    let mut out = [7u8; 16];
    // SAFETY: the text lies in the recording.
    let returned = unsafe { mill_question(recording.as_ptr(), 48, recording.as_ptr().add(4), 3, out.as_mut_ptr(), 16) };
    assert_eq!((returned, out), (0, [7; 16]));
}

#[test]
fn lengths_past_32_bits() {
    const WRAPPED: usize = 1 << 32;
    let large = Guarded::output(WRAPPED + 4096);
    let at = large.place(WRAPPED + 4096, Against::Front);
    let r1 = r1_bytes();
    let (mut earlier, mut later, mut out) = (77u32, 78u32, [9u8; 64]);
    // SAFETY: the pages are there, of zeros; they are taken only when touched.
    unsafe {
        for (length, number) in [(WRAPPED, 2), (WRAPPED + 16, 2), (WRAPPED + 128, 2), (WRAPPED + 1, 1), (WRAPPED - 16, 2)] {
            assert_eq!(mill_pair(at, length, 0, 1, &mut earlier, &mut later), refusal(number));
            assert_eq!(mill_thin(at, length, null(), 0, out.as_mut_ptr(), 64), refusal(number));
        }
        for length in [WRAPPED, WRAPPED + 4, WRAPPED + 7, WRAPPED + 32] {
            assert_eq!(mill_thin(r1.as_ptr(), 128, at, length, out.as_mut_ptr(), 64), refusal(11));
        }
        assert_eq!((earlier, later, out), (77, 78, [9; 64]));
        // What is carried may be longer than 4 GiB, and a reading may not.
        let mut live = vec![0; MILL_LIVE_BYTES];
        assert_eq!(mill_live_start(at, WRAPPED + 4, live.as_mut_ptr(), live.len()), refusal(11));
        assert_eq!(mill_live_start(null(), 0, live.as_mut_ptr(), live.len()), 0);
        assert_eq!(mill_live_add(live.as_mut_ptr(), live.len(), at, WRAPPED + 16), refusal(1));
        let long = Guarded::output(WRAPPED + 4096);
        let long_at = long.place(WRAPPED + 4096, Against::Front);
        assert_eq!(mill_live_start(null(), 0, long_at, WRAPPED + 16), 0);
        assert_eq!(mill_live_add(long_at, WRAPPED + 16, r1.as_ptr(), 16), 0);
        assert_eq!(mill_live_save(long_at, WRAPPED + 16, 1), 0);
        assert_eq!(mill_live_restore(long_at, WRAPPED + 16, 1), 0);
        assert_eq!(mill_live_kept(long_at, WRAPPED + 16, out.as_mut_ptr(), 64), 16);
        assert_eq!(mill_live_entry(long_at, WRAPPED + 16, out.as_mut_ptr(), 64), 32);
        assert_eq!(mill_live_entry(long_at, WRAPPED + 16, at, WRAPPED), 32);
        for (length, number) in [(WRAPPED, 2), (WRAPPED + 32, 2), (WRAPPED + 1, 1)] {
            assert_eq!(mill_entry(at, length, out.as_mut_ptr(), 64), refusal(number));
            assert_eq!(mill_find(at, length, 0, 0, out.as_mut_ptr(), 64), refusal(20));
        }
        // An output of over 4 GiB is room enough.
        assert_eq!(mill_entry(r1.as_ptr(), 128, at, WRAPPED), 32);
        assert_eq!(mill_find([9; 32].as_ptr(), 32, 0, 0, at, WRAPPED + 3), 4);
        assert_eq!(mill_thin(r1.as_ptr(), 128, null(), 0, at, WRAPPED + 3), 128);
        assert_eq!(std::slice::from_raw_parts(at, 128), mill::thin(&r1, &[]).unwrap());
    }
}

#[test]
fn lengths_past_32_bits_in_questions() {
    const WRAPPED: usize = 1 << 32;
    let large = Guarded::output(WRAPPED + 4096);
    let at = large.place(WRAPPED + 4096, Against::Front);
    let r1 = r1_bytes();
    let (mut distance, mut degree, mut out) = (77.0, 7.5, [9u8; 64]);
    // SAFETY: the pages are there, of zeros; they are taken only when touched.
    unsafe {
        let text = b"high(A)";
        for (length, number) in [(WRAPPED, 2), (WRAPPED + 16, 2), (WRAPPED + 128, 2), (WRAPPED + 1, 1), (WRAPPED - 16, 2)] {
            assert_eq!(mill_question(at, length, text.as_ptr(), 7, out.as_mut_ptr(), 64), refusal(number));
            assert_eq!(mill_degree(at, length, text.as_ptr(), 7, 0, &mut distance, &mut degree), refusal(number));
        }
        for length in [WRAPPED, WRAPPED + 7, WRAPPED + 256] {
            assert_eq!(mill_question(r1.as_ptr(), 128, at, length, out.as_mut_ptr(), 64), refusal(5));
            assert_eq!(mill_degree(r1.as_ptr(), 128, at, length, 0, &mut distance, &mut degree), refusal(5));
        }
        for (length, number) in [(WRAPPED, 2), (WRAPPED + 1, 1)] {
            assert_eq!(mill_lab_question(at, length, at, 4, text.as_ptr(), 7, out.as_mut_ptr(), 64), refusal(number));
            assert_eq!(mill_lab_degree(at, length, at, 4, text.as_ptr(), 7, 0, &mut distance, &mut degree), refusal(number));
        }
        for length in [WRAPPED, WRAPPED + 4, WRAPPED + 7] {
            assert_eq!(mill_lab_question(r1.as_ptr(), 128, null(), 0, at, length, out.as_mut_ptr(), 64), refusal(5));
            assert_eq!(mill_lab_question(r1.as_ptr(), 128, at, length, text.as_ptr(), 7, out.as_mut_ptr(), 64), refusal(11));
            assert_eq!(
                mill_lab_degree(r1.as_ptr(), 128, at, length, text.as_ptr(), 7, 0, &mut distance, &mut degree),
                refusal(11)
            );
        }
        for length in [WRAPPED, WRAPPED + 7, WRAPPED + 256] {
            assert_eq!(mill_assured(at, length, null(), 0), refusal(5));
            assert_eq!(mill_assured(text.as_ptr(), 7, at, length), refusal(11));
        }
        assert_eq!((distance, degree, out), (77.0, 7.5, [9; 64]));
        let (mut met, mut empty, mut distances, mut mean) = (77, 78, 79, 7.5);
        for length in [WRAPPED, WRAPPED + 7] {
            assert_eq!(mill_report_start(1, at, length, 0, out.as_mut_ptr(), 64), refusal(5));
        }
        // What is carried may be longer than 4 GiB.
        assert_eq!(mill_report_start(1, text.as_ptr(), 7, 0, at, WRAPPED + 5), 0);
        assert_eq!(mill_report_add(at, WRAPPED + 5, r1.as_ptr(), 128, &mut met, &mut empty, &mut distances, &mut mean), 1);
        assert_eq!((met, empty, distances, mean), (1, 0, 0, 1.0));
        std::slice::from_raw_parts_mut(at, MILL_REPORT_BYTES).fill(0);
        // An output of over 4 GiB is room enough.
        assert_eq!(mill_lab_question(r1.as_ptr(), 128, null(), 0, text.as_ptr(), 7, at, WRAPPED), 8);
        assert_eq!(mill_question(r1.as_ptr(), 128, text.as_ptr(), 7, at, WRAPPED), 8);
    }
}

#[test]
fn targets_past_32_bits() {
    let r1 = r1_bytes();
    for target in [(1i64 << 32) + 30, -(1i64 << 32) + 30, 1 << 31, i64::MIN, i64::MAX, i64::MIN + 30] {
        assert_eq!(mill::degree(&r1, b"peaks(A)", target), Err(mill::Refusal::BadTarget), "{target}");
        assert_eq!(mill::pair(&r1, mill::Curve::A, target), Err(mill::Refusal::BadTarget), "{target}");
        assert_eq!(mill::find(&[], mill::Curve::A, target), Err(mill::Refusal::BadTarget), "{target}");
    }
}

/// The guards are real: a child process that touches a byte too many dies, and says at which case.
#[test]
fn guards_hold() {
    const TOUCH: &str = "MILL_TOUCH";
    if let Ok(what) = std::env::var(TOUCH) {
        crate::support::cases::begin("a byte too many", 7);
        let mut input = Guarded::input(16);
        let output = Guarded::output(16);
        // SAFETY: none; what is touched is shut, and this process ends here.
        unsafe {
            match what.as_str() {
                "read behind" => drop(Box::new(input.put(&[1; 16], Against::Rear).add(16).read_volatile())),
                "read before" => drop(Box::new(input.put(&[1; 16], Against::Front).sub(1).read_volatile())),
                "write input" => input.put(&[1; 16], Against::Rear).cast_mut().write_volatile(1),
                "write behind" => output.place(16, Against::Rear).add(16).write_volatile(1),
                _ => output.place(16, Against::Front).sub(1).write_volatile(1),
            }
        }
        return;
    }
    let this = std::env::current_exe().unwrap();
    for what in ["read behind", "read before", "write input", "write behind", "write before"] {
        let child = std::process::Command::new(&this)
            .args(["boundary::guards_hold", "--exact", "--nocapture", "--test-threads=1"])
            .env(TOUCH, what)
            .output()
            .unwrap();
        let said = String::from_utf8_lossy(&child.stderr).into_owned();
        assert_eq!(child.status.code(), Some(101), "{what}: {said}");
        assert!(said.contains("in case 'a byte too many:7'"), "{what}: {said}");
    }
}
