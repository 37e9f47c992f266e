//! Covers: every text up to some length over small alphabets of bytes and of words; every text one byte away from a list of
//! good ones, for all 256 bytes.

use crate::calls::{question, Tally};
use crate::support::cases::begin;
use crate::support::r1::r1_bytes;
use crate::support::r3::r3_bytes;
use crate::support::texts::GOOD;
use mill::sys::MILL_SET_BYTES;

/// Asks every text of `least` to `most` words on R1; how many have a reading.
fn every_text(name: &'static str, words: &[&str], most: usize) -> u64 {
    let recording = r1_bytes();
    let (mut case, mut read) = (0, 0);
    for length in 1..=most {
        let mut chosen = vec![0; length];
        loop {
            let text: String = chosen.iter().map(|word| words[*word]).collect();
            begin(name, case);
            case += 1;
            read += u64::from(question(&recording, text.as_bytes(), MILL_SET_BYTES) != 6);
            let Some(place) = chosen.iter().rposition(|word| word + 1 < words.len()) else { break };
            chosen[place] += 1;
            chosen[place + 1..].fill(0);
        }
    }
    read
}

#[test]
fn every_short_text_of_bytes() {
    let bytes = ["A", "B", "T", "v", "<", ">", "=", "-", "0", "1", "9", "!", "|", "(", ")", "X", ","];
    // 3 bytes: A, B or T; < > or =; v or a digit; and A with B. 4 bytes: >= and <= so; numbers of two bytes; and !.
    let three = 3 * 3 * 4 + 3;
    let four = 3 * 2 * 4 + 2 + 3 * 3 * (2 * 3 + 2) + three;
    assert_eq!(every_text("every short text of bytes", &bytes, 4), three + four);
}

#[test]
fn every_short_text_of_words() {
    let words = ["A=v", "|", "&", "!", "(", ")", "F(", "U(", ","];
    assert_eq!(every_text("every short text of words", &words, 5), 1 + 1 + 5 + 9 + 34);
    let words = ["B<=60", "|", "&", "!", "(", ")"];
    assert_eq!(every_text("every short text of words, no temporal one", &words, 6), 1 + 1 + 4 + 7 + 21 + 46);
    let words = ["cross", "up", "s", "!", "|", "(", ")"];
    assert_eq!(every_text("every short text of words, crossings", &words, 5), 1 + 2 + 4 + 9 + 20);
    let words = ["dips(", "dip(", "peaks(", "A", "B", ")", "!"];
    assert_eq!(every_text("every short text of words, turns", &words, 4), 4 + 4);
    let words = ["P=", "dose(", "0", "1", "6", "7", ")", "!"];
    // 1, 6, 7, 10, 11 and 16, as `P=k` and in `dose(k)`; then with `!` and `!!`.
    assert_eq!(every_text("every short text of words, pigments", &words, 4), 6 + 6 + 6 + 3 + 3);
    let words = ["lag", "low(", "lowafter(", "A", ",", "5", ")", "|", "X("];
    assert_eq!(every_text("every short text of words, listed", &words, 5), 1 + 2 + 4);
}

#[test]
fn every_short_number() {
    // 0 alone; else 1 to 4 digits of which the first is not 0, with a minus 1 to 3.
    let numbers = 1 + 2 * (1 + 3 + 9 + 27) + 2 * (1 + 3 + 9);
    assert_eq!(every_text("every short number", &["A>", "0", "1", "7", "-"], 5), numbers);
}

#[test]
fn every_number_of_a_pigment() {
    let recording = r3_bytes();
    for k in 0..=300 {
        begin("every number of a pigment", k);
        let number = if (1..=16).contains(&k) { 0 } else { 6 };
        for text in [format!("P={k}"), format!("dose({k})"), format!("F(P={k}&T=v)"), format!("!(dose({k})|P=1)")] {
            assert_eq!(question(&recording, text.as_bytes(), MILL_SET_BYTES), number, "{text}");
        }
        for text in [format!("P=0{k}"), format!("P=-{k}"), format!("dose(0{k})"), format!("dose(-{k})"), format!("P>{k}")] {
            assert_eq!(question(&recording, text.as_bytes(), MILL_SET_BYTES), 6, "{text}");
        }
    }
}

#[test]
fn every_text_one_byte_away() {
    let recording = r1_bytes();
    let mut tally = Tally::default();
    for (case, text) in GOOD.iter().enumerate() {
        begin("every text one byte away", case as u64);
        let text = text.as_bytes();
        assert_ne!(question(&recording, text, MILL_SET_BYTES), 6);
        for at in 0..=text.len() {
            if at < text.len() {
                tally.add(question(&recording, &[&text[..at], &text[at + 1..]].concat(), MILL_SET_BYTES));
            }
            for byte in 0..=255 {
                tally.add(question(&recording, &[&text[..at], &[byte], &text[at..]].concat(), MILL_SET_BYTES));
                if at < text.len() {
                    tally.add(question(&recording, &[&text[..at], &[byte], &text[at + 1..]].concat(), MILL_SET_BYTES));
                }
            }
        }
    }
    tally.saw(&[0, 6], 500);
}
