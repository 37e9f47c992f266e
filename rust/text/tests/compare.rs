//! Covers: the reader against the independent one and, on short texts, against the recogniser that tries all splits: every short
//! text over several alphabets, every text one byte away from a good one, random and changed texts, the limits, the stack.

#[path = "../../tests/support/mod.rs"]
mod support;

use reference::splits::readings;
use reference::text::{accepted, most_open_brackets, Node, MOST_BRACKETS, MOST_NODES};
use support::cases::{begin, cases, one_alone};
use support::small_stack::on_stack_of;
use support::{compared, header, painted, r1, texts};
use text_compare::read;

/// The number of nodes, or refusal 5, 6 or 7, held to the independent reader.
#[track_caller]
fn agree(text: &[u8]) -> Result<usize, u32> {
    compared::count();
    let found = read(text);
    let expected = accepted(text).map(|node| node.parts().len()).map_err(|refused| refused.number);
    assert_eq!(found, expected, "'{}' in case {:?}", text.escape_ascii(), support::cases::current());
    found
}

/// The same, held to the recogniser too: it takes exponential time, so the text is short.
#[track_caller]
fn agree_by_splits(text: &str) -> Result<usize, u32> {
    let found = agree(text.as_bytes());
    let all = readings(text);
    assert!(all.len() <= 1, "{text} has {} readings", all.len());
    let nodes = all.first().map_or(0, |node: &Node| node.parts().len());
    let expected = match nodes {
        0 if text.is_empty() => Err(5),
        0 => Err(6),
        _ if nodes > MOST_NODES || most_open_brackets(text.as_bytes()) > MOST_BRACKETS => Err(7),
        _ => Ok(nodes),
    };
    assert_eq!(found, expected, "{text}");
    found
}

/// Every text of at most `most` tokens; how many of them have a reading.
fn every(tokens: &[&str], most: usize) -> usize {
    let mut layer = vec![String::new()];
    let mut read = 0;
    for _ in 0..most {
        layer = layer.iter().flat_map(|text| tokens.iter().map(move |token| format!("{text}{token}"))).collect();
        read += layer.iter().filter(|text| agree_by_splits(text).is_ok()).count();
    }
    read
}

#[test]
fn every_short_text_of_bytes() {
    assert_eq!(agree(b""), Err(5));
    // 9 atoms of 3 bytes and 6 of 4; then with `!`, `!!` or brackets.
    assert_eq!(every(&["A", "B", "v", "=", "<", ">", "!", "(", ")"], 5), 9 + (6 + 9) + (6 + 9 + 9));
    // Two curves; `v`, 0, numbers of up to 4 digits, negative ones of up to 3.
    assert_eq!(every(&["A", "T", "=", "-", "0", "1", "v"], 6), 2 * (1 + 1 + 15 + 7));
    for first in 0..=255 {
        for second in 0..=255 {
            assert_eq!(agree(&[first, second]), Err(6));
        }
    }
}

#[test]
fn every_short_text_of_tokens() {
    // Counted by length, from the grammar.
    assert_eq!(every(&["A=v", "|", "&", "!", "(", ")", "F(", "U(", ","], 5), 1 + 1 + 5 + 9 + 34);
    assert_eq!(every(&["A=v", "|", "&", "!", "(", ")"], 6), 1 + 1 + 4 + 7 + 21 + 46);
    // `X(` beside a listed name has no reading.
    assert_eq!(every(&["lag", "low(", "lowafter(", "A", ",", "5", ")", "|", "X("], 5), 1 + 2 + 4);
    // `crossup` is one name, also of the pieces `cross` and `up`, and no other goes on behind `cross`.
    assert_eq!(every(&["cross", "crossup", "up", "s", "1", "(", "A", ")", "|"], 4), 2 + 1 + 6 + 5);
    // `dips(` of the pieces `dip` and `s(`; beside `F(` it has no reading.
    assert_eq!(every(&["dips(", "dip", "s(", "peaks(", "A", "T", ")", "|", "F("], 5), 2 + 1);
    // 1, 6, 7, 10, 11 and 16, as `P=k` and in `dose(k)`; then with `!` and `!!`; beside `F(` no `dose` has a reading.
    assert_eq!(every(&["P=", "dose(", "0", "1", "6", "7", ")", "!", "F("], 4), 6 + 6 + 6 + 3 + 3 + 3);
    // `P` of single bytes.
    assert_eq!(every(&["P", "=", "1", "2", "-", "v", ">"], 4), 2 + 2);
    // `A=0` takes no digit; behind the minus 1 to 4 digits, the first not 0.
    assert_eq!(every(&["A=0", "A=-", "0", "1", "2", "9", "-"], 5), 1 + 3 * (1 + 4 + 16 + 64));
}

#[test]
fn dips_and_upward_crossings() {
    let good = [("dips(A)", 1), ("dips(B)", 1), ("crossup", 1), ("cross", 1), ("crossup|cross", 3), ("!(cross)&crossup", 4)];
    for (text, nodes) in good {
        assert_eq!(agree_by_splits(text), Ok(nodes), "{text}");
    }
    let crossings = ["crossups", "crossu", "crossup1", "crossupcross", "cross(A)", "crossup(A)", "crossup()", "up"];
    let dips = ["dip(A)", "dips", "dips(T)", "dips(A", "dips()", "dips(A,40)", "dips(A)B"];
    let mixed = ["F(crossup)", "crossup&G(A=v)", "X(dips(A))", "dips(B)|U(A=v,B=v)", "W(A>v,!dips(B))"];
    for text in crossings.iter().chain(&dips).chain(&mixed) {
        assert_eq!(agree_by_splits(text), Err(6), "{text}");
    }
}

#[test]
fn pigments() {
    for k in 0..=300 {
        begin("pigments", k);
        let read = if (1..=16).contains(&k) { Ok(1) } else { Err(6) };
        for text in [format!("P={k}"), format!("dose({k})"), format!("(P={k})")] {
            assert_eq!(agree_by_splits(&text), read, "{text}");
        }
        for text in [format!("P=0{k}"), format!("dose(0{k})"), format!("P=-{k}"), format!("dose(-{k})"), format!("P>={k}")] {
            assert_eq!(agree_by_splits(&text), Err(6), "{text}");
        }
    }
    for (text, nodes) in [("F(P=1&T=v)", 4), ("!P=16|dose(16)", 4), ("U(P=2,X(P=3))", 4), ("dose(1)&dose(2)|P=3", 5)] {
        assert_eq!(agree_by_splits(text), Ok(nodes), "{text}");
    }
    let atoms = ["P", "P=", "P=v", "P=B", "P=P", "A=P", "P<2", "P>1", "P=1P", "p=1", "P(1)", "P=1,", "P=65537", "P=4294967297"];
    let names =
        ["dose", "dose(", "dose()", "dose(v)", "dose(A)", "dose(1", "dose(1)1", "dose(1,2)", "doses(1)", "dos(1)", "Dose(1)"];
    let mixed = ["F(dose(1))", "dose(1)&G(A=v)", "X(P=1)|dose(2)", "dose(1)|U(P=1,B=v)", "dose(4294967297)", "dose(P=1)"];
    for text in atoms.iter().chain(&names).chain(&mixed) {
        assert_eq!(agree_by_splits(text), Err(6), "{text}");
    }
}

#[test]
fn every_text_one_byte_away() {
    let mut read = 0;
    for (case, text) in texts::GOOD.iter().enumerate() {
        begin("every text one byte away", case as u64);
        let text = text.as_bytes();
        assert!(agree(text).is_ok());
        for at in 0..=text.len() {
            if at < text.len() {
                read += usize::from(agree(&[&text[..at], &text[at + 1..]].concat()).is_ok());
            }
            for byte in 0..=255 {
                read += usize::from(agree(&[&text[..at], &[byte], &text[at..]].concat()).is_ok());
                if at < text.len() {
                    read += usize::from(agree(&[&text[..at], &[byte], &text[at + 1..]].concat()).is_ok());
                }
            }
        }
    }
    assert!(read > 500, "{read}");
}

#[test]
fn made_and_changed_texts() {
    let mut outcomes = std::collections::BTreeMap::<u32, u64>::new();
    cases("made and changed texts", 150_000, |random| {
        let records = if random.once_in(3) { r1::r1() } else { Vec::new() };
        let most = random.pick(&[4, 9, 9, 20, 45]);
        let size = 1 + random.below(most);
        let text = texts::made(random, texts::Kind::Mixed, size, &records);
        let changed = texts::changed(random, &text);
        for text in [text.as_bytes(), &changed] {
            *outcomes.entry(agree(text).err().unwrap_or(0)).or_default() += 1;
        }
        if size < 4 {
            let _ = agree_by_splits(&text);
            if let Ok(changed) = std::str::from_utf8(&changed) {
                let _ = agree_by_splits(changed);
            }
        }
    });
    for outcome in [0, 5, 6, 7] {
        let seen = outcomes.get(&outcome).copied().unwrap_or(0);
        assert!(one_alone() || seen >= 200, "outcome {outcome} came up {seen} times: {outcomes:?}");
    }
}

#[test]
fn random_bytes() {
    const BYTES: &[u8] = b"ABTPv|&!(),<>=-0169FGXUW";
    cases("random bytes", 300_000, |random| {
        let length = random.pick(&[3, 4, 5, 8, 13, 40, 256, 257]);
        let text: Vec<u8> =
            (0..length).map(|_| if random.once_in(50) { random.next() as u8 } else { random.pick(BYTES) }).collect();
        let _ = agree(&text);
    });
}

fn nested(open: &str, inner: &str, close: &str, count: usize) -> String {
    format!("{}{inner}{}", open.repeat(count), close.repeat(count))
}

#[test]
fn limits() {
    assert_eq!(agree(nested("!", "A=v", "", 31).as_bytes()), Ok(32));
    assert_eq!(agree(nested("!", "A=v", "", 32).as_bytes()), Err(7));
    assert_eq!(agree(nested("!", "A=v", "", 253).as_bytes()), Err(7));
    assert_eq!(agree(nested("!", "A=v", "", 254).as_bytes()), Err(5));
    assert_eq!(agree(nested("(", "A>=v", ")", 16).as_bytes()), Ok(1));
    assert_eq!(agree(nested("(", "A>=v", ")", 17).as_bytes()), Err(7));
    assert_eq!(agree(nested("(", "fall(A)", ")", 15).as_bytes()), Ok(1));
    assert_eq!(agree(nested("(", "fall(A)", ")", 16).as_bytes()), Err(7));
    assert_eq!(agree(nested("(", "A>=v", ")", 126).as_bytes()), Err(7));
    // 6 stands before 7.
    assert_eq!(agree(nested("(", "A>=w", ")", 126).as_bytes()), Err(6));
    assert_eq!(agree(format!("{}|F(lag)", nested("!", "A=v", "", 40)).as_bytes()), Err(6));
    assert_eq!(agree(&[b'('; 256]), Err(6));
    assert_eq!(agree(&[b'('; 257]), Err(5));
    assert_eq!(agree(&vec![b'('; 100_000]), Err(5));
}

/// The deepest texts: read whole before they are refused.
fn deepest() -> Vec<String> {
    vec![
        "A=v".into(),
        nested("(", "A>=v", ")", 126),
        nested("!", "A=v", "", 253),
        nested("!(", "A=v", ")", 84),
        nested("F(", "A=v", ")", 84),
        nested("U(A=v,", "A=v", ")", 36),
        nested("W(", "A=v", ",A=v)", 36),
        nested("(A=v|", "A=v", ")", 42),
        nested("(A=v|A=v&!", "A=v", ")", 23),
        "(".repeat(256),
        "F(".repeat(128),
        "!".repeat(256),
        format!("{}A=v", "A=v|".repeat(63)),
    ]
}

/// A reading is a part of the question call, and does with the stack that the header names for that.
#[test]
fn deepest_texts_on_the_stack_that_the_header_names() {
    let mut seen = Vec::new();
    for text in deepest() {
        let expected = read(text.as_bytes());
        let mut found = None;
        on_stack_of(header::stack("QUESTION"), &mut || found = Some(read(text.as_bytes())));
        assert_eq!(found, Some(expected), "{text}");
        seen.push(expected);
    }
    assert!(seen.contains(&Err(7)) && seen.contains(&Err(6)) && seen.contains(&Ok(1)));
}

#[test]
fn peak_stack_of_the_deepest_texts() {
    let mut most = 0;
    for text in deepest() {
        let peak = painted::peak(&mut || {
            let _ = read(text.as_bytes());
        });
        let shown = if text.len() > 12 { format!("{}..", &text[..12]) } else { text.clone() };
        println!("text_read of {shown} ({} bytes): {peak} bytes of stack", text.len());
        most = most.max(peak);
    }
    println!("text_read: {most} bytes of stack at most");
    assert!(most > 0 && most <= header::stack("QUESTION"), "{most} bytes of stack");
}
