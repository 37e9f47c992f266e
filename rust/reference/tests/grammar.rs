//! Covers: the reader against the recogniser that tries all splits, on every short text over several alphabets and on changed
//! texts; that no text has two readings; the traps of the grammar; nodes and brackets.

use crate::support::cases::cases;
use crate::support::random::Random;
use crate::support::{recordings, texts};
use reference::splits::readings;
use reference::text::{accepted, most_open_brackets, reading, Node};
use reference::Refused;

/// The reader gives the one reading that the splits find; whether there is one.
fn agree(text: &str) -> bool {
    let found = readings(text);
    assert!(found.len() <= 1, "{text} has {} readings", found.len());
    assert_eq!(reading(text.as_bytes()).as_ref(), found.first(), "{text}");
    !found.is_empty()
}

/// Every text of at most `most` tokens; how many of them have a reading.
fn every(tokens: &[&str], most: usize) -> usize {
    let mut layer = vec![String::new()];
    let mut read = 0;
    for _ in 0..most {
        layer = layer.iter().flat_map(|text| tokens.iter().map(move |token| format!("{text}{token}"))).collect();
        read += layer.iter().filter(|text| agree(text)).count();
    }
    read
}

#[test]
fn every_short_text_of_bytes() {
    // 9 atoms of 3 bytes and 6 of 4; then with `!`, `!!` or brackets.
    assert_eq!(every(&["A", "B", "v", "=", "<", ">", "!", "(", ")"], 5), 9 + (6 + 9) + (6 + 9 + 9));
    // Two curves; `v`, 0, numbers of up to 4 digits, negative ones of up to 3.
    assert_eq!(every(&["A", "T", "=", "-", "0", "1", "v"], 6), 2 * (1 + 1 + 15 + 7));
}

#[test]
fn every_short_text_of_tokens() {
    // Counted by length, from the grammar.
    assert_eq!(every(&["A=v", "|", "&", "!", "(", ")", "F(", "U(", ","], 5), 1 + 1 + 5 + 9 + 34);
    assert_eq!(every(&["A=v", "|", "&", "!", "(", ")"], 6), 1 + 1 + 4 + 7 + 21 + 46);
    // `crossup` is one name, and `cross` before `up` is nothing else.
    assert_eq!(every(&["cross", "up", "s", "!", "|", "(", ")"], 4), 1 + 2 + 4 + 9);
    // `X(` beside a listed name has no reading.
    assert_eq!(every(&["lag", "low(", "lowafter(", "A", ",", "5", ")", "|", "X("], 5), 1 + 2 + 4);
}

#[test]
fn every_short_text_of_pigments() {
    // 1, 6, 7, 10, 11 and 16, as `P=k` and in `dose(k)`; then with `!` and `!!`.
    let (atoms, doses) = (3 + 3, 3 + 3);
    assert_eq!(every(&["P=", "dose(", "0", "1", "6", "7", ")", "!"], 4), atoms + doses + atoms + 3 + 3);
    // `P` of single bytes.
    assert_eq!(every(&["P", "=", "1", "2", "-", "v", ">"], 4), 2 + 2);
}

#[test]
fn every_number_of_a_pigment() {
    for k in 0..300u16 {
        let pigment = (1..=16).contains(&k);
        for text in [format!("P={k}"), format!("dose({k})"), format!("F(P={k}&T=v)")] {
            assert_eq!(agree(&text), pigment, "{text}");
        }
        assert!(!agree(&format!("P=0{k}")) && !agree(&format!("dose(0{k})")) && !agree(&format!("dose(-{k})")));
    }
    assert_eq!(reading(b"P=16"), Some(Node::Pigment(16)));
    assert_eq!(reading(b"dose(1)"), Some(Node::Dose(1)));
}

#[test]
fn every_number_by_its_digits() {
    // `A=0` takes no digit; behind the minus 1 to 4 digits, the first not 0.
    assert_eq!(every(&["A=0", "A=-", "0", "1", "2", "9", "-"], 5), 1 + 3 * (1 + 4 + 16 + 64));
    for (text, has_reading) in [
        ("A=2000000000", true),
        ("A=-2000000000", true),
        ("A=2000000001", false),
        ("A=-2000000001", false),
        ("A=02000000000", false),
        ("A=18446744073709551616", false),
        ("A=18446744073709551617", false),
        ("A=4294967296", false),
    ] {
        assert_eq!(agree(text), has_reading, "{text}");
    }
    assert!(reading(format!("A>{}", "1".repeat(254)).as_bytes()).is_none());
}

#[test]
fn traps() {
    for text in [
        "A=>v",
        "A==v",
        "B>A",
        "A>A",
        "T>A",
        "T>B",
        "B=B",
        "v>A",
        "5>A",
        "fall(T)",
        "fall(A,1)",
        "F()",
        "U(A=v)",
        "F(A=v,A=v)",
        "lag()",
        "cross(A)",
        "A>-0",
        "A>00",
        "A>01",
        "A>+1",
        "A>-",
        "A>",
        "low(A,5)",
        "lowafter(A)",
        "lowafter(A,v)",
        "lowafter(T,5)",
        "high(A)x",
        "A=v ",
        " A=v",
        "A=v\n",
        "a=v",
        "A=V",
        "dip(A)",
        "dips",
        "dips()",
        "dips(T)",
        "dips(A,5)",
        "dips(A)s",
        "crossu",
        "crossups",
        "crossupA",
        "crossup1",
        "crossup(A)",
        "crossup()",
        "crosscrossup",
        "crossdown",
        "cross1",
        "F(dips(A))",
        "X(crossup)",
        "crossup|U(A=v,B=v)",
        "P=0",
        "P=17",
        "P=01",
        "P=016",
        "P=-1",
        "P=v",
        "P=B",
        "P=",
        "P",
        "P>=1",
        "P<=1",
        "P>1",
        "P<1",
        "P==1",
        "P=1v",
        "P=1.",
        "P=161",
        "P=65537",
        "P=4294967297",
        "P=18446744073709551617",
        "A=P",
        "A>P",
        "1=P",
        "p=1",
        "P(1)",
        "P=(1)",
        "dose(0)",
        "dose(17)",
        "dose(01)",
        "dose(017)",
        "dose(-1)",
        "dose(v)",
        "dose(A)",
        "dose()",
        "dose(1",
        "dose(1)1",
        "dose",
        "dose1",
        "doses(1)",
        "dose(1,2)",
        "dose(A,1)",
        "dose(P=1)",
        "F(dose(1))",
        "F(P=1)&dose(1)",
        "dose(2)|X(A=v)",
        "()",
        "!",
        "A=v|",
        "|A=v",
        "A=v||A=v",
        "A=v!A=v",
        "(A=v",
        "A=v)",
        "peaks(A)|F(A=v)",
        "F(lag)",
        "X(high(A))",
        "G(fall(A))&cross",
        "A=\u{661}",
        "FA=v",
        "F",
        "U(,)",
        "W(A=v,)",
        "A = v",
        "A>=",
        ">=v",
    ] {
        assert!(!agree(text), "{text}");
    }
    for text in [
        "A>=v",
        "B<5",
        "T=-1",
        "A<=B",
        "!!A=v",
        "((A=v))",
        "F(G(X(A=v)))",
        "lowafter(A,-5)",
        "capafter(B,0)",
        "high(A)&A>5|lag",
        "U(A=v|B=v,T>3&A=v)",
        "W(!fall(A),rise(B))",
        "A>v&!(B>v)",
        "low(B)",
        "steps(A)",
        "gaps(B)",
        "ampl(A)",
        "dips(A)",
        "dips(B)",
        "crossup",
        "cross",
        "(crossup)",
        "cross|crossup&!cross",
        "!dips(A)&crossup|peaks(A)",
        "P=1",
        "P=9",
        "P=10",
        "P=16",
        "!P=3&P=4",
        "F(P=1&T=v)",
        "U(P=2,X(P=16))",
        "dose(1)",
        "dose(16)",
        "(dose(9))|P=9",
        "dose(1)&!dose(2)|lag",
    ] {
        assert!(agree(text), "{text}");
    }
}

#[test]
fn changed_texts() {
    let mut read = 0;
    cases("changed texts, read two ways", 20_000, |random: &mut Random| {
        let records = recordings::any(random);
        let size = 1 + random.below(4);
        let text = texts::made(random, texts::Kind::Mixed, size, &records);
        agree(&text);
        let changed = texts::changed(random, &text);
        if let Ok(changed) = String::from_utf8(changed) {
            read += usize::from(agree(&changed));
        }
    });
    assert!(crate::support::cases::one_alone() || read > 300, "{read}");
}

#[test]
fn grouping() {
    let atom = |text: &str| Box::new(reading(text.as_bytes()).unwrap());
    let (a, b, c) = (atom("A=1"), atom("B=2"), atom("T=3"));
    let left = Node::Or(Node::Or(a.clone(), b.clone()).into(), c.clone());
    assert_eq!(reading(b"A=1|B=2|T=3"), Some(left));
    let left = Node::And(Node::And(a.clone(), b.clone()).into(), c.clone());
    assert_eq!(reading(b"A=1&B=2&T=3"), Some(left));
    let tighter = Node::Or(a, Node::And(Node::Not(b).into(), c).into());
    assert_eq!(reading(b"A=1|!B=2&T=3"), Some(tighter));
    assert_eq!(reading(b"cross|crossup"), Some(Node::Or(Node::Cross.into(), Node::Crossup.into())));
    assert_eq!(reading(b"dips(A)&dips(B)"), Some(Node::And(Node::Dips(0).into(), Node::Dips(1).into())));
}

#[test]
fn nodes_and_brackets() {
    let nots = |count: usize| format!("{}A=v", "!".repeat(count));
    assert_eq!(accepted(nots(31).as_bytes()).unwrap().parts().len(), 32);
    assert_eq!(accepted(nots(32).as_bytes()), Err(Refused::plain(7)));
    assert_eq!(accepted(nots(253).as_bytes()), Err(Refused::plain(7)));
    assert_eq!(accepted(nots(254).as_bytes()), Err(Refused::plain(5)));
    let wrapped = |count: usize, inner: &str| format!("{}{inner}{}", "(".repeat(count), ")".repeat(count));
    assert!(accepted(wrapped(16, "A>=v").as_bytes()).is_ok());
    assert_eq!(accepted(wrapped(16, "fall(A)").as_bytes()), Err(Refused::plain(7)));
    assert!(accepted(wrapped(15, "fall(A)").as_bytes()).is_ok());
    assert_eq!(accepted(wrapped(126, "A>=v").as_bytes()), Err(Refused::plain(7)));
    // Brackets that are closed again do not count.
    assert_eq!(most_open_brackets(b"(A=v)|(A=v)|fall(A)"), 1);
    assert_eq!(accepted(b"lowafter(A,40)").unwrap().parts().len(), 1);
    // 6 stands before 7.
    assert_eq!(accepted(format!("{}|F(lag)", nots(40)).as_bytes()), Err(Refused::plain(6)));
    assert_eq!(accepted(wrapped(20, "A>=w").as_bytes()), Err(Refused::plain(6)));
}
