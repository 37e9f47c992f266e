//! Covers: what stands below a refusal 6: where reading the text stops, and what to write instead. And that what the tool calls
//! readable is what the library reads.

use super::folder::Folder;
use super::json;
use crate::support::random::Random;
use crate::support::{recordings, texts};

/// A text, how many characters stand before the mark, and the words behind it.
const HINTS: [(&str, usize, &str); 36] = [
    ("peaks(a)", 6, "a curve is A or B: write peaks(A)"),
    ("peaks (A)", 5, "a text has no blanks: write peaks(A)"),
    ("A >= v", 1, "a text has no blanks: write A>=v"),
    ("A>=5.5", 4, "numbers are whole: write A>=5 or A>=6"),
    ("A>=5.0", 4, "numbers are whole: write A>=5"),
    ("A>=5.|B<2.00", 4, "numbers are whole: write A>=5|B<2"),
    ("lowafter(A,5.5)", 12, "numbers are whole: write lowafter(A,5) or lowafter(A,6)"),
    ("Peaks(A)", 1, "= is wanted here: write peaks(A)"),
    ("PEAKS(A)", 1, "= is wanted here: write peaks(A)"),
    ("peak(A)", 0, "there is no name 'peak': write peaks(A)"),
    ("peaks(C)", 6, "a curve is A or B"),
    ("peaks", 5, "the text ends where ( is wanted"),
    ("peaks(A", 7, "the text ends where ) is wanted: write peaks(A)"),
    ("F(A>v", 5, "the text ends where ) is wanted: write F(A>v)"),
    ("F(A>v))", 6, "this bracket closes none"),
    ("A=>5", 2, "v or a number is wanted here: write A>=5"),
    ("A=<5", 2, "v or a number is wanted here: write A<=5"),
    ("A==5", 2, "v or a number is wanted here: write A=5"),
    ("A>=5&&B<3", 5, "a question is wanted here: write A>=5&B<3"),
    ("A>=5||B<3", 5, "a question is wanted here: write A>=5|B<3"),
    ("A>=V", 3, "v or a number is wanted here: write A>=v"),
    ("a>=v", 0, "there is no name 'a': write A>=v"),
    ("f(A>=v)", 0, "there is no name 'f': write F(A>=v)"),
    ("A>=007", 3, "a number has no leading zero, and 0 no minus: write A>=7"),
    ("A>=+7", 3, "v or a number is wanted here: write A>=7"),
    ("A>=2000000001", 3, "numbers go from -2000000000 to 2000000000"),
    ("A", 1, "one of >= <= > < = is wanted here"),
    ("A>=", 3, "v or a number is wanted here"),
    ("B>=A", 3, "v or a number is wanted here"),
    ("P=17", 2, "a pigment is 1 to 16"),
    ("dose(01)", 5, "a pigment is 1 to 16: write dose(1)"),
    ("P>=1", 1, "= is wanted here"),
    ("cross(A)", 5, "one of | and & is wanted here, or the end"),
    ("F(peaks(A))", 2, "a name like this does not go with F, G, X, U or W"),
    ("high(A)&", 8, "the text ends where a question is wanted"),
    ("U(A>v;B>v)", 5, ", is wanted here"),
];

#[test]
fn a_mark_stands_where_reading_stops() {
    let folder = Folder::with_recordings("hints");
    for (text, before, words) in HINTS {
        let lines = [format!("  {text}"), format!("  {}^ {words}", " ".repeat(before))];
        let lines = lines.each_ref().map(String::as_str);
        folder.mill(&["ask", text, "r1.rec"]).refused_with("r1.rec", 6, &lines);
        folder.mill(&["degree", text, "5", "r1.rec"]).refused_with("r1.rec", 6, &lines);
        folder.mill(&["report", text, "5", "r1.rec"]).refused_with("", 6, &lines);
        folder.mill(&["assured", text]).refused_with("", 6, &lines);
        // What it says to write can be read.
        if let Some((_, better)) = words.split_once(": write ") {
            for better in better.split(" or ") {
                assert!(mill::assured(better.as_bytes(), &[]).is_ok(), "{better}");
            }
        }
    }
}

#[test]
fn what_can_not_be_seen_is_shown() {
    let folder = Folder::with_recordings("hints_shown");
    let shown = |text: &str, lines: [&str; 2]| folder.mill(&["ask", text, "r1.rec"]).refused_with("r1.rec", 6, &lines);
    shown("peaks(A)\r", ["  peaks(A)\\r", "          ^ a text has no carriage return: write peaks(A)"]);
    shown("A\u{2265}5", ["  A\u{2265}5", "   ^ one of >= <= > < = is wanted here: write A>=5"]);
    let long = format!("{}&peaks(a)", ["high(A)"; 12].join("&"));
    let ran = folder.mill(&["ask", &long, "r1.rec"]);
    let lines: Vec<&str> = ran.err.lines().collect();
    assert_eq!(lines.len(), 3);
    assert!(lines[1].starts_with("mill:   ..") && lines[1].ends_with("peaks(a)"), "{}", lines[1]);
    assert_eq!(lines[1].find("(a)").map(|at| at + 1), lines[2].find('^'));
    let told = json::line(&folder.mill(&["ask", "--json", "peaks(a)", "r1.rec"]).out);
    assert_eq!((told.at("refused"), told.at("place"), told.at("byte")), (&json::number(6), &json::number(0), &json::number(6)));
    assert_eq!(told.at("hint"), &json::string("a curve is A or B: write peaks(A)"));
}

/// The tool has a hint just where the library has no reading.
#[test]
fn texts_at_random_stop_where_the_library_refuses_them() {
    let folder = Folder::with_recordings("hints_random");
    let (mut read, mut stopped) = (0, 0);
    for case in 0..400 {
        let mut random = Random::of_case("tool hints", case);
        let records = recordings::accepted(&mut random, 6);
        let kind = random.pick(&[texts::Kind::Listed, texts::Kind::Temporal]);
        let text = texts::made(&mut random, kind, 6, &records);
        let text = if random.once_in(3) { text.into_bytes() } else { texts::changed(&mut random, &text) };
        if text.contains(&0) || text.is_empty() {
            continue;
        }
        let words: [std::ffi::OsString; 4] =
            ["ask".into(), "--".into(), std::os::unix::ffi::OsStringExt::from_vec(text.clone()), "r1.rec".into()];
        let ran = folder.mill(&words);
        match mill::assured(&text, &[]) {
            Err(mill::Refusal::NoReading) => {
                ran.refused("r1.rec", 6, 0);
                stopped += 1;
            }
            _ => {
                assert!(!ran.err.contains('^'), "{}", ran.err);
                read += 1;
            }
        }
    }
    assert!(read > 50 && stopped > 50, "{read} read, {stopped} not");
}
