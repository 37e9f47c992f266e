//! Covers: ask, degree, pair, band, order and lab, with answers written down and answers of the independent implementation.

use super::folder::Folder;
use super::json;
use crate::support::random::Random;
use crate::support::recordings;
use reference::recording::bytes;

#[test]
fn ask_prints_the_runs() {
    let folder = Folder::with_recordings("ask");
    folder.mill(&["ask", "peaks(A)", "r1.rec"]).answers("runs 2\n30 30\n70 70\n");
    folder.mill(&["ask", "lag", "r1.rec"]).answers("runs 0\n");
    folder.mill(&["ask", "high(A)", "r1.rec"]).answers("runs 1\n-2000000000 90\n");
    folder.mill(&["ask", "!low(A)|low(B)", "r1.rec"]).answers("runs 2\n-2000000000 29\n50 2000000000\n");
    folder.mill(&["ask", "--json", "peaks(A)", "r1.rec"]).answers("{\"runs\":[[30,30],[70,70]],\"assured\":null}\n");
    folder.mill(&["ask", "--json", "lag", "r1.rec"]).answers("{\"runs\":[],\"assured\":null}\n");
}

#[test]
fn ask_reads_its_text_from_standard_input_too() {
    let folder = Folder::with_recordings("ask_input");
    let words = ["ask", "-", "r1.rec"];
    folder.mill_reads(&words, b"peaks(A)\n").answers("runs 2\n30 30\n70 70\n");
    folder.mill_reads(&words, b"peaks(A)").answers("runs 2\n30 30\n70 70\n");
    folder.mill_reads(&words, b"peaks(A)\n\n").refused_with(
        "r1.rec",
        6,
        &["  peaks(A)\\n", "          ^ a text is one line: write peaks(A)"],
    );
    folder.mill_reads(&words, b"").refused("r1.rec", 5, 0);
    folder.mill_reads(&words, b"\n").refused("r1.rec", 5, 0);
    let longest = ["lowafter(A,-2000000000)|".repeat(10), "lowafter(A,2000)".to_string()].concat();
    assert_eq!(longest.len(), 256);
    folder.mill_reads(&words, longest.as_bytes()).answers("runs 1\n30 2000000000\n");
    folder.mill_reads(&words, format!("{longest}\n").as_bytes()).answers("runs 1\n30 2000000000\n");
    for longer in ["A".repeat(257), "A".repeat(258), "A".repeat(256) + "\n\n", "A".repeat(100_000)] {
        folder.mill_reads(&words, longer.as_bytes()).refused("r1.rec", 5, 0);
        folder.mill(&["ask", longer.as_str(), "r1.rec"]).refused("r1.rec", 5, 0);
    }
}

#[test]
fn ask_is_refused_as_the_table_says() {
    let folder = Folder::with_recordings("ask_refused");
    folder.mill(&["ask", "high(A)", "short.rec"]).refused("short.rec", 1, 0);
    folder.mill(&["ask", "high(A)", "bad.rec"]).refused("bad.rec", 3, 2);
    folder.mill(&["ask", "high(A)", "empty.rec"]).troubles("empty.rec: is empty: neither a recording nor a tin");
    folder.mill(&["ask", "", "r1.rec"]).refused("r1.rec", 5, 0);
    folder.mill(&["ask", "F(A>v", "r1.rec"]).refused("r1.rec", 6, 0);
    let brackets = format!("{}A>=v{}", "(".repeat(17), ")".repeat(17));
    folder.mill(&["ask", &brackets, "r1.rec"]).refused("r1.rec", 7, 0);
    folder.put("257.rec", &bytes(&recordings::with_most_tops(0, 514)));
    folder.mill(&["ask", "peaks(A)", "257.rec"]).refused("257.rec", 8, 0);
    folder.mill(&["ask", "gaps(A)", "257.rec"]).refused("257.rec", 9, 0);
    for (length, number) in [(65_536, 3), (65_552, 2), (65_553, 1), (65_567, 1), (65_568, 2), (1_048_576, 2), (1_048_577, 1)] {
        folder.put("long.rec", &vec![0; length]);
        folder.mill(&["ask", "high(A)", "long.rec"]).refused("long.rec", number, if number == 3 { 1 } else { 0 });
    }
}

#[test]
fn degree_tells_met_distance_and_no_value() {
    let folder = Folder::with_recordings("degree");
    folder.mill(&["degree", "peaks(A)", "30", "r1.rec"]).answers("met\n");
    folder.mill(&["degree", "peaks(A)", "51", "r1.rec"]).answers("distance 19 degree 0.05\n");
    folder.mill(&["degree", "lag", "0", "r1.rec"]).answers("no value\n");
    folder.mill(&["degree", "--json", "peaks(A)", "30", "r1.rec"]).answers("{\"answer\":\"met\",\"assured\":null}\n");
    let short = "{\"answer\":\"short\",\"distance\":19,\"degree\":0.05,\"assured\":null}\n";
    folder.mill(&["degree", "--json", "peaks(A)", "51", "r1.rec"]).answers(short);
    folder.mill(&["degree", "--json", "lag", "0", "r1.rec"]).answers("{\"answer\":\"no value\",\"assured\":null}\n");
    folder
        .mill(&["degree", "low(A)", "-2000000000", "r1.rec"])
        .answers("distance 2000000030 degree 0.0000000004999999922500001\n");
    for target in ["2000000001", "-2000000001", "9223372036854775807", "99999999999999999999", "-99999999999999999999"] {
        folder.mill(&["degree", "peaks(A)", target, "r1.rec"]).refused("r1.rec", 12, 0);
    }
    for target in ["", "x", "1.5", "1e3", "+5", "- 5", "0x10", " 5", "--5"] {
        let ran = folder.mill(&["degree", "peaks(A)", target, "r1.rec"]);
        assert_eq!((ran.status, ran.text()), (Some(2), ""), "{target}");
    }
    folder
        .mill(&["degree", "peaks(A)", "1.5", "r1.rec"])
        .troubles("degree: TARGET '1.5' is not a whole number; see 'mill degree --help'");
}

#[test]
fn pair_tells_two_times_or_none() {
    let folder = Folder::with_recordings("pair");
    folder.mill(&["pair", "A", "40", "r1.rec"]).answers("30 70\n");
    folder.mill(&["pair", "A", "39", "r1.rec"]).answers("none\n");
    folder.mill(&["pair", "B", "40", "r1.rec"]).answers("none\n");
    folder.mill(&["pair", "A", "-40", "r1.rec"]).answers("none\n");
    folder.mill(&["pair", "--json", "A", "40", "r1.rec"]).answers("{\"pair\":[30,70]}\n");
    folder.mill(&["pair", "--json", "A", "0", "r1.rec"]).answers("{\"pair\":null}\n");
    folder.mill(&["pair", "A", "2000000001", "r1.rec"]).refused("r1.rec", 12, 0);
    folder.mill(&["pair", "C", "40", "r1.rec"]).troubles("pair: curve 'C' is neither A nor B; see 'mill pair --help'");
    folder.put("257.rec", &bytes(&recordings::with_most_tops(0, 514)));
    folder.mill(&["pair", "A", "40", "257.rec"]).refused("257.rec", 9, 0);
}

#[test]
fn band_tells_two_sets() {
    let folder = Folder::with_recordings("band");
    folder.mill(&["band", "high(A)", "5", "r1.rec"]).answers("certain  -2000000000 85\npossible -2000000000 95\n");
    folder.mill(&["band", "lowafter(A,70)", "5", "r1.rec"]).answers("certain  empty\npossible empty\n");
    let both = "{\"certain\":[35,2000000000],\"possible\":[25,2000000000],\"assured\":null}\n";
    folder.mill(&["band", "--json", "(low(A))", "5", "r1.rec"]).answers(both);
    folder
        .mill(&["band", "--json", "lowafter(A,70)", "5", "r1.rec"])
        .answers("{\"certain\":null,\"possible\":null,\"assured\":null}\n");
    folder.mill(&["band", "high(A)", "-1", "r1.rec"]).refused("r1.rec", 16, 0);
    folder.mill(&["band", "high(A)", "99999999999999999999", "r1.rec"]).refused("r1.rec", 16, 0);
    folder.mill(&["band", "peaks(A)", "5", "r1.rec"]).refused("r1.rec", 17, 0);
    folder.mill(&["band", "high(A)", "five", "r1.rec"]).troubles_with("UNITS 'five' is not a whole number");
}

#[test]
fn order_reads_sheets() {
    let folder = Folder::with_recordings("order");
    let words = ["order", "-", "r3.rec"];
    folder.mill_reads(&words, b"7 16\n").answers("met\n");
    folder.mill_reads(&words, b"").answers("met\n");
    folder.mill_reads(&words, b"# nothing\n\n  \n7 16 # the dispersant\n").answers("met\n");
    folder.mill_reads(&words, b"5 16\n7 16\n# a remark is no line\n9 7").answers("line 2 broken at 20: 9 before 7\n");
    folder.mill_reads(&words, b"\t16   7\r\n").answers("line 0 broken at 20: 16 before 7\n");
    let json = ["order", "--json", "-", "r3.rec"];
    folder.mill_reads(&json, b"7 16\n").answers("{\"order\":\"met\"}\n");
    folder.mill_reads(&json, b"5 16\n").answers("{\"order\":\"broken\",\"line\":0,\"time\":40,\"pigments\":[5,16]}\n");
    for sheet in ["7 17\n", "0 7\n", "7 256\n", "7 99999999999999999999999\n"] {
        folder.mill_reads(&words, sheet.as_bytes()).refused("standard input: line 1", 13, 0);
    }
    // The line of the file, remarks and all, and the first that is to blame.
    folder.mill_reads(&words, b"# remark\n\n7 16\n7 17\n0 1\n").refused("standard input: line 4", 13, 0);
    let told = folder.mill_reads(&json, b"7 16\n17 7\n");
    assert_eq!(json::line(&told.out).at("line"), &json::number(2));
    assert_eq!(json::line(&told.out).at("file"), &json::string("standard input"));
    // As a spreadsheet writes it.
    folder.mill_reads(&words, b"\xef\xbb\xbf7 16\r\n").answers("met\n");
    folder.mill_reads(&words, "7 16\n".repeat(32).as_bytes()).answers("met\n");
    folder.mill_reads(&words, "7 16\n".repeat(33).as_bytes()).refused("standard input: line 33", 13, 0);
    let bad = folder.mill_reads(&words, b"7 16\n7\nx y\n1 2 3\n-1 2\n\xff 3\n");
    let line = |number, said| format!("mill: standard input: line {number}: '{said}' is not two pigments\n");
    let lines = [line(2, "7"), line(3, "x y"), line(4, "1 2 3"), line(5, "-1 2"), line(6, "\u{fffd} 3")].concat();
    assert_eq!((bad.status, bad.text(), bad.err.as_str()), (Some(2), "", lines.as_str()));
}

#[test]
fn lab_answers_of_a_alone() {
    let folder = Folder::with_recordings("lab");
    folder.mill(&["lab", "ask", "peaks(A)", "r1.rec"]).answers("runs 2\n30 30\n70 70\n");
    folder.mill(&["lab", "ask", "-m", "40", "lowafter(A,40)", "r1.rec"]).answers("runs 1\n45 2000000000\n");
    let no_marks = ["r1.rec: it is no tin and has no marks: -m gives those of its thinning"];
    folder.mill(&["lab", "ask", "lowafter(A,40)", "r1.rec"]).refused_with("r1.rec", 14, &no_marks);
    folder.mill(&["lab", "degree", "capafter(A,40)", "3", "r1.rec"]).refused_with("r1.rec", 14, &no_marks);
    folder.mill(&["lab", "ask", "-m", "50", "lowafter(A,40)", "r1.rec"]).refused("r1.rec", 14, 0);
    let page = folder.mill(&["lab", "--help"]);
    assert!(page.text().contains("mill lab degree [-m K].. TEXT") && page.text().contains("-m, --mark K"), "{}", page.text());
    folder.mill(&["lab", "ask", "high(B)", "r1.rec"]).refused("r1.rec", 14, 0);
    folder.mill(&["lab", "ask", "F(A=v)", "r1.rec"]).refused("r1.rec", 14, 0);
    folder.mill(&["lab", "ask", "--mark=2000000001", "high(A)", "r1.rec"]).refused("r1.rec", 11, 0);
    let nine: Vec<String> = (0..9).map(|mark| format!("-m{mark}")).collect();
    let mut words = vec!["lab", "ask", "high(A)", "r1.rec"];
    words.extend(nine.iter().map(String::as_str));
    folder.mill(&words).refused("r1.rec", 11, 0);
    folder.mill(&["lab", "degree", "peaks(A)", "51", "r1.rec"]).answers("distance 19 degree 0.05\n");
    folder.mill(&["lab", "degree", "cross", "51", "r1.rec"]).refused("r1.rec", 14, 0);
    folder.mill(&["lab", "pair", "A", "40", "r1.rec"]).answers("30 70\n");
    folder.mill(&["lab", "pair", "B", "40", "r1.rec"]).refused("r1.rec", 14, 0);
    folder.mill(&["lab", "pair", "--json", "A", "40", "r1.rec"]).answers("{\"pair\":[30,70]}\n");
}

#[test]
fn lab_goes_by_the_marks_beside_the_readings() {
    let folder = Folder::with_recordings("lab_marks");
    folder.mill(&["add", "-m", "40", "kept", "r2.rec"]).answers("taken 9\nheld  7\n");
    let answer = "runs 1\n2 2000000000\n";
    folder.mill(&["lab", "ask", "lowafter(A,40)", "kept"]).answers(answer);
    folder.mill(&["lab", "ask", "-m", "40", "-m", "40", "lowafter(A,40)", "kept"]).answers(answer);
    for words in [["ask", "-m", "10", "peaks(A)", "kept"].to_vec(), ["pair", "-m", "40", "-m", "10", "A", "40", "kept"].to_vec()]
    {
        let ran = folder.mill(&[vec!["lab"], words].concat());
        ran.troubles_with("kept: its marks are 40, and not 10");
    }
    // As it was kept before.
    folder.put("kept", &folder.kept("kept").unwrap());
    folder.put("kept.marks", b"mill marks\n40\n");
    folder.mill(&["lab", "ask", "lowafter(A,40)", "kept"]).answers(answer);
    folder
        .mill(&["lab", "ask", "-m", "10", "lowafter(A,40)", "kept"])
        .troubles("kept: its marks are 40, as kept.marks says, and not 10");
    folder.put("kept.marks", b"nonsense");
    folder.mill(&["lab", "ask", "peaks(A)", "kept"]).troubles("kept.marks: holds no list of marks");
    std::os::unix::fs::symlink("kept", folder.at("link")).unwrap();
    folder.mill(&["lab", "pair", "A", "40", "link"]).troubles_with("kept.marks: holds no list of marks");
}

/// Answers at random beside those of the independent implementation, through the tool's JSON.
#[test]
fn answers_are_those_of_the_independent_implementation() {
    let folder = Folder::new("independent");
    let texts =
        ["peaks(A)", "dips(B)", "cross|crossup", "gaps(A)", "lag", "high(A)&!low(B)", "F(A>B&T=v)", "U(A>=0,A=v)", "steps(B)"];
    let mut answered = 0;
    for case in 0..60 {
        let mut random = Random::of_case("tool answers", case);
        let count = 1 + random.below(40);
        let recording = bytes(&recordings::accepted(&mut random, count));
        let text = random.pick(&texts);
        folder.put("any.rec", &recording);
        let ran = folder.mill(&["ask", "--json", text, "any.rec"]);
        let told = json::line(&ran.out);
        match reference::question(&recording, text.as_bytes(), 2048) {
            Ok(set) => {
                let number = |at: usize| i32::from_le_bytes(set[at..at + 4].try_into().unwrap());
                let runs = (0..set.len())
                    .step_by(8)
                    .map(|at| json::Value::List(vec![json::number(number(at)), json::number(number(at + 4))]));
                assert_eq!(told.at("runs").list(), runs.collect::<Vec<_>>(), "{text}, case {case}");
                answered += 1;
            }
            Err(refused) => assert_eq!(told.at("refused"), &json::number(refused.number), "{text}, case {case}"),
        }
    }
    assert!(answered > 50, "{answered} of 60 cases were answered");
}
