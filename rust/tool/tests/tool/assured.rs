//! Covers: whether an answer from kept readings is assured, as the library says it, and the reason in plain words.

use super::folder::Folder;
use super::json::{self, Value};
use crate::support::random::Random;
use crate::support::{recordings, texts};
use reference::kept::mark_bytes;
use reference::recording::bytes;

fn folder(name: &str) -> Folder {
    let folder = Folder::with_recordings(name);
    folder.mill(&["add", "-m", "40", "tin", "r2.rec"]).answers("taken 9\nheld  7\n");
    folder
}

#[test]
fn the_reason_is_told_in_plain_words() {
    let folder = folder("reason");
    assert_eq!(folder.mill(&["thin", "-o", "unmarked", "r2.rec"]).status, Some(0));
    assert_eq!(folder.mill(&["thin", "-m10", "-m40", "-o", "two", "r2.rec"]).status, Some(0));
    let reasons = [
        ("tin", "lowafter(A,10)", "10 is no mark of it; its marks are 40"),
        ("two", "capafter(B,50)&lowafter(A,60)", "50 and 60 are no marks of it; its marks are 10 40"),
        ("unmarked", "lowafter(A,40)", "40 is no mark of it; it has no marks"),
        ("tin", "lowafter(A,-5)", "-5 is no mark of it; its marks are 40"),
        ("tin", "F(T>10&A<=v)", "10 is no mark of it; its marks are 40"),
        ("tin", "F(A=9&X(A=v))", "F(A=9&X(A=v)) may depend on readings that were not kept"),
        ("tin", "F(P=7&A=v)|G(A=v|B>=v|A<=v&B<=v)", "G(A=v|B>=v|A<=v&B<=v) may depend on readings that were not kept"),
        ("tin", "X(A=v|A=1|A=2|A=3|A=4|A=5)", "X(A=v|A=1|A=2|A=3|A=4..) may depend on readings that were not kept"),
        ("tin", "F(P=7&A=v)|A=v", "its parts together may depend on readings that were not kept: ask them one by one"),
    ];
    for (file, text, reason) in reasons {
        let line = format!("mill: {file}: not assured: {reason}\n");
        let ran = folder.mill(&["ask", text, file]);
        assert_eq!((ran.status, ran.err.as_str()), (Some(0), line.as_str()), "{text}");
        // The answer is the one that the bare readings give.
        folder.put("bare", &folder.kept(file).unwrap());
        assert_eq!(folder.mill(&["ask", text, "bare"]).out, ran.out);
        let refused = folder.mill(&["ask", "--assured", text, file]);
        assert_eq!((refused.status, refused.text(), refused.err.as_str()), (Some(1), "", line.as_str()), "{text}");
        folder.mill(&["assured", text, file]).answers(&format!("not assured: {reason}\n"));
    }
}

#[test]
fn what_is_assured_gets_no_line() {
    let folder = folder("no_line");
    for text in ["lowafter(A,40)", "peaks(A)", "F(P=7&A=v)", "F(T>40&A<=v)", "G(!(T>40)|A<=v)", "F(G(A=v))", "A>=v&F(P=3)"] {
        for more in [&[][..], &["--assured"]] {
            let ran = folder.mill(&[&["ask", text, "tin"][..], more].concat());
            assert_eq!((ran.status, ran.err.as_str()), (Some(0), ""), "{text}");
            assert_eq!(ran.out, folder.mill(&["ask", text, "r2.rec"]).out, "{text}");
        }
        folder.mill(&["assured", text, "tin"]).answers("assured\n");
    }
}

#[test]
fn json_tells_true_false_and_null() {
    let folder = folder("json_assured");
    for (command, text, number) in
        [("ask", "T=v", None), ("degree", "lowafter(A,40)", Some("3")), ("band", "lowafter(A,40)", Some("3"))]
    {
        let words = |text: &'static str, file: &'static str| {
            let mut words = vec![command, "--json", text];
            words.extend(number);
            words.push(file);
            words
        };
        let other = if command == "ask" { "F(A=v)&F(B=v)" } else { "lowafter(A,10)" };
        for (text, file, told) in
            [(text, "tin", Value::Truth(true)), (other, "tin", Value::Truth(false)), (other, "r2.rec", Value::Null)]
        {
            let ran = folder.mill(&words(text, file));
            assert_eq!(ran.status, Some(0), "mill {}", ran.words);
            assert_eq!(json::line(&ran.out).at("assured"), &told, "mill {}", ran.words);
            assert_eq!(
                ran.err.starts_with(&format!("mill: {file}: not assured: ")),
                told == Value::Truth(false),
                "mill {}",
                ran.words
            );
        }
        let ran = folder.mill(&[&words(other, "tin")[..], &["--assured"]].concat());
        assert_eq!((ran.status, ran.err.as_str()), (Some(1), ""));
        let told = json::line(&ran.out);
        assert_eq!((told.at("assured"), told.at("file")), (&Value::Truth(false), &json::string("tin")));
        assert!(matches!(told.at("reason"), Value::String(reason) if reason.len() > 10));
    }
}

/// Nothing tells whether a bare recording is all; with `--assured` only what is assured is answered.
#[test]
fn bare_readings_are_not_assured() {
    let folder = folder("bare_assured");
    for words in [&["ask", "peaks(A)"][..], &["degree", "peaks(A)", "4"], &["band", "high(A)", "4"], &["report", "peaks(A)", "4"]]
    {
        let ran = folder.mill(&[words, &["--assured", "r2.rec"]].concat());
        let line = "mill: r2.rec: not assured: it is no tin, and nothing tells which readings it lacks\n";
        assert_eq!((ran.status, ran.text(), ran.err.as_str()), (Some(1), "", line));
        assert_eq!(folder.mill(&[words, &["--assured", "tin"]].concat()).status, Some(0));
    }
}

/// Readings with their marks beside them, as they were kept before.
#[test]
fn a_pair_of_before_is_assured_by_its_marks() {
    let folder = folder("pair_assured");
    folder.put("pair", &folder.kept("tin").unwrap());
    folder.put("pair.marks", b"mill marks\n40\n");
    folder.mill(&["ask", "--assured", "lowafter(A,40)", "pair"]).answers("runs 1\n2 2000000000\n");
    let ran = folder.mill(&["ask", "lowafter(A,10)", "pair"]);
    ran.answers_noting("runs 1\n2 2000000000\n", "pair: not assured: 10 is no mark of it; its marks are 40");
    folder.put("pair", &folder.read("r2.rec").unwrap());
    let ran = folder.mill(&["ask", "peaks(A)", "pair"]);
    ran.answers_noting("runs 1\n40 40\n", "pair: not assured: its readings are not those kept under its marks");
    folder.put("pair.marks", b"some notes\n");
    let ran = folder.mill(&["ask", "peaks(A)", "pair"]);
    ran.answers_noting("runs 1\n40 40\n", "pair: not assured: pair.marks holds no list of marks");
}

#[test]
fn a_report_counts_the_files_concerned() {
    let folder = folder("report_assured");
    assert_eq!(folder.mill(&["add", "-m", "10", "other", "r3.rec"]).status, Some(0));
    let words = ["report", "lowafter(A,20)", "3", "tin", "r1.rec", "other"];
    let ran = folder.mill(&words);
    let lines = "mill: tin: not assured: 20 is no mark of it; its marks are 40\nmill: 2 of 3 recordings are not assured\n";
    assert_eq!((ran.status, ran.err.as_str()), (Some(0), lines));
    let told = json::line(&folder.mill(&[&words[..], &["--json"]].concat()).out);
    assert_eq!((told.at("assured"), told.at("not_assured")), (&Value::Truth(false), &json::number(2)));
    let ran = folder.mill(&["report", "lowafter(A,40)", "3", "tin", "other"]);
    assert_eq!(ran.err, "mill: other: not assured: 40 is no mark of it; its marks are 10\n");
    let told = json::line(&folder.mill(&["report", "--json", "peaks(A)", "3", "tin", "other"]).out);
    assert_eq!((told.at("assured"), told.at("not_assured")), (&Value::Truth(true), &json::number(0)));
    let told = json::line(&folder.mill(&["report", "--json", "peaks(A)", "3", "tin", "r1.rec"]).out);
    assert_eq!(told.at("assured"), &Value::Null);
    let ran = folder.mill(&[&words[..], &["--assured"]].concat());
    assert_eq!((ran.status, ran.text()), (Some(1), ""));
}

/// `order`, `pair`, `entry` and `show` are the same from kept readings, whatever the marks.
#[test]
fn others_need_no_line() {
    let folder = folder("others");
    folder.put("sheet", b"7 16\n");
    for words in
        [&["order", "sheet", "tin"][..], &["pair", "A", "10", "tin"], &["entry", "tin"], &["show", "tin"], &["export", "tin"]]
    {
        assert_eq!(folder.mill(words).err, "");
    }
}

#[test]
fn the_call_itself_is_asked() {
    let folder = folder("call");
    folder.mill(&["assured", "lowafter(A,40)", "-m", "40"]).answers("assured\n");
    folder.mill(&["assured", "lowafter(A,40)"]).answers("not assured: 40 is no mark of it; it has no marks\n");
    folder.mill(&["assured", "--json", "lowafter(A,40)", "-m40"]).answers("{\"assured\":true}\n");
    let json = "{\"assured\":false,\"reason\":\"40 is no mark of it; its marks are 50\"}\n";
    folder.mill(&["assured", "--json", "lowafter(A,40)", "-m50"]).answers(json);
    folder.mill_reads(&["assured", "-"], b"peaks(A)\n").answers("assured\n");
    folder.mill(&["assured", "", "-m40"]).refused("", 5, 0);
    folder.mill(&["assured", "peaks(C)"]).refused("", 6, 0);
    let brackets = format!("{}A>=v{}", "(".repeat(17), ")".repeat(17));
    folder.mill(&["assured", &brackets, "-m", "2000000001"]).refused("", 7, 0);
    folder.mill(&["assured", "high(A)", "-m", "2000000001"]).refused("", 11, 0);
    folder.mill(&["assured", "high(A)", "r1.rec"]).troubles("r1.rec: is no tin, and has no marks");
    folder.mill(&["assured", "high(A)", "tin", "-m", "10"]).troubles("tin: its marks are 40, and not 10");
    folder
        .mill(&["assured", "lowafter(A,10)", "tin", "--exit-code"])
        .with_status(3, "not assured: 10 is no mark of it; its marks are 40\n");
}

/// What is called assured is answered alike by the recording and by its tin, text by text, at random.
#[test]
fn assured_answers_are_those_of_the_recording() {
    let (mut assured, mut differing) = (0, 0);
    for case in 0..400 {
        let mut random = Random::of_case("tool assured", case);
        let count = 2 + random.below(40);
        let records = recordings::accepted(&mut random, count);
        let marks = recordings::marks(&mut random, &records);
        let recording = bytes(&records);
        let kept = reference::thin(&recording, &mark_bytes(&marks), recording.len()).unwrap();
        let kind = random.pick(&[texts::Kind::Listed, texts::Kind::Temporal]);
        let size = 1 + random.below(6);
        let text = texts::made(&mut random, kind, size, &records);
        let plain: Vec<u32> = marks.iter().map(|mark| *mark as u32).collect();
        let [full, held] = [&recording, &kept].map(|bytes| mill::question(bytes, text.as_bytes()));
        match mill::assured(text.as_bytes(), &plain) {
            Ok(true) => {
                assert_eq!(full, held, "case {case}: {text}");
                assured += 1;
            }
            Ok(false) => differing += usize::from(full != held),
            Err(refusal) => assert_eq!(full, Err(refusal), "case {case}: {text}"),
        }
    }
    assert!(assured >= 50, "{assured} were assured");
    println!("{assured} assured and alike; {differing} not assured and not alike");
}
