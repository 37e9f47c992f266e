//! Covers: what differs where standard error or standard output is a terminal.

use super::folder::{Folder, Ran, MILL};

fn on_terminal(folder: &Folder, descriptor: &str, words: &[&str]) -> Ran {
    let program = folder.compiled("on_terminal");
    let all = [&[descriptor, MILL][..], words].concat();
    Ran::of(folder.command(&program, &all).spawn().unwrap(), &all)
}

#[test]
fn a_report_tells_how_far_it_has_come_on_a_terminal_only() {
    let folder = Folder::with_recordings("progress");
    let words = ["report", "peaks(A)", "30", "r1.rec", "r1.rec", "r1.rec"];
    let figures = "recordings 3\nmet        3\nempty      0\ndistances  0\nmean       1\n";
    folder.mill(&words).answers(figures);
    let ran = on_terminal(&folder, "2", &words);
    assert_eq!((ran.status, ran.text()), (Some(0), figures));
    let wiped = format!("\r{}\r", " ".repeat(24));
    assert_eq!(ran.err, format!("\r0 of 3\r1 of 3\r2 of 3{wiped}"));
    // A refusal stands on a line of its own.
    let ran = on_terminal(&folder, "2", &["report", "peaks(A)", "30", "r1.rec", "bad.rec"]);
    assert_eq!((ran.status, ran.text()), (Some(1), ""));
    assert!(ran.err.starts_with(&format!("\r0 of 2\r1 of 2{wiped}mill: bad.rec: refused 3 2: ")), "{:?}", ran.err);
}

#[test]
fn bytes_are_not_written_to_a_terminal() {
    let folder = Folder::with_recordings("no_bytes");
    for words in [&["thin", "r1.rec"][..], &["thin", "-o", "-", "r1.rec"]] {
        let ran = on_terminal(&folder, "1", words);
        assert_eq!((ran.status, ran.text()), (Some(2), ""));
        assert_eq!(ran.err, "mill: standard output: is a terminal, and the answer is no text: name a file with -o\n");
    }
    let ran = on_terminal(&folder, "1", &["thin", "--json", "r1.rec"]);
    assert!(ran.status == Some(0) && ran.text().starts_with("{\"readings\":["));
    let ran = on_terminal(&folder, "1", &["ask", "peaks(A)", "r1.rec"]);
    assert_eq!((ran.status, ran.text()), (Some(0), "runs 2\r\n30 30\r\n70 70\r\n"));
}
