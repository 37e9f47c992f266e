//! Covers: what all commands have in common. Each has an answer, a refusal, usage errors, trouble with files, JSON, standard input,
//! a page of help, a quiet end on a closed pipe, and a line where standard output is full.

use super::folder::{Folder, Ran, MILL};
use super::json::{self, Value};
use std::fs::File;
use std::path::Path;
use std::process::Stdio;

/// A command with words that are answered, where `FILE` stands for the recording or table, and what is refused with which number.
struct Case {
    name: &'static str,
    words: &'static [&'static str],
    /// A file that is answered.
    file: &'static str,
    /// A file of which the command is refused, and the number; none where the library refuses nothing of a file.
    refused: (&'static str, u32),
}

fn refusing() -> impl Iterator<Item = &'static Case> {
    CASES.iter().filter(|case| case.refused.1 > 0)
}

/// Commands that are unlike the others, and have tests of their own.
const ELSEWHERE: [&str; 3] = ["verify", "pin", "live"];

const CASES: [Case; 20] = [
    Case { name: "ask", words: &["ask", "peaks(A)", "FILE"], file: "r1.rec", refused: ("short.rec", 1) },
    Case { name: "degree", words: &["degree", "peaks(A)", "51", "FILE"], file: "r1.rec", refused: ("bad.rec", 3) },
    Case { name: "pair", words: &["pair", "A", "40", "FILE"], file: "r1.rec", refused: ("bad.rec", 3) },
    Case { name: "band", words: &["band", "high(A)", "5", "FILE"], file: "r1.rec", refused: ("short.rec", 1) },
    Case { name: "order", words: &["order", "sheet", "FILE"], file: "r3.rec", refused: ("none.tin", 4) },
    Case { name: "order", words: &["order", "FILE", "r3.rec"], file: "sheet", refused: ("long_sheet", 13) },
    Case { name: "report", words: &["report", "peaks(A)", "31", "r2.rec", "FILE"], file: "r1.rec", refused: ("bad.rec", 3) },
    Case { name: "entry", words: &["entry", "r2.rec", "FILE"], file: "r1.rec", refused: ("bad.rec", 3) },
    Case { name: "find", words: &["find", "A", "60", "--raw", "FILE"], file: "bare", refused: ("short.rec", 20) },
    Case { name: "ask", words: &["ask", "lowafter(A,40)", "FILE"], file: "r2.tin", refused: ("none.tin", 4) },
    Case { name: "assured", words: &["assured", "lowafter(A,40)", "FILE"], file: "r2.tin", refused: ("", 0) },
    Case { name: "raw", words: &["raw", "FILE"], file: "r2.tin", refused: ("", 0) },
    Case { name: "lab", words: &["lab", "ask", "peaks(A)", "FILE"], file: "r1.rec", refused: ("short.rec", 1) },
    Case { name: "lab", words: &["lab", "degree", "peaks(A)", "51", "FILE"], file: "r1.rec", refused: ("short.rec", 1) },
    Case { name: "lab", words: &["lab", "pair", "A", "40", "FILE"], file: "r1.rec", refused: ("none.tin", 4) },
    Case { name: "show", words: &["show", "FILE"], file: "r1.rec", refused: ("bad.rec", 3) },
    Case { name: "thin", words: &["thin", "-m", "40", "FILE"], file: "r2.rec", refused: ("bad.rec", 3) },
    Case { name: "add", words: &["add", "kept", "FILE"], file: "r2.rec", refused: ("bad.rec", 3) },
    Case { name: "import", words: &["import", "FILE"], file: "r1.csv", refused: ("many.csv", 2) },
    Case { name: "export", words: &["export", "FILE"], file: "r1.rec", refused: ("bad.rec", 3) },
];

fn folder(name: &str) -> Folder {
    let folder = Folder::with_recordings(name);
    let entries = ["r1.rec", "r2.rec"].map(|name| mill::entry(&folder.read(name).unwrap()).unwrap().to_bytes());
    folder.put("bare", entries.as_flattened());
    assert_eq!(folder.mill(&["entry", "-o", "tins", "r1.rec", "r2.rec"]).status, Some(0));
    assert_eq!(folder.mill(&["thin", "-m", "40", "-o", "r2.tin", "r2.rec"]).status, Some(0));
    folder.mill(&["add", "none.tin", "empty.rec"]).answers("taken 0\nheld  0\n");
    folder.put("sheet", b"7 16\n16 7\n");
    folder.put("long_sheet", "7 16\n".repeat(33).as_bytes());
    let header = "time,a,b,slope_a,slope_b\n";
    folder.put("r1.csv", format!("{header}0,40,50,rising,flat\n10,60,50,2,1\n").as_bytes());
    let many: String = (0..4097).map(|time| format!("{time},0,0,flat,flat\n")).collect();
    folder.put("many.csv", format!("{header}{many}").as_bytes());
    folder
}

impl Case {
    fn with<'a>(&self, file: &'a str) -> Vec<&'a str>
    where
        'static: 'a,
    {
        self.words.iter().map(|word| if *word == "FILE" { file } else { *word }).collect()
    }
}

/// Kept readings that a case began are none for the next.
fn anew(folder: &Folder) {
    for name in ["kept", "kept.marks", "kept.lock"] {
        let _ = std::fs::remove_file(folder.at(name));
    }
}

#[track_caller]
fn is_one_line(ran: &Ran, status: i32) {
    assert_eq!(ran.status, Some(status), "mill {}: {}", ran.words, ran.err);
    assert!(ran.out.is_empty(), "mill {}: {}", ran.words, ran.text());
    assert!(ran.err.starts_with("mill: ") && ran.err.ends_with('\n'), "mill {}: {}", ran.words, ran.err);
    assert_eq!(ran.err.lines().count(), 1, "mill {}: {}", ran.words, ran.err);
}

#[test]
fn every_command_of_the_overview_is_tried_here() {
    let folder = folder("overview");
    let page = folder.mill(&["--help"]);
    assert_eq!((page.status, page.err.as_str()), (Some(0), ""));
    let names: Vec<&str> =
        page.text().lines().filter_map(|line| line.strip_prefix("  ")).filter_map(|line| line.split(' ').next()).collect();
    assert!(names.len() >= 19, "{names:?}");
    for name in &names {
        assert!(CASES.iter().any(|case| case.name == *name) || ELSEWHERE.contains(name), "{name} has no case");
    }
    for case in &CASES {
        assert!(names.contains(&case.name), "{} is not in the overview", case.name);
    }
}

#[test]
fn answers_are_on_standard_output_alone() {
    let folder = folder("answers");
    for case in &CASES {
        let ran = folder.mill(&case.with(case.file));
        assert_eq!((ran.status, ran.err.as_str()), (Some(0), ""), "mill {}", ran.words);
        assert!(!ran.out.is_empty(), "mill {}", ran.words);
        anew(&folder);
    }
}

#[test]
fn standard_input_is_as_good_as_a_file() {
    let folder = folder("input");
    for case in &CASES {
        let named = folder.mill(&case.with(case.file));
        anew(&folder);
        let read = folder.mill_reads(&case.with("-"), &folder.read(case.file).unwrap());
        anew(&folder);
        assert_eq!((read.status, &read.err), (named.status, &named.err), "mill {}", read.words);
        let told = String::from_utf8_lossy(&read.out).replace("standard input", case.file);
        assert_eq!(told, String::from_utf8_lossy(&named.out), "mill {}", read.words);
    }
    for case in refusing() {
        let (file, number) = case.refused;
        let read = folder.mill_reads(&case.with("-"), &folder.read(file).unwrap());
        assert_eq!(read.status, Some(1), "mill {}: {}", read.words, read.err);
        assert!(read.err.contains(&format!("refused {number} ")), "mill {}: {}", read.words, read.err);
        anew(&folder);
    }
}

#[test]
fn refusals_have_number_place_and_sentence() {
    let folder = folder("refusals");
    for case in refusing() {
        let (file, number) = case.refused;
        let ran = folder.mill(&case.with(file));
        let place = if number == 3 { 2 } else { 0 };
        match file {
            "long_sheet" => ran.refused("long_sheet: line 33", number, place),
            "many.csv" => ran.refused_with(
                file,
                number,
                &["many.csv: --pieces writes several files, and --into takes the readings into a tin"],
            ),
            _ => ran.refused(file, number, place),
        }
        anew(&folder);
    }
}

#[test]
fn json_is_one_line_for_answers_and_refusals() {
    let folder = folder("json");
    for case in &CASES {
        for place in [1, case.words.len()] {
            let mut words = case.with(case.file);
            words.insert(place, "--json");
            let ran = folder.mill(&words);
            assert_eq!((ran.status, ran.err.as_str()), (Some(0), ""), "mill {}", ran.words);
            assert!(matches!(json::line(&ran.out), Value::Object(members) if !members.is_empty()), "mill {}", ran.words);
            anew(&folder);
        }
    }
    for case in refusing() {
        let (file, number) = case.refused;
        let mut words = case.with(file);
        words.push("--json");
        let ran = folder.mill(&words);
        assert_eq!((ran.status, ran.err.as_str()), (Some(1), ""), "mill {}", ran.words);
        let told = json::line(&ran.out);
        assert_eq!(told.at("refused"), &json::number(number), "mill {}", ran.words);
        assert_eq!(told.at("place"), &json::number(if number == 3 { 2 } else { 0 }), "mill {}", ran.words);
        assert!(matches!(told.at("sentence"), Value::String(words) if words.len() > 10));
        anew(&folder);
    }
}

#[test]
fn json_and_trouble_is_a_line_and_no_json() {
    let folder = folder("json_trouble");
    for case in &CASES {
        let mut words = case.with("no_such_file");
        words.push("--json");
        is_one_line(&folder.mill(&words), 2);
    }
}

#[test]
fn each_has_a_page_of_help() {
    let folder = folder("help");
    for name in CASES.iter().map(|case| case.name).chain(ELSEWHERE) {
        let page = folder.mill(&[name, "--help"]);
        assert_eq!((page.status, page.err.as_str()), (Some(0), ""), "{name}");
        assert!(page.text().starts_with(&format!("Usage: mill {name} ")), "{}", page.text());
        assert!(page.text().contains("Exit status:") && page.text().contains("--json"), "{}", page.text());
        for words in [vec![name, "-h"], vec!["help", name], vec![name, "what", "-h", "ever"]] {
            folder.mill(&words).answers(page.text());
        }
        assert!(page.text().lines().all(|line| line.len() <= 84), "{}", page.text());
    }
    let overview = folder.mill(&["--help"]);
    folder.mill(&["-h"]).answers(overview.text());
    folder.mill(&["help"]).answers(overview.text());
    folder.mill(&["help", "nonsense"]).troubles("no command 'nonsense'; see 'mill --help'");
}

#[test]
fn the_version_is_that_of_the_package() {
    let folder = folder("version");
    folder.mill(&["--version"]).answers(&format!("mill {}\n", env!("CARGO_PKG_VERSION")));
    folder.mill(&["-V"]).answers(&format!("mill {}\n", env!("CARGO_PKG_VERSION")));
}

#[test]
fn usage_errors_are_one_line() {
    let folder = folder("usage");
    folder.mill::<&str>(&[]).troubles("no command; see 'mill --help'");
    folder.mill(&["nonsense"]).troubles("no command 'nonsense'; see 'mill --help'");
    folder.mill(&["two\nlines"]).troubles("no command 'two\\nlines'; see 'mill --help'");
    folder.mill(&["--nonsense"]).troubles("no command '--nonsense'; see 'mill --help'");
    for case in &CASES {
        let words = case.with(case.file);
        // One operand less, whichever is left out at the end, and none at all.
        let many = ["report", "entry"].contains(&case.name);
        let least = if many || case.name == "assured" { words.len() - 1 } else { words.len() };
        for end in 1..least {
            is_one_line(&folder.mill(&words[..end]), 2);
        }
        let with = |more: &'static str| {
            let mut words = words.clone();
            words.insert(1, more);
            words
        };
        folder
            .mill(&with("--nonsense"))
            .troubles(&format!("{}: no option '--nonsense'; see 'mill {} --help'", case.name, case.name));
        folder.mill(&with("-x")).troubles_with("no option '-x'");
        folder.mill(&with("--json=1")).troubles_with("no option '--json=1'");
        if !many {
            let mut words = words.clone();
            words.push("more");
            folder.mill(&words).troubles_with("'more' is one operand too many");
        }
        let marks = ["lab", "show", "thin", "add", "import", "assured"].contains(&case.name);
        let output = ["thin", "import", "export", "entry", "raw"].contains(&case.name);
        let mut marked = words.clone();
        marked.extend(["--mark", "-4"]);
        folder.mill(&marked).troubles_with(if marks { "mark -4 is below 0" } else { "no option '--mark'" });
        let mut written = words.clone();
        written.push("-o");
        folder.mill(&written).troubles_with(if output { "-o wants the name of a file" } else { "no option '-o'" });
        anew(&folder);
    }
    let before = folder.names();
    folder.mill(&["ask", "-", "-"]).troubles_with("can be read only once");
    folder.mill(&["report", "high(A)", "3", "-", "-"]).troubles_with("can be read only once");
    folder.mill(&["add", "-", "r1.rec"]).troubles_with("KEPT must be a file");
    folder.mill(&["lab", "show", "r1.rec"]).troubles_with("ask, degree or pair");
    assert_eq!(folder.names(), before);
}

#[test]
fn operands_that_look_like_options_follow_two_dashes() {
    let folder = folder("dashes");
    folder.put("--json", &folder.read("r1.rec").unwrap());
    folder.mill(&["ask", "--", "peaks(A)", "--json"]).answers("runs 2\n30 30\n70 70\n");
    folder.mill(&["ask", "--", "-x", "r1.rec"]).refused_with("r1.rec", 6, &["  -x", "  ^ a question is wanted here"]);
    folder.mill(&["degree", "peaks(A)", "-5", "r1.rec"]).answers("distance 35 degree 0.027777777777777776\n");
}

#[test]
fn files_that_can_not_be_read_are_named() {
    let folder = folder("unread");
    std::fs::create_dir(folder.at("a_folder")).unwrap();
    std::os::unix::fs::symlink("loop", folder.at("loop")).unwrap();
    for case in &CASES {
        folder.mill(&case.with("no_such_file")).troubles("no_such_file: No such file or directory");
        folder.mill(&case.with("a_folder")).troubles("a_folder: Is a directory");
        folder.mill(&case.with("r1.rec/x")).troubles("r1.rec/x: Not a directory");
        folder.mill(&case.with("loop")).troubles_with("loop: Too many levels of symbolic links");
        folder.mill(&case.with("two\nlines")).troubles("two\\nlines: No such file or directory");
        folder.mill(&case.with("")).troubles("'': No such file or directory");
    }
    for name in ["kept", "kept.marks"] {
        assert_eq!(folder.read(name), None);
    }
}

#[test]
fn a_closed_pipe_ends_it_quietly() {
    let folder = folder("pipe");
    for case in refusing() {
        let mut refused = case.with(case.refused.0);
        refused.push("--json");
        for (words, status) in [(case.with(case.file), 0), (vec![case.name, "--help"], 0), (refused, 1)] {
            let (reader, writer) = std::io::pipe().unwrap();
            drop(reader);
            let child = folder.command(Path::new(MILL), &words).stdout(Stdio::from(writer)).spawn().unwrap();
            let ran = Ran::of(child, &words);
            assert_eq!((ran.status, ran.err.as_str()), (Some(status), ""), "mill {}", ran.words);
            anew(&folder);
        }
    }
}

#[test]
fn a_full_standard_output_is_trouble() {
    let folder = folder("full");
    for case in refusing() {
        let mut refused = case.with(case.refused.0);
        refused.push("--json");
        for words in [case.with(case.file), refused, vec![case.name, "--help"]] {
            let full = File::options().write(true).open("/dev/full").unwrap();
            let child = folder.command(Path::new(MILL), &words).stdout(Stdio::from(full)).spawn().unwrap();
            let ran = Ran::of(child, &words);
            ran.troubles("standard output: No space left on device");
            anew(&folder);
        }
    }
}

#[test]
fn names_are_escaped_in_json() {
    let folder = folder("escaped");
    let name = "a \"b\" \\ \u{7}\u{e9}\u{1f600}\n.rec";
    folder.put(name, b"short");
    let ran = folder.mill(&["ask", "high(A)", "--json", name]);
    assert_eq!(ran.status, Some(1));
    assert_eq!(json::line(&ran.out).at("file"), &json::string(name));
    // On standard error it stays on its line.
    let ran = folder.mill(&["ask", "high(A)", name]);
    ran.refused("a \"b\" \\ \\u{7}\u{e9}\u{1f600}\\n.rec", 1, 0);
}
