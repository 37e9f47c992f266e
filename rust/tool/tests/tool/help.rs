//! Covers: pages of help, "did you mean", `--exit-code`, the pages of man and the completions, and the recordings of `examples/`.

use super::folder::Folder;
use crate::support::r1::r1_bytes;
use crate::support::r2::r2_bytes;
use crate::support::r3::r3_bytes;
use std::path::{Path, PathBuf};
use std::process::Command;

fn page(folder: &Folder, words: &[&str]) -> String {
    let ran = folder.mill(words);
    assert_eq!((ran.status, ran.err.as_str()), (Some(0), ""), "mill {}", ran.words);
    ran.text().to_string()
}

fn names(overview: &str) -> Vec<String> {
    overview
        .lines()
        .filter_map(|line| line.strip_prefix("  "))
        .filter_map(|line| line.split(' ').next())
        .map(str::to_string)
        .collect()
}

const PAGES: [&str; 4] = ["questions", "tins", "tables", "refusals"];

#[test]
fn pages_need_no_repository() {
    let folder = Folder::with_recordings("pages");
    let overview = page(&folder, &["help"]);
    for name in PAGES {
        let text = page(&folder, &["help", name]);
        assert!(text.lines().count() > 20 && text.lines().all(|line| line.len() <= 84), "{name}");
        assert!(overview.contains(&format!("'mill help {name}'")), "{name}");
    }
    // Every text that the page of questions shows can be asked, and every name of the language is shown.
    let questions = page(&folder, &["help", "questions"]);
    let shown: Vec<&str> =
        questions.lines().filter_map(|line| line.strip_prefix("  ")).filter_map(|line| line.split(' ').next()).collect();
    assert!(shown.len() >= 25, "{shown:?}");
    for text in &shown {
        let ran = folder.mill(&["ask", text, "r1.rec"]);
        assert_eq!((ran.status, ran.err.as_str()), (Some(0), ""), "{text}");
    }
    for name in [
        "high", "low", "lowafter", "capafter", "peaks", "dips", "cross", "crossup", "dose", "ampl", "gaps", "steps", "lag",
        "fall", "rise",
    ] {
        assert!(questions.contains(name), "{name}");
    }
    // Every refusal of the library is there.
    let refusals = page(&folder, &["help", "refusals"]);
    for number in 1..=20 {
        assert!(refusals.lines().any(|line| line.starts_with(&format!("  {number:>2}  "))), "{number}");
    }
}

#[test]
fn near_words_are_named() {
    let folder = Folder::with_recordings("near");
    folder.mill(&["aks"]).troubles("no command 'aks'; did you mean 'ask'?; see 'mill --help'");
    folder.mill(&["verfiy", "x"]).troubles("no command 'verfiy'; did you mean 'verify'?; see 'mill --help'");
    folder.mill(&["help", "question"]).troubles("no command 'question'; did you mean 'questions'?; see 'mill --help'");
    folder
        .mill(&["ask", "--asured", "x", "y"])
        .troubles("ask: no option '--asured'; did you mean '--assured'?; see 'mill ask --help'");
    folder.mill(&["thin", "--markk", "4"]).troubles("thin: no option '--markk'; did you mean '--mark'?; see 'mill thin --help'");
    folder.mill(&["nonsense"]).troubles("no command 'nonsense'; see 'mill --help'");
    // All that are as near.
    folder.mill(&["help", "tin"]).troubles("no command 'tin'; did you mean 'thin' or 'pin' or 'tins'?; see 'mill --help'");
}

/// The page of a command that takes `--exit-code` tells of the status 3, and so does that of all.
#[test]
fn the_status_of_exit_code_is_told() {
    let folder = Folder::new("status_3");
    let overview = page(&folder, &["help"]);
    let line = "With --exit-code it is 3 where nothing is found, met or fits.\n";
    assert!(overview.ends_with(line), "{overview}");
    for name in names(&overview) {
        let text = page(&folder, &[&name, "--help"]);
        assert_eq!(text.ends_with(line), text.contains("  --exit-code "), "{text}");
    }
}

/// 3 where nothing is found, met or fits, and the same answer.
#[test]
fn scripts_see_where_there_is_nothing() {
    let folder = Folder::with_recordings("exit_code");
    folder.put("met", b"7 16\n");
    folder.put("broken", b"16 7\n");
    assert_eq!(folder.mill(&["entry", "-o", "tins", "r1.rec"]).status, Some(0));
    let cases: [(&[&str], bool); 24] = [
        (&["ask", "peaks(A)", "r1.rec"], true),
        (&["ask", "lag", "r1.rec"], false),
        (&["degree", "peaks(A)", "30", "r1.rec"], true),
        (&["degree", "peaks(A)", "31", "r1.rec"], false),
        (&["degree", "lag", "31", "r1.rec"], false),
        (&["pair", "A", "40", "r1.rec"], true),
        (&["pair", "A", "41", "r1.rec"], false),
        (&["band", "high(A)", "4", "r1.rec"], true),
        (&["band", "lowafter(A,70)", "4", "r1.rec"], false),
        (&["order", "met", "r3.rec"], true),
        (&["order", "broken", "r3.rec"], false),
        (&["report", "peaks(A)", "30", "r1.rec"], true),
        (&["report", "peaks(A)", "31", "r1.rec"], false),
        (&["find", "A", "90", "tins"], true),
        (&["find", "A", "91", "tins"], false),
        (&["lab", "ask", "peaks(A)", "r1.rec"], true),
        (&["lab", "ask", "peaks(A)&dips(A)", "r1.rec"], false),
        (&["lab", "degree", "peaks(A)", "30", "r1.rec"], true),
        (&["lab", "degree", "peaks(A)", "31", "r1.rec"], false),
        (&["lab", "pair", "A", "40", "r1.rec"], true),
        (&["lab", "pair", "A", "41", "r1.rec"], false),
        (&["assured", "peaks(A)"], true),
        (&["assured", "lowafter(A,3)"], false),
        (&["ask", "--json", "lag", "r1.rec"], false),
    ];
    for (words, something) in cases {
        let plain = folder.mill(words);
        assert_eq!(plain.status, Some(0), "mill {}", plain.words);
        let told = folder.mill(&[words, &["--exit-code"]].concat());
        assert_eq!((told.status, &told.out), (Some(if something { 0 } else { 3 }), &plain.out), "mill {}", told.words);
    }
    folder.mill(&["ask", "--exit-code", "high(A)", "bad.rec"]).refused("bad.rec", 3, 2);
}

/// A file beside the source of the tool.
fn source(name: &str) -> (PathBuf, String) {
    let path = Path::new(env!("CARGO_MANIFEST_DIR")).join(name);
    let text = std::fs::read_to_string(&path).unwrap_or_else(|error| panic!("{name}: {error}"));
    (path, text)
}

/// The words of the options that a page of help names.
fn options(page: &str) -> Vec<String> {
    let words = page.lines().filter(|line| line.starts_with("  -") || line.starts_with("      --"));
    words.filter_map(|line| line.split_once("--")).filter_map(|(_, rest)| rest.split(' ').next()).map(str::to_string).collect()
}

#[test]
fn man_pages_and_completions_name_every_command_and_option() {
    let folder = Folder::new("man");
    let overview = page(&folder, &["--help"]);
    let all: Vec<(String, Vec<String>)> =
        names(&overview).into_iter().map(|name| (name.clone(), options(&page(&folder, &[&name, "--help"])))).collect();
    assert!(all.len() >= 19 && all.iter().all(|(_, options)| options.len() >= 2), "{all:?}");
    let (_, man) = source("man/mill.1");
    let (_, format) = source("man/mill.5");
    let (_, fish) = source("completions/mill.fish");
    let (_, zsh) = source("completions/_mill");
    let (bash, bash_text) = source("completions/mill.bash");
    for (name, options) in &all {
        assert!(
            man.contains(&format!(".B mill {name}")) || man.contains(&format!(".BI \"mill {name}")),
            "man/mill.1 lacks {name}"
        );
        assert!(zsh.contains(&format!("'{name}:")), "_mill lacks {name}");
        assert!(fish.contains(&format!("-a {name} ")), "mill.fish lacks {name}");
        for option in options.iter().filter(|option| *option != "help" && *option != "json") {
            assert!(man.contains(&format!("\\-\\-{}", option.replace('-', "\\-"))), "man/mill.1 lacks --{option}");
            assert!(zsh.contains(&format!("--{option}")), "_mill lacks --{option}");
            assert!(fish.contains(&format!("-l {option}")), "mill.fish lacks --{option}");
            assert!(bash_text.contains(&format!("--{option}")), "mill.bash lacks --{option}");
        }
    }
    for word in PAGES {
        assert!(man.contains(word) && zsh.contains(word) && fish.contains(word) && bash_text.contains(word), "{word}");
    }
    for offset in ["0", "16", "20", "24", "28", "32", "36", "40", "48", "80", "120", "128"] {
        assert!(format.contains(offset), "man/mill.5 lacks {offset}");
    }
    assert!(man.contains(&format!("mill {}", env!("CARGO_PKG_VERSION"))), "man/mill.1 has another version");
    // Bash itself completes.
    let complete = |typed: &str| {
        let script = format!(
            "source '{}'; COMP_WORDS=({typed}); COMP_CWORD=$((${{#COMP_WORDS[@]}} - 1)); _mill; printf '%s\\n' \"${{COMPREPLY[@]}}\"",
            bash.display()
        );
        let output = Command::new("bash").args(["-c", &script]).current_dir(&folder.path).output().unwrap();
        assert!(output.status.success(), "{}", String::from_utf8_lossy(&output.stderr));
        String::from_utf8(output.stdout).unwrap().split_whitespace().map(str::to_string).collect::<Vec<_>>()
    };
    let mut every: Vec<String> = all.iter().map(|(name, _)| name.clone()).chain(["help".to_string()]).collect();
    every.sort();
    let mut found = complete("mill ''");
    found.sort();
    assert_eq!(found, every);
    assert_eq!(complete("mill ver"), ["verify"]);
    assert_eq!(complete("mill help que"), ["questions"]);
    assert_eq!(complete("mill lab d"), ["degree"]);
    for (name, options) in &all {
        let mut found = complete(&format!("mill {name} --"));
        found.sort();
        let mut expected: Vec<String> = options.iter().map(|option| format!("--{option}")).collect();
        expected.sort();
        assert_eq!(found, expected, "{name}");
    }
}

/// Where the programs are there that read these.
#[test]
fn others_read_them_without_a_word() {
    let quiet = |program: &str, words: &[&str], file: &str| match Command::new(program).args(words).arg(source(file).0).output() {
        Ok(output) => assert_eq!((output.status.success(), String::from_utf8_lossy(&output.stderr).trim()), (true, ""), "{file}"),
        Err(_) => println!("{program} is not there"),
    };
    for page in ["man/mill.1", "man/mill.5"] {
        quiet("groff", &["-man", "-ww", "-z", "-Tutf8"], page);
        quiet("mandoc", &["-Tlint", "-Werror"], page);
    }
    quiet("bash", &["-n"], "completions/mill.bash");
    quiet("zsh", &["-n"], "completions/_mill");
    quiet("fish", &["-n"], "completions/mill.fish");
}

#[test]
fn the_recordings_of_the_page_are_among_the_examples() {
    let examples = Path::new(env!("CARGO_MANIFEST_DIR")).join("../../examples");
    for (name, bytes) in [("r1.rec", r1_bytes()), ("r2.rec", r2_bytes()), ("r3.rec", r3_bytes())] {
        assert_eq!(std::fs::read(examples.join(name)).unwrap(), bytes, "{name}");
    }
}
