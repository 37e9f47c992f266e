//! Covers: `docs/TOOL.md`. Its blocks ```` ```console ```` hold lines that begin with `$ `, each with what is printed below it, on standard
//! output and standard error alike. They are run by a shell one after another, in one folder.

use super::folder::{Folder, MILL};
use std::path::Path;
use std::process::{Command, Stdio};

const PAGE: &str = include_str!("../../../../docs/TOOL.md");

struct Example {
    line: usize,
    typed: String,
    printed: String,
}

fn examples() -> Vec<Example> {
    let (mut examples, mut inside) = (Vec::<Example>::new(), false);
    for (line, text) in (1..).zip(PAGE.lines()) {
        match (inside, text.strip_prefix("$ ")) {
            (false, _) => inside = text == "```console",
            (true, Some(typed)) => examples.push(Example { line, typed: typed.to_string(), printed: String::new() }),
            (true, None) if text == "```" => inside = false,
            (true, None) => {
                let last = examples.last_mut().unwrap_or_else(|| panic!("line {line} is below no example"));
                last.printed.extend([text, "\n"]);
            }
        }
    }
    examples
}

#[test]
fn the_examples_print_what_the_page_says() {
    let folder = Folder::new("page");
    for example in std::fs::read_dir(Path::new(env!("CARGO_MANIFEST_DIR")).join("../../examples")).unwrap() {
        let example = example.unwrap();
        std::fs::copy(example.path(), folder.at(&example.file_name().to_string_lossy())).unwrap();
    }
    let path = format!("{}:{}", Path::new(MILL).parent().unwrap().display(), std::env::var("PATH").unwrap());
    let examples = examples();
    assert!(examples.len() >= 100, "{} examples", examples.len());
    for Example { line, typed, printed } in examples {
        let mut shell = Command::new("/bin/sh");
        shell.args(["-c", &format!("exec 2>&1\n{typed}")]).current_dir(&folder.path).env("PATH", &path).stdin(Stdio::null());
        let output = shell.output().unwrap();
        assert_eq!(String::from_utf8_lossy(&output.stdout), printed, "docs/TOOL.md, line {line}: {typed}");
    }
}

#[test]
fn every_command_has_an_example() {
    let folder = Folder::new("page_commands");
    let page = folder.mill(&["--help"]);
    let names = page.text().lines().filter_map(|line| line.strip_prefix("  ")).filter_map(|line| line.split(' ').next());
    let examples = examples();
    for name in names {
        for json in [false, true] {
            let shown = |example: &&Example| {
                example.typed.contains(&format!("mill {name}")) && (!json || example.typed.contains("--json"))
            };
            assert!(examples.iter().any(|example| shown(&example)), "{name} has no example, with JSON: {json}");
        }
    }
}
