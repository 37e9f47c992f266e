//! `mill verify`: whether tins are whole.

use super::Command;
use crate::arguments::Arguments;
use crate::marks::listed;
use crate::output::Answer;
use crate::source::{Kept, Opened};
use crate::trouble::{plain, shown, Trouble};
use crate::{input, json};
use mill::sys::MILL_RECORD_BYTES;
use std::path::Path;

pub const COMMAND: Command = Command {
    name: "verify",
    operands: "FILE..",
    does: "Tell of each tin whether it is whole.",
    about: "\
A tin is whole if its checksum fits, its readings are a recording, and thinning
under its marks leaves them as they are, but for as many as were pinned. A line
says so of each file. Other files have no checksum: nothing tells whether they are
whole. Status 1 where one is not whole, 2 where one can't be read.
",
    takes: &[],
    run,
};

/// What is said of a file.
struct Verdict {
    whole: bool,
    /// It can't even be read.
    unread: bool,
    words: String,
}

fn run(arguments: &Arguments) -> Result<Answer, Trouble> {
    let ([], files) = arguments.operands_then_files("verify", [], "FILE")?;
    let files: Vec<&Path> = files.into_iter().map(Path::new).collect();
    let verdicts: Vec<Verdict> = files.iter().map(|file| verdict(file)).collect();
    let status = match verdicts.iter().any(|verdict| verdict.unread) {
        true => 2,
        false => u8::from(!verdicts.iter().all(|verdict| verdict.whole)),
    };
    let each = files.iter().zip(&verdicts);
    let text = if arguments.json {
        let mut object = json::Object::new();
        object.truth("whole", status == 0);
        object.raw("files", &json::list(each.map(|(file, verdict)| told(file, verdict))));
        object.line()
    } else {
        each.map(|(file, verdict)| format!("{}: {}\n", shown(file), verdict.words)).collect()
    };
    Ok(Answer::text(text).with_status(status))
}

fn verdict(file: &Path) -> Verdict {
    let not = |words: &str| Verdict { whole: false, unread: false, words: words.to_string() };
    let source = match Opened::new(file, input::recording) {
        Ok(opened) => opened.asked(),
        Err(trouble) => return Verdict { unread: true, ..not(&trouble.about(file)) },
    };
    let source = match source {
        Ok(source) => source,
        Err(trouble) => return not(&trouble.about(file)),
    };
    match (source.counts(), &source.kept) {
        (Some(counts), Kept::Under { marks, .. }) => {
            let held = source.readings.len() / MILL_RECORD_BYTES;
            let taken = counts.taken.map_or("an unknown number of".to_string(), |taken| taken.to_string());
            let pins = if counts.pins > 0 { format!(", {} of them pinned", counts.pins) } else { String::new() };
            let marks = listed(marks);
            Verdict { whole: true, unread: false, words: format!("whole: {held} of {taken} readings{pins}, marks {marks}") }
        }
        (_, Kept::Under { .. }) => not("is no tin, and has no checksum: 'mill add' makes a tin of it"),
        (_, Kept::Doubtful(why)) => not(&format!("is no tin, and {why}")),
        _ => not("is no tin, and has no checksum"),
    }
}

fn told(file: &Path, verdict: &Verdict) -> String {
    let mut object = json::Object::new();
    object.string("file", &plain(file));
    object.truth("whole", verdict.whole);
    object.string("said", &verdict.words);
    object.text()
}
