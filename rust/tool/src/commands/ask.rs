//! `mill ask`: the set that a question is answered with.

use super::Command;
use crate::arguments::Arguments;
use crate::assured::Assurance;
use crate::options::Opt;
use crate::output::Answer;
use crate::trouble::Trouble;
use crate::{input, json, source};
use mill::{Run, Set};
use std::path::Path;

pub const COMMAND: Command = Command {
    name: "ask",
    operands: "TEXT RECORDING",
    does: "Ask a recording: all whole numbers that make a text true.",
    about: "\
TEXT is a question such as 'peaks(A)'; - reads it from standard input, where a
final newline is dropped. The answer is the number of runs, and then the least
and the greatest number of each. 'mill help questions' tells what can be asked.
Of a tin, standard error says where the answer is not assured.
",
    takes: &[Opt::Assured, Opt::ExitCode],
    run,
};

fn run(arguments: &Arguments) -> Result<Answer, Trouble> {
    let [text, recording] = arguments.operands("ask", ["TEXT", "RECORDING"])?;
    let recording = Path::new(recording);
    let text = input::text(text)?;
    let source = source::asked(recording)?;
    let set = mill::question(&source.readings, &text);
    let set = set.map_err(|refusal| Trouble::refused(recording, refusal).of_text(&text))?;
    let assurance = Assurance::of(&source, &text);
    assurance.allows(arguments, recording)?;
    Ok(said(arguments, &set, Some(&assurance)).noting(assurance.note(recording)))
}

/// A set as an answer, and whether it is assured where that is told.
pub fn said(arguments: &Arguments, set: &Set, assurance: Option<&Assurance>) -> Answer {
    let runs = set.runs();
    let text = if arguments.json {
        let mut object = json::Object::new();
        object.raw("runs", &json::list(runs.iter().map(ends)));
        assurance.inspect(|assurance| assurance.put_in(&mut object));
        object.line()
    } else {
        let lines = runs.iter().map(|run| format!("{} {}\n", run.low, run.high));
        format!("runs {}\n{}", runs.len(), lines.collect::<String>())
    };
    Answer::text(text).of_something(arguments, !runs.is_empty())
}

/// A run in JSON.
pub fn ends(run: &Run) -> String {
    format!("[{},{}]", run.low, run.high)
}
