//! `mill export`: a recording as CSV.

use super::Command;
use crate::arguments::Arguments;
use crate::options::Opt;
use crate::output::{made, Answer};
use crate::trouble::Trouble;
use crate::{csv, json, readings, source};
use std::path::Path;

pub const COMMAND: Command = Command {
    name: "export",
    operands: "[--force] [-o FILE] RECORDING",
    does: "Write a recording as CSV.",
    about: "\
The first line is time,a,b,slope_a,slope_b,pigment; then each reading has a line.
Slopes are falling, flat and rising, pigment 0 is none. 'mill import' takes it back.
",
    takes: &[Opt::Output, Opt::Force],
    run,
};

fn run(arguments: &Arguments) -> Result<Answer, Trouble> {
    let [recording] = arguments.operands("export", ["RECORDING"])?;
    let recording = Path::new(recording);
    let all = mill::decode(&source::read(recording)?.readings).map_err(|refusal| Trouble::refused(recording, refusal))?;
    let file = match arguments.json && arguments.output.is_none() {
        true => Answer::text(readings::listed(&all)),
        false => Answer::text(csv::written(&all)),
    };
    made(arguments, file, || count(arguments, all.len()))
}

/// How many readings a file has that was written.
pub fn count(arguments: &Arguments, readings: usize) -> String {
    if arguments.json {
        let mut object = json::Object::new();
        object.number("readings", readings);
        return object.line();
    }
    format!("readings {readings}\n")
}
