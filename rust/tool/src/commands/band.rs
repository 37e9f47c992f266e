//! `mill band`: what a question says of readings that are good to plus or minus some units.

use super::{ask, Command};
use crate::arguments::{self, Arguments};
use crate::assured::Assurance;
use crate::options::Opt;
use crate::output::Answer;
use crate::trouble::Trouble;
use crate::{input, json, source};
use mill::{Band, Run};
use std::path::Path;

pub const COMMAND: Command = Command {
    name: "band",
    operands: "TEXT UNITS RECORDING",
    does: "What a question says if the head is good to plus or minus UNITS.",
    about: "\
TEXT is high, low, lowafter, capafter or ampl alone, UNITS 0 to 1,000,000. The
answer is the least and the greatest number that is certain, then those that are
possible, or 'empty'. Of a tin, standard error says where it is not assured.
",
    takes: &[Opt::Assured, Opt::ExitCode],
    run,
};

fn run(arguments: &Arguments) -> Result<Answer, Trouble> {
    let [text, units, recording] = arguments.operands("band", ["TEXT", "UNITS", "RECORDING"])?;
    let units = arguments::whole("band", "UNITS", units)?;
    let recording = Path::new(recording);
    let text = input::text(text)?;
    let source = source::asked(recording)?;
    let band = mill::band(&source.readings, &text, units);
    let band = band.map_err(|refusal| Trouble::refused(recording, refusal).of_text(&text))?;
    let assurance = Assurance::of(&source, &text);
    assurance.allows(arguments, recording)?;
    let answer = Answer::text(said(arguments, band, &assurance)).noting(assurance.note(recording));
    Ok(answer.of_something(arguments, band.possible.is_some()))
}

fn said(arguments: &Arguments, band: Band, assurance: &Assurance) -> String {
    if arguments.json {
        let mut object = json::Object::new();
        for (name, run) in [("certain", band.certain), ("possible", band.possible)] {
            object.raw(name, &run.as_ref().map_or("null".to_string(), ask::ends));
        }
        assurance.put_in(&mut object);
        return object.line();
    }
    let [certain, possible] = [band.certain, band.possible].map(words);
    format!("certain  {certain}\npossible {possible}\n")
}

fn words(run: Option<Run>) -> String {
    run.map_or("empty".to_string(), |run| format!("{} {}", run.low, run.high))
}
