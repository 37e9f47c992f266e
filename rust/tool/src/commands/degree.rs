//! `mill degree`: how near a question's set comes to a wanted number.

use super::Command;
use crate::arguments::{self, Arguments};
use crate::assured::Assurance;
use crate::options::Opt;
use crate::output::Answer;
use crate::trouble::Trouble;
use crate::{input, json, source};
use mill::Degree;
use std::path::Path;

pub const COMMAND: Command = Command {
    name: "degree",
    operands: "TEXT TARGET RECORDING",
    does: "How near the numbers of a question come to a wanted one.",
    about: "\
The answer is 'met' where TARGET is one of them; else the distance to the nearest
and the degree, 1 / (1 + distance); or 'no value' where there is none. Of a tin,
standard error says where the answer is not assured.
",
    takes: &[Opt::Assured, Opt::ExitCode],
    run,
};

fn run(arguments: &Arguments) -> Result<Answer, Trouble> {
    let [text, target, recording] = arguments.operands("degree", ["TEXT", "TARGET", "RECORDING"])?;
    let target = arguments::whole("degree", "TARGET", target)?;
    let recording = Path::new(recording);
    let text = input::text(text)?;
    let source = source::asked(recording)?;
    let degree = mill::degree(&source.readings, &text, target);
    let degree = degree.map_err(|refusal| Trouble::refused(recording, refusal).of_text(&text))?;
    let assurance = Assurance::of(&source, &text);
    assurance.allows(arguments, recording)?;
    Ok(said(arguments, degree, Some(&assurance)).noting(assurance.note(recording)))
}

/// A degree as an answer, and whether it is assured where that is told.
pub fn said(arguments: &Arguments, degree: Degree, assurance: Option<&Assurance>) -> Answer {
    let text = if arguments.json {
        let mut object = json::Object::new();
        object.string("answer", word(degree));
        put_in(degree, &mut object);
        assurance.inspect(|assurance| assurance.put_in(&mut object));
        object.line()
    } else {
        match degree {
            Degree::Met => "met\n".to_string(),
            Degree::Short { distance, degree } => format!("distance {distance} degree {degree}\n"),
            Degree::NoValue => "no value\n".to_string(),
        }
    };
    Answer::text(text).of_something(arguments, degree == Degree::Met)
}

fn word(degree: Degree) -> &'static str {
    match degree {
        Degree::Met => "met",
        Degree::Short { .. } => "short",
        Degree::NoValue => "no value",
    }
}

/// The distance and the degree, where there are any.
pub fn put_in(degree: Degree, object: &mut json::Object) {
    if let Degree::Short { distance, degree } = degree {
        object.number("distance", distance);
        object.number("degree", degree);
    }
}
