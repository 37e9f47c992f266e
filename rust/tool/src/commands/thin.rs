//! `mill thin`: the kept readings of a recording.

use super::Command;
use crate::arguments::Arguments;
use crate::options::Opt;
use crate::output::{made, Answer};
use crate::source::{Kept, Source};
use crate::tin::Tin;
use crate::trouble::Trouble;
use crate::{json, marks, noise, readings, source};
use mill::sys::MILL_RECORD_BYTES;
use std::path::Path;

pub const COMMAND: Command = Command {
    name: "thin",
    operands: "[-m K].. [--raw] [--force] [-o TIN] RECORDING",
    does: "Thin a recording to the readings that are kept.",
    about: "\
The kept readings answer as the recording does what 'mill assured' says. With -o
they are written to a tin, or with --raw as bare readings, and the answer is how
many readings there were and how many are kept. Without -o they are the answer, as
bare bytes, and with --json in words. A tin is thinned under its own marks, or
under some of them. To take a recording piece by piece use 'mill add'.
",
    takes: &[Opt::Mark, Opt::Output, Opt::Raw, Opt::Force],
    run,
};

fn run(arguments: &Arguments) -> Result<Answer, Trouble> {
    let [recording] = arguments.operands("thin", ["RECORDING"])?;
    let recording = Path::new(recording);
    let refused = |refusal| Trouble::refused(recording, refusal);
    let source = source::read(recording)?;
    let marks = marks_for(recording, &source, &arguments.marks)?;
    let kept = mill::thin(&source.readings, &marks).map_err(refused)?;
    let [full, count] = [source.readings.len(), kept.len()].map(|bytes| bytes / MILL_RECORD_BYTES);
    // Of kept readings only a tin tells how many they were taken from.
    let taken = match &source.kept {
        Kept::Under { tin, .. } => tin.and_then(|counts| counts.taken),
        _ => Some(full as u64),
    };
    let tin = Tin { marks: marks::plain(&marks), taken, pins: 0, readings: kept };
    let notes = noise::of_tin(recording, &tin);
    let file = match (&arguments.output, arguments.json) {
        (None, true) => Answer::text(readings::listed(&mill::decode(&tin.readings).map_err(refused)?)),
        (Some(_), _) if !arguments.has(Opt::Raw) => Answer::bytes(tin.bytes()),
        _ => Answer::bytes(tin.readings),
    };
    let answer = made(arguments, file, || {
        if arguments.json {
            let mut object = json::Object::new();
            object.number("readings", full);
            object.number("kept", count);
            return object.line();
        }
        format!("readings {full}\nkept     {count}\n")
    });
    answer.map(|answer| answer.noting(notes))
}

/// The marks to thin with. Kept readings may lack what other marks than their own would keep; where it is not known whether they
/// are those of the marks beside them, a tin of them would promise what they may not hold.
fn marks_for(file: &Path, source: &Source, given: &[u32]) -> Result<Vec<u32>, Trouble> {
    match &source.kept {
        Kept::Under { marks: own, .. } if given.iter().all(|mark| own.contains(mark)) => {
            Ok(if given.is_empty() { own.clone() } else { given.to_vec() })
        }
        Kept::Under { .. } => source.marks(file, given),
        Kept::Doubtful(why) => Err(Trouble::of_file(file, why)),
        Kept::Unknown => Ok(given.to_vec()),
    }
}
