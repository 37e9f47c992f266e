//! `mill find`: the recordings of a summary in which a curve comes up to a level.

use super::Command;
use crate::arguments::{self, Arguments};
use crate::options::Opt;
use crate::output::Answer;
use crate::summary::{self, Summary};
use crate::trouble::{shown, Trouble};
use crate::{input, json, tin};
use mill::sys::MILL_FOUND_BYTES;
use std::ffi::OsStr;
use std::os::unix::ffi::OsStrExt;
use std::path::Path;

pub const COMMAND: Command = Command {
    name: "find",
    operands: "[--raw] CURVE LEVEL SUMMARY",
    does: "The recordings of a summary in which a curve is somewhere at least LEVEL.",
    about: "\
CURVE is A or B, SUMMARY a file that 'mill entry -o' wrote. The answer are the
numbers of the entries, from 0, ascending, each on a line with its name; none where
there is none. With --raw SUMMARY has bare entries, and these have no names. It is
what opening each recording would give.
",
    takes: &[Opt::Raw, Opt::ExitCode],
    run,
};

fn run(arguments: &Arguments) -> Result<Answer, Trouble> {
    let [curve, level, file] = arguments.operands("find", ["CURVE", "LEVEL", "SUMMARY"])?;
    let curve = arguments::curve("find", curve)?;
    let level = arguments::whole("find", "LEVEL", level)?;
    let file = Path::new(file);
    let (entries, names) = match arguments.has(Opt::Raw) {
        true => (bare(file)?, None),
        false => {
            let Summary { entries, names } = summary::in_file(file)?;
            (entries.as_flattened().to_vec(), Some(names))
        }
    };
    let mut out = vec![0; MILL_FOUND_BYTES];
    let length = mill::find_into(&entries, curve, level, &mut out).map_err(|refusal| Trouble::refused(file, refusal))?;
    let (found, _) = out.get(..length).unwrap_or_default().as_chunks();
    let found: Vec<u32> = found.iter().map(|number| u32::from_le_bytes(*number)).collect();
    Ok(Answer::text(said(arguments, &found, names.as_deref())).of_something(arguments, !found.is_empty()))
}

/// Bare entries, and nothing with a head: neither a summary nor a tin, be they damaged.
fn bare(file: &Path) -> Result<Vec<u8>, Trouble> {
    let entries = input::whole(file)?;
    match (tin::is_one(&entries), summary::is_one(&entries)) {
        (true, _) => Err(Trouble::of_file(file, "is a tin, and no summary")),
        (false, true) => Err(Trouble::of_file(file, "is a summary with names: leave --raw out")),
        (false, false) => Ok(entries),
    }
}

fn said(arguments: &Arguments, found: &[u32], names: Option<&[Vec<u8>]>) -> String {
    let name = |number: &u32| names.and_then(|names| names.get(*number as usize)).map(|name| Path::new(OsStr::from_bytes(name)));
    if arguments.json {
        let mut object = json::Object::new();
        object.raw("found", &json::list(found.iter().map(u32::to_string)));
        if names.is_some() {
            object.raw("names", &json::list(found.iter().filter_map(name).map(|name| json::string(&name.to_string_lossy()))));
        }
        return object.line();
    }
    let line = |number: &u32| match name(number) {
        Some(name) => format!("{number} {}\n", shown(name)),
        None => format!("{number}\n"),
    };
    found.iter().map(line).collect()
}
