//! `mill import`: a recording from a table.

use super::{export, Command};
use crate::arguments::{usage, Arguments};
use crate::hints::Hint;
use crate::layout::Layout;
use crate::options::Opt;
use crate::output::{made, may_write, save, Answer};
use crate::replace::{folder_of, named_beside};
use crate::source::{Kept, Source};
use crate::store::can_be_kept;
use crate::take::take;
use crate::trouble::{shown, Trouble};
use crate::{csv, input, json, readings};
use mill::sys::{MILL_MAX_RECORDS, MILL_RECORD_BYTES};
use mill::Refusal;
use std::ffi::OsStr;
use std::os::unix::ffi::OsStrExt;
use std::path::Path;

pub const COMMAND: Command = Command {
    name: "import",
    operands: "[OPTION].. [-o FILE] CSV",
    does: "Make a recording of a table.",
    about: "\
The first line names the columns: time, a, b, slope_a, slope_b and, if there is
one, pigment, in any order. Slopes are falling, flat and rising, or 0, 1 and 2.
Bad lines are named with their numbers, the first 100 of them, and then nothing is
written. Where a table has other names for its columns, --columns says which is
which, and all others are let be. A clock goes on past midnight. With --slopes the
slopes are worked out: rising where a value is over DEAD more than at the reading
before, falling where it is less, else flat; the first is flat. A table of more
than 4,096 lines is written in --pieces, or taken --into a tin under its marks.
",
    takes: &[
        Opt::Output,
        Opt::Force,
        Opt::Delimiter,
        Opt::Decimal,
        Opt::Scale,
        Opt::Time,
        Opt::Columns,
        Opt::Slopes,
        Opt::Pieces,
        Opt::Into,
        Opt::Mark,
    ],
    run,
};

fn run(arguments: &Arguments) -> Result<Answer, Trouble> {
    let [file] = arguments.operands("import", ["CSV"])?;
    let file = Path::new(file);
    let layout = Layout::of(arguments)?;
    let into = arguments.value(Opt::Into).map(Path::new);
    match (into, &arguments.output, arguments.has(Opt::Pieces)) {
        (Some(_), Some(_), _) | (Some(_), _, true) => return Err(usage("import", "--into goes with no -o")),
        (None, None, true) => return Err(usage("import", "--pieces wants a file, with -o")),
        (None, ..) if !arguments.marks.is_empty() => return Err(usage("import", "-m goes with --into")),
        _ => (),
    }
    if let Some(tin) = into {
        can_be_kept("import", "TIN", tin)?;
    }
    let table = csv::parsed(&input::whole(file)?, &layout).map_err(|bad| bad.of(file))?;
    let let_be = (!table.let_be.is_empty()).then(|| format!("mill: {}: columns let be: {}", shown(file), named(&table.let_be)));
    let recording = mill::encode(&table.readings);
    let answer = match (into, &arguments.output) {
        (Some(tin), _) => take(arguments, tin, file, Source { readings: recording, kept: Kept::Unknown }),
        (None, Some(name)) if arguments.has(Opt::Pieces) => pieces(arguments, name, &recording),
        _ => one(arguments, file, table.readings, recording),
    };
    answer.map(|answer| answer.noting(let_be))
}

/// Names on one line.
fn named(names: &[String]) -> String {
    names.iter().map(|name| shown(Path::new(name))).collect::<Vec<_>>().join(", ")
}

/// One recording.
fn one(arguments: &Arguments, file: &Path, all: Vec<mill::Reading>, recording: Vec<u8>) -> Result<Answer, Trouble> {
    // The library has the last word on what is a recording.
    mill::decode(&recording).map_err(|refusal| match refusal {
        Refusal::TooManyRecords => Trouble::refused(file, refusal)
            .hinting(Some(Hint::of_words("--pieces writes several files, and --into takes the readings into a tin"))),
        refusal => Trouble::refused(file, refusal),
    })?;
    let count = all.len();
    let answer = match arguments.json && arguments.output.is_none() {
        true => Answer::text(readings::listed(&all)),
        false => Answer::bytes(recording),
    };
    made(arguments, answer, || export::count(arguments, count))
}

/// Several, each of as many readings as a recording has, the last of the rest.
fn pieces(arguments: &Arguments, name: &Path, recording: &[u8]) -> Result<Answer, Trouble> {
    let all: Vec<&[u8]> = recording.chunks(MILL_MAX_RECORDS * MILL_RECORD_BYTES).collect();
    let names: Vec<_> = (1..=all.len()).map(|number| named_beside(name, &format!("-{number}"))).collect();
    // All of them, before the first is written.
    names.iter().try_for_each(|name| may_write(arguments, name))?;
    none_behind(name, all.len())?;
    for (name, piece) in names.iter().zip(&all) {
        save(arguments, name, piece)?;
    }
    let readings = recording.len() / MILL_RECORD_BYTES;
    if arguments.json {
        let mut object = json::Object::new();
        object.number("readings", readings);
        object.number("pieces", all.len());
        return Ok(Answer::text(object.line()));
    }
    Ok(Answer::text(format!("readings {readings}\npieces   {}\n", all.len())))
}

/// Refuses where a piece of a longer table stands behind these: it would be taken for one of them.
fn none_behind(name: &Path, count: usize) -> Result<(), Trouble> {
    let Ok(folder) = folder_of(name).read_dir() else { return Ok(()) };
    let first = named_beside(Path::new(name.file_name().unwrap_or_default()), "-");
    let number = |file: &OsStr| {
        let digits = file.as_bytes().strip_prefix(first.as_os_str().as_bytes())?;
        std::str::from_utf8(digits).ok()?.parse::<usize>().ok().filter(|number| *number > count)
    };
    match folder.flatten().filter_map(|there| number(&there.file_name())).min() {
        Some(number) => {
            let piece = named_beside(name, &format!("-{number}"));
            Err(Trouble::of_file(&piece, format!("is there, and the table has {count} pieces: take it away first")))
        }
        None => Ok(()),
    }
}
