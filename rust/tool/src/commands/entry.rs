//! `mill entry`: entries of a summary, one for each recording.

use super::Command;
use crate::arguments::{usage, Arguments};
use crate::lock::locked;
use crate::options::Opt;
use crate::output::{self, Answer};
use crate::replace::{new_beside, real, replace};
use crate::summary::{self, Summary};
use crate::table::Table;
use crate::trouble::{plain, shown, Trouble};
use crate::{json, source};
use mill::{find_into, Curve, Entry, Refusal};
use std::os::unix::ffi::OsStrExt;
use std::path::Path;

pub const COMMAND: Command = Command {
    name: "entry",
    operands: "[--append] [--raw] [--force] [-o SUMMARY] RECORDING..",
    does: "What a summary holds of each recording; with -o, write the summary.",
    about: "\
Of each recording: its number from 0, the first and the last time, the greatest and
the least value of A, of B, and how many tops A and B have. With -o the entries and
the names are written to SUMMARY, for 'mill find'; with --raw the bare entries, 32
bytes each. --append adds to the summary that is there: a name that it has gets its
new entry, another the next number. Kept readings give the same entry as the
recording. A summary has at most 2,048 entries.
",
    takes: &[Opt::Output, Opt::Append, Opt::Raw, Opt::Force],
    run,
};

/// The fields of an entry behind its number.
const COLUMNS: [&str; 8] = ["first_time", "last_time", "greatest_a", "least_a", "greatest_b", "least_b", "tops_a", "tops_b"];

fn run(arguments: &Arguments) -> Result<Answer, Trouble> {
    let ([], files) = arguments.operands_then_files("entry", [], "RECORDING")?;
    let files: Vec<&Path> = files.into_iter().map(Path::new).collect();
    let mut entries = Vec::new();
    for file in &files {
        let entry = mill::entry(&source::asked(file)?.readings);
        entries.push(entry.map_err(|refusal| Trouble::refused(file, refusal))?);
    }
    let Some(name) = &arguments.output else {
        if arguments.has(Opt::Append) || arguments.has(Opt::Raw) {
            return Err(usage("entry", "--append and --raw want a summary, with -o"));
        }
        return Ok(Answer::text(if arguments.json { listed(&entries, &files) } else { table(&entries, &files) }));
    };
    let count = match (arguments.has(Opt::Append), arguments.has(Opt::Raw)) {
        (true, true) => return Err(usage("entry", "--append goes with no --raw: bare entries have no names")),
        (true, false) => append(name, &files, &entries)?,
        (false, raw) => write(arguments, name, raw, &files, &entries)?,
    };
    Ok(Answer::text(counted(arguments, count)))
}

fn counted(arguments: &Arguments, count: usize) -> String {
    if arguments.json {
        let mut object = json::Object::new();
        object.number("entries", count);
        return object.line();
    }
    format!("entries {count}\n")
}

fn write(arguments: &Arguments, name: &Path, raw: bool, files: &[&Path], entries: &[Entry]) -> Result<usize, Trouble> {
    let mut summary = Summary::default();
    match raw {
        // Without names each file has its entry.
        true => summary.entries = entries.iter().map(|entry| entry.to_bytes()).collect(),
        false => put(&mut summary, files, entries),
    }
    let count = counted_by_library(&summary)?;
    let bytes = if raw { summary.entries.as_flattened().to_vec() } else { summary.bytes() };
    output::save(arguments, name, &bytes)?;
    Ok(count)
}

/// The entries by their names, each name once.
fn put(summary: &mut Summary, files: &[&Path], entries: &[Entry]) {
    for (file, entry) in files.iter().zip(entries) {
        summary.put(name_of(file), entry.to_bytes());
    }
}

/// Adds to a summary, under its lock.
fn append(name: &Path, files: &[&Path], entries: &[Entry]) -> Result<usize, Trouble> {
    let file = real(name)?;
    output::not_of_add(name, &file)?;
    let _lock = locked(&file)?;
    let mut summary = match file.try_exists() {
        Ok(false) => Summary::default(),
        _ => summary::in_file(&file)?,
    };
    put(&mut summary, files, entries);
    let count = counted_by_library(&summary)?;
    replace(&file, &new_beside(&file), &summary.bytes())?;
    Ok(count)
}

/// How many entries there are, if the library takes them for a summary.
fn counted_by_library(summary: &Summary) -> Result<usize, Trouble> {
    // No entry is asked for, only whether these are a summary; of one the output is too short at most.
    match find_into(summary.entries.as_flattened(), Curve::A, 0, &mut []) {
        Err(refusal @ Refusal::BadSummary) => Err(Trouble::refused_alone(refusal)),
        _ => Ok(summary.entries.len()),
    }
}

fn name_of(file: &Path) -> Vec<u8> {
    match file == Path::new("-") {
        true => plain(file).into_bytes(),
        false => file.as_os_str().as_bytes().to_vec(),
    }
}

fn fields(entry: &Entry) -> [String; 8] {
    let Entry { first_time, last_time, greatest_a, least_a, greatest_b, least_b, tops_a, tops_b } = *entry;
    let [first_time, last_time, tops_a, tops_b] = [first_time, last_time, tops_a, tops_b].map(|number| number.to_string());
    let values = [greatest_a, least_a, greatest_b, least_b].map(|number| number.to_string());
    let [greatest_a, least_a, greatest_b, least_b] = values;
    [first_time, last_time, greatest_a, least_a, greatest_b, least_b, tops_a, tops_b]
}

fn table(entries: &[Entry], files: &[&Path]) -> String {
    let mut header = vec!["number"];
    header.extend(COLUMNS);
    header.push("recording");
    let mut table = Table::new(&header);
    for (number, (entry, file)) in entries.iter().zip(files).enumerate() {
        let mut row = vec![number.to_string()];
        row.extend(fields(entry));
        row.push(shown(file));
        table.row(row);
    }
    table.text()
}

/// An entry in JSON: its fields.
pub fn object(entry: &Entry) -> json::Object {
    let mut object = json::Object::new();
    for (name, value) in COLUMNS.iter().zip(fields(entry)) {
        object.raw(name, &value);
    }
    object
}

/// An entry on a line: its fields by their names.
pub fn line(entry: &Entry) -> String {
    let words: Vec<String> = COLUMNS.iter().zip(fields(entry)).map(|(name, value)| format!("{name} {value}")).collect();
    words.join("  ") + "\n"
}

fn listed(entries: &[Entry], files: &[&Path]) -> String {
    let object = |(entry, file): (&Entry, &&Path)| {
        let mut object = object(entry);
        object.string("recording", &plain(file));
        object.text()
    };
    let mut all = json::Object::new();
    all.raw("entries", &json::list(entries.iter().zip(files).map(object)));
    all.line()
}
