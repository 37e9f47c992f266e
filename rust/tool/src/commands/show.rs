//! `mill show`: a recording as a table.

use super::Command;
use crate::arguments::Arguments;
use crate::events::Events;
use crate::options::Opt;
use crate::output::Answer;
use crate::table::Table;
use crate::trouble::Trouble;
use crate::{json, readings, source};
use mill::Reading;
use std::collections::BTreeSet;
use std::path::Path;

pub const COMMAND: Command = Command {
    name: "show",
    operands: "[-m K].. RECORDING",
    does: "Show a recording as a table.",
    about: "\
Each reading has a line: its time, both values, both slopes, the pigment; whether it
is a top or a dip of A, and of B; whether it is a crossing, down or up; whether it
is kept when the recording is thinned with these marks. - says no. A tin has its
own marks.
",
    takes: &[Opt::Mark],
    run,
};

fn run(arguments: &Arguments) -> Result<Answer, Trouble> {
    let [recording] = arguments.operands("show", ["RECORDING"])?;
    let recording = Path::new(recording);
    let source = source::read(recording)?;
    let marks = source.marks(recording, &arguments.marks)?;
    let rows = rows(&source.readings, &marks).map_err(|refusal| Trouble::refused(recording, refusal))?;
    Ok(Answer::text(if arguments.json { listed(&rows) } else { table(&rows) }))
}

/// A reading and what is said of it.
struct Row {
    reading: Reading,
    turn_a: Option<&'static str>,
    turn_b: Option<&'static str>,
    cross: Option<&'static str>,
    kept: bool,
}

fn rows(recording: &[u8], marks: &[u32]) -> Result<Vec<Row>, mill::Refusal> {
    let all = mill::decode(recording)?;
    let kept: BTreeSet<u32> = mill::decode(&mill::thin(recording, marks)?)?.iter().map(|reading| reading.time).collect();
    let events = Events::of(recording, &all)?;
    let either = |first: bool, second: bool, words: [&'static str; 2]| match (first, second) {
        (true, _) => Some(words[0]),
        (_, true) => Some(words[1]),
        _ => None,
    };
    let row = |(at, reading): (usize, &Reading)| Row {
        reading: *reading,
        turn_a: either(events.tops_a[at], events.dips_a[at], ["top", "dip"]),
        turn_b: either(events.tops_b[at], events.dips_b[at], ["top", "dip"]),
        cross: either(events.crossings[at], events.upward[at], ["down", "up"]),
        kept: kept.contains(&reading.time),
    };
    Ok(all.iter().enumerate().map(row).collect())
}

fn table(rows: &[Row]) -> String {
    let mut header = readings::COLUMNS.to_vec();
    header.extend(["turn_a", "turn_b", "cross", "kept"]);
    let mut table = Table::new(&header);
    for row in rows {
        let mut fields = readings::fields(&row.reading);
        let kept = row.kept.then_some("kept");
        fields.extend([row.turn_a, row.turn_b, row.cross, kept].map(|word| word.unwrap_or("-").to_string()));
        table.row(fields);
    }
    table.text()
}

fn listed(rows: &[Row]) -> String {
    let object = |row: &Row| {
        let mut object = readings::object(&row.reading);
        for (name, word) in [("turn_a", row.turn_a), ("turn_b", row.turn_b), ("cross", row.cross)] {
            object.raw(name, &word.map_or("null".to_string(), json::string));
        }
        object.truth("kept", row.kept);
        object.text()
    };
    let mut all = json::Object::new();
    all.raw("readings", &json::list(rows.iter().map(object)));
    all.line()
}
