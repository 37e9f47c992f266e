//! `mill order`: whether each pigment went in after those that must be in before it.

use super::Command;
use crate::arguments::{decimal, Arguments};
use crate::bad_lines::{quoted, BadLines};
use crate::options::Opt;
use crate::output::Answer;
use crate::trouble::{Refused, Trouble};
use crate::{input, json, source};
use mill::sys::{MILL_MAX_LINES, MILL_MAX_PIGMENT};
use mill::{Order, Refusal};
use std::path::Path;

pub const COMMAND: Command = Command {
    name: "order",
    operands: "SHEET RECORDING",
    does: "Whether each pigment went in after those that must be in before it.",
    about: "\
SHEET is a text file: on each line two pigments, 1 to 16, the first of which must
be in before the second, at most 32 lines. Blank lines, and all behind a #, say
nothing. The answer is 'met', or the first line that is broken, counted from 0,
and the time of the addition that breaks it.
",
    takes: &[Opt::ExitCode],
    run,
};

/// A line of a sheet: its number in the file, from 1, and its two pigments.
struct Line {
    number: usize,
    pigments: [u8; 2],
}

fn run(arguments: &Arguments) -> Result<Answer, Trouble> {
    let [sheet, recording] = arguments.operands("order", ["SHEET", "RECORDING"])?;
    let (sheet, recording) = (Path::new(sheet), Path::new(recording));
    let lines = lines_of(sheet)?;
    let pigments: Vec<[u8; 2]> = lines.iter().map(|line| line.pigments).collect();
    let order = mill::order(&source::asked(recording)?.readings, &pigments).map_err(|refusal| match refusal {
        Refusal::BadSheet => {
            Trouble::Refused(Refused { refusal, file: Some(sheet.to_path_buf()), line: bad_line(&lines), hint: None })
        }
        refusal => Trouble::refused(recording, refusal),
    })?;
    let broken = match order {
        Order::Met => None,
        Order::Broken { time, line } => Some((time, line, pigments.get(line as usize).copied().unwrap_or_default())),
    };
    Ok(Answer::text(said(arguments, broken)).of_something(arguments, broken.is_none()))
}

fn said(arguments: &Arguments, broken: Option<(u32, u32, [u8; 2])>) -> String {
    if arguments.json {
        let mut object = json::Object::new();
        object.string("order", if broken.is_none() { "met" } else { "broken" });
        if let Some((time, line, [first, then])) = broken {
            object.number("line", line);
            object.number("time", time);
            object.raw("pigments", &format!("[{first},{then}]"));
        }
        return object.line();
    }
    match broken {
        None => "met\n".to_string(),
        Some((time, line, [first, then])) => format!("line {line} broken at {time}: {first} before {then}\n"),
    }
}

/// The line of the file to which a sheet that is refused owes it: the first with a number that is no pigment, or the first too many.
fn bad_line(lines: &[Line]) -> Option<usize> {
    let no_pigment = |line: &&Line| line.pigments.iter().any(|pigment| !(1..=MILL_MAX_PIGMENT).contains(pigment));
    lines.iter().take(MILL_MAX_LINES).find(no_pigment).or_else(|| lines.get(MILL_MAX_LINES)).map(|line| line.number)
}

/// The lines of a sheet. A number over 255 goes in as 255: either is no pigment, and the library says so.
fn lines_of(file: &Path) -> Result<Vec<Line>, Trouble> {
    let bytes = input::whole(file)?;
    let bytes = input::without_mark(&bytes);
    let (mut sheet, mut bad) = (Vec::new(), BadLines::default());
    for (number, line) in (1..).zip(bytes.split(|byte| *byte == b'\n')) {
        let line = String::from_utf8_lossy(line);
        let said = line.split('#').next().unwrap_or_default();
        // A third word is one too many, whatever stands behind it.
        let numbers: Option<Vec<i64>> = said.split_whitespace().take(3).map(decimal).collect();
        match numbers.as_deref() {
            Some([]) => (),
            Some([first, then]) if *first >= 0 && *then >= 0 => {
                let pigments = [*first, *then].map(|number| u8::try_from(number).unwrap_or(u8::MAX));
                sheet.push(Line { number, pigments });
            }
            _ => bad.push(number, format!("{} is not two pigments", quoted(said.trim()))),
        }
    }
    match bad.is_empty() {
        true => Ok(sheet),
        false => Err(bad.of(file)),
    }
}
