//! `mill live`: a run that grows reading by reading, with moments to go back to.

use super::{ask, entry, Command};
use crate::arguments::{decimal, Arguments};
use crate::assured::Assurance;
use crate::bad_lines::{quoted, NAMED};
use crate::hints::Hint;
use crate::input::{too_long, LONGEST};
use crate::options::Opt;
use crate::output::{self, tell, written, Answer};
use crate::source::{Kept, Source};
use crate::tin::Tin;
use crate::trouble::{shown, words, Trouble};
use crate::{csv, json, marks, noise, readings, similar};
use mill::{Live, Refusal};
use std::collections::BTreeMap;
use std::io::{self, BufRead, Read, Write};
use std::path::Path;

pub const COMMAND: Command = Command {
    name: "live",
    operands: "[-m K].. [--force] [-o TIN]",
    does: "Let a run grow reading by reading, with moments to go back to.",
    about: "\
Each line of standard input is a step. A reading is time,a,b,slope_a,slope_b and,
if there is one, pigment. 'save N' sets the moment N, 1 to 8; 'back N' goes back to
it. 'kept' prints the kept readings of the run so far, 'entry' its entry, and
'ask TEXT' what they answer. A step that is refused changes nothing: a line on
standard error says so, and the run goes on. The status is then 1 at its end, or 2
after a line that is no step, of which it bears 100. With -o what is held at the
end is written to a tin, unless a reading, a 'save' or a 'back' was refused or a
line was no step: what the run lacks a tin would lack unseen, and a line says that
it is not written. A run holds at most 128 kept readings.
",
    takes: &[Opt::Mark, Opt::Output, Opt::Force],
    run,
};

/// As long as a line may be, with its end.
const LONGEST_LINE: usize = 4096;

/// The words that a step begins with where it is no reading.
const WORDS: [&str; 5] = ["save", "back", "kept", "entry", "ask"];

/// The lines of standard input.
struct Lines {
    input: io::StdinLock<'static>,
    /// How many bytes were read: a stream that does not end is given up, as any other.
    read: u64,
}

enum Line {
    Whole(Vec<u8>),
    TooLong,
}

impl Lines {
    /// The next line, none at the end. Of one that is too long all is read, and nothing of it is a step.
    fn next(&mut self) -> Result<Option<Line>, Trouble> {
        let goes_on = |part: &[u8]| part.len() == LONGEST_LINE && !part.ends_with(b"\n");
        let line = self.part()?;
        if line.is_empty() {
            return Ok(None);
        }
        if !goes_on(&line) {
            return Ok(Some(Line::Whole(line)));
        }
        while goes_on(&self.part()?) {}
        Ok(Some(Line::TooLong))
    }

    fn part(&mut self) -> Result<Vec<u8>, Trouble> {
        let (mut part, input) = (Vec::new(), Path::new("-"));
        let read = Read::take(&mut self.input, LONGEST_LINE as u64).read_until(b'\n', &mut part);
        self.read += read.map_err(|error| Trouble::io(input, error))? as u64;
        match self.read > LONGEST {
            true => Err(too_long(input)),
            false => Ok(part),
        }
    }
}

struct Run<'a> {
    arguments: &'a Arguments,
    marks: Vec<u32>,
    live: Live,
    /// How many readings the run has, and how many it had at each moment.
    count: u64,
    moments: BTreeMap<u32, u64>,
    status: u8,
    /// How many lines were no step.
    bad: usize,
    /// How many steps the run lacks: these, and those that were refused.
    lost: usize,
}

/// Why a step is not taken.
enum Fault {
    /// The library refused a reading or a moment: the run lacks it.
    Lost(Refusal),
    /// It refused a question.
    Refused(Refusal, Option<Hint>),
    NoStep(String),
    Trouble(Trouble),
}

impl From<Refusal> for Fault {
    fn from(refusal: Refusal) -> Fault {
        Fault::Refused(refusal, None)
    }
}

fn run(arguments: &Arguments) -> Result<Answer, Trouble> {
    let [] = arguments.operands("live", [])?;
    let marks = marks::plain(&arguments.marks);
    let live = Live::start(&arguments.marks).and_then(|_| Live::start(&marks)).map_err(Trouble::refused_alone)?;
    // At once, and not when the run is at its end.
    arguments.output.iter().try_for_each(|name| output::may_write(arguments, name))?;
    let mut run = Run { arguments, marks, live, count: 0, moments: BTreeMap::new(), status: 0, bad: 0, lost: 0 };
    let mut lines = Lines { input: io::stdin().lock(), read: 0 };
    for number in 1.. {
        let Some(line) = lines.next()? else { break };
        if run.bad >= NAMED {
            tell(&[format!("mill: standard input: given up after {NAMED} bad lines")]);
            break;
        }
        run.step(number, &line)?;
    }
    Ok(run.end()?.with_status(run.status))
}

impl Run<'_> {
    fn step(&mut self, number: usize, line: &Line) -> Result<(), Trouble> {
        let taken = match line {
            Line::Whole(line) => self.taken(line.trim_ascii()),
            Line::TooLong => Err(Fault::NoStep(format!("is longer than {} bytes", LONGEST_LINE - 1))),
        };
        let Err(fault) = taken else { return Ok(()) };
        self.lost += usize::from(matches!(fault, Fault::Lost(_) | Fault::NoStep(_)));
        let (status, why, hint) = match fault {
            Fault::Trouble(trouble) => return Err(trouble),
            Fault::Lost(refusal) => (1, words(refusal), None),
            Fault::Refused(refusal, hint) => (1, words(refusal), hint),
            Fault::NoStep(why) => (2, why, None),
        };
        self.bad += usize::from(status == 2);
        self.status = self.status.max(status);
        let mut lines = vec![format!("mill: standard input: line {number}: {why}")];
        lines.extend(hint.iter().flat_map(|hint| hint.lines("")).map(|line| format!("mill: {line}")));
        tell(&lines);
        Ok(())
    }

    fn taken(&mut self, line: &[u8]) -> Result<(), Fault> {
        let text = String::from_utf8_lossy(line);
        match text.split_once(' ').unwrap_or((&text, "")) {
            ("", "") => Ok(()),
            ("save", name) => {
                let moment = moment(name)?;
                self.live.save(moment).map_err(Fault::Lost)?;
                self.moments.insert(moment, self.count);
                Ok(())
            }
            ("back", name) => {
                let moment = moment(name)?;
                self.live.restore(moment).map_err(Fault::Lost)?;
                self.count = self.moments.get(&moment).copied().unwrap_or(0);
                Ok(())
            }
            ("kept", "") => {
                let kept = mill::decode(&self.live.kept()?)?;
                self.say(&if self.arguments.json { readings::listed(&kept) } else { csv::written(&kept) })
            }
            ("entry", "") => {
                let entry = self.live.entry()?;
                self.say(&if self.arguments.json { entry::object(&entry).line() } else { entry::line(&entry) })
            }
            ("ask", question) => self.asked(question.trim()),
            _ => {
                let reading = csv::line(line).map_err(|why| no_step(&text, why))?;
                self.live.add(&reading.to_bytes()).map_err(Fault::Lost)?;
                self.count += 1;
                Ok(())
            }
        }
    }

    /// Prints a text at once.
    fn say(&self, text: &str) -> Result<(), Fault> {
        let mut out = io::stdout().lock();
        written(out.write_all(text.as_bytes()).and_then(|()| out.flush())).map_err(Fault::Trouble)
    }

    fn asked(&self, question: &str) -> Result<(), Fault> {
        let source = Source { readings: self.live.kept()?, kept: Kept::Under { marks: self.marks.clone(), tin: None } };
        let hint = |refusal| {
            Some(refusal).filter(|refusal| *refusal == Refusal::NoReading).and_then(|_| Hint::of_text(question.as_bytes()))
        };
        let set =
            mill::question(&source.readings, question.as_bytes()).map_err(|refusal| Fault::Refused(refusal, hint(refusal)))?;
        let assurance = Assurance::of(&source, question.as_bytes());
        let answer = ask::said(self.arguments, &set, Some(&assurance)).noting(assurance.note(Path::new("-")));
        answer.say().map_err(Fault::Trouble)
    }

    /// What is held goes to the file of `-o`, where no step is lacking.
    fn end(&self) -> Result<Answer, Trouble> {
        let Some(name) = &self.arguments.output else { return Ok(Answer::text(String::new())) };
        if self.lost > 0 {
            let note = format!("mill: {}: not written, for {} steps were not taken", shown(name), self.lost);
            return Ok(Answer::text(String::new()).noting([note]));
        }
        let readings = self.live.kept().map_err(Trouble::refused_alone)?;
        let tin = Tin { marks: self.marks.clone(), taken: Some(self.count), pins: 0, readings };
        output::save(self.arguments, name, &tin.bytes())?;
        let notes = noise::of_tin(name, &tin);
        if self.arguments.json {
            let mut object = json::Object::new();
            object.number("readings", self.count);
            object.number("kept", tin.held());
            return Ok(Answer::text(object.line()).noting(notes));
        }
        Ok(Answer::text(format!("readings {}\nkept     {}\n", self.count, tin.held())).noting(notes))
    }
}

/// What is wrong with a line that is no step; `why` is what a reading lacks.
fn no_step(text: &str, why: String) -> Fault {
    let word = text.split(|c: char| !c.is_alphanumeric()).next().unwrap_or_default();
    let why = match word {
        "kept" | "entry" => format!("{word} stands alone"),
        word if word.starts_with(char::is_alphabetic) => {
            format!("neither a reading nor one of {}{}", WORDS.join(", "), similar::hint(word, WORDS))
        }
        _ => why,
    };
    Fault::NoStep(format!("{} is no step: {why}", quoted(text)))
}

/// The number of a moment, for the library to judge.
fn moment(name: &str) -> Result<u32, Fault> {
    let number = decimal(name.trim()).ok_or_else(|| Fault::NoStep(format!("{} is no moment", quoted(name))))?;
    Ok(u32::try_from(number).unwrap_or(u32::MAX))
}
