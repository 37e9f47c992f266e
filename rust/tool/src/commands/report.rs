//! `mill report`: one question and one wanted number, put to many recordings.

use super::{degree, Command};
use crate::arguments::{self, usage, Arguments};
use crate::assured::Assurance;
use crate::options::Opt;
use crate::output::Answer;
use crate::table::Table;
use crate::trouble::{plain, shown, Trouble};
use crate::{input, json, source};
use mill::{Added, Degree, Figures, Refusal, Report};
use std::io::{self, IsTerminal, Write};
use std::path::Path;

pub const COMMAND: Command = Command {
    name: "report",
    operands: "[--each [--csv]] [--skip-refused] TEXT TARGET RECORDING..",
    does: "Put one question and one wanted number to up to 1,000 recordings.",
    about: "\
The answer says how many recordings there are, how many met the target, how many
had an empty set, the sum of the other distances, and the mean degree of all that
had no empty set. A recording that is refused stops the report; with --skip-refused
bad files are left out. --each gives a line for each recording before the figures:
its name, and whether it met, came short by a distance with a degree, is empty, or
is refused. Of tins, standard error counts those whose answer is not assured. On a
terminal, standard error shows how far it has come.
",
    takes: &[Opt::Assured, Opt::ExitCode, Opt::Each, Opt::Csv, Opt::SkipRefused],
    run,
};

/// What a recording says.
struct Said<'a> {
    file: &'a Path,
    outcome: Result<Answered, Trouble>,
}

struct Answered {
    readings: Vec<u8>,
    degree: Degree,
    assurance: Assurance,
}

fn run(arguments: &Arguments) -> Result<Answer, Trouble> {
    let ([text, target], files) = arguments.operands_then_files("report", ["TEXT", "TARGET"], "RECORDING")?;
    let target = arguments::whole("report", "TARGET", target)?;
    let files: Vec<&Path> = files.into_iter().map(Path::new).collect();
    let [each, skip] = [Opt::Each, Opt::SkipRefused].map(|opt| arguments.has(opt));
    if arguments.has(Opt::Csv) && (!each || arguments.json) {
        return Err(usage("report", "--csv goes with --each, and not with --json"));
    }
    let text = input::text(text)?;
    let refused = |refusal| Trouble::refused_alone(refusal).of_text(&text);
    Report::start(u32::try_from(files.len()).unwrap_or(u32::MAX), &text, target).map_err(refused)?;
    let mut all = all_asked(&files, &text, target, each || skip);
    let notes = not_assured(arguments, &all)?;
    let bad: Vec<usize> = (0..all.len()).filter(|at| all[*at].outcome.is_err()).collect();
    let lines: Vec<String> = bad.iter().filter_map(|at| all[*at].outcome.as_ref().err()).flat_map(Trouble::lines).collect();
    match (bad.first(), skip, each) {
        (Some(first), false, false) => all.swap_remove(*first).outcome.map(|_| Answer::text(String::new())),
        (Some(first), false, true) => {
            let status = all[*first].outcome.as_ref().err().map_or(0, Trouble::status);
            Ok(Answer::text(told(arguments, &all, None)).noting(notes).noting(lines).with_status(status))
        }
        _ => {
            let figures = figures(&all, &text, target).map_err(refused)?;
            let left_out = (!bad.is_empty()).then(|| format!("mill: {} of {} files are left out", bad.len(), all.len()));
            let answer = Answer::text(told(arguments, &all, Some(figures))).noting(notes).noting(lines).noting(left_out);
            Ok(answer.of_something(arguments, figures.met > 0))
        }
    }
}

/// What each recording says, up to the first that is bad or past it.
fn all_asked<'a>(files: &[&'a Path], text: &[u8], target: i64, past_bad: bool) -> Vec<Said<'a>> {
    let progress = Progress { of: files.len(), shown: io::stderr().is_terminal() };
    let mut all: Vec<Said> = Vec::new();
    for file in files {
        progress.show(all.len());
        let outcome = answered(file, text, target);
        let stops = outcome.is_err() && !past_bad;
        all.push(Said { file, outcome });
        if stops {
            break;
        }
    }
    progress.wipe();
    all
}

fn answered(file: &Path, text: &[u8], target: i64) -> Result<Answered, Trouble> {
    let source = source::asked(file)?;
    let degree = mill::degree(&source.readings, text, target).map_err(|refusal| Trouble::refused(file, refusal))?;
    let assurance = Assurance::of(&source, text);
    Ok(Answered { readings: source.readings, degree, assurance })
}

fn good<'a>(all: &'a [Said]) -> impl Iterator<Item = &'a Answered> {
    all.iter().filter_map(|said| said.outcome.as_ref().ok())
}

/// The lines about recordings whose answer is not assured: the first, and how many there are. With `--assured` none may be.
fn not_assured(arguments: &Arguments, all: &[Said]) -> Result<Vec<String>, Trouble> {
    let mut lines = Vec::new();
    for said in all {
        let Ok(answered) = &said.outcome else { continue };
        answered.assurance.allows(arguments, said.file)?;
        lines.extend(answered.assurance.note(said.file));
    }
    if lines.len() > 1 {
        let count = format!("mill: {} of {} recordings are not assured", lines.len(), good(all).count());
        lines.truncate(1);
        lines.push(count);
    }
    Ok(lines)
}

/// The report over all that are not bad.
fn figures(all: &[Said], text: &[u8], target: i64) -> Result<Figures, Refusal> {
    let mut last = Figures { met: 0, empty: 0, distances: 0, mean: None };
    let count = good(all).count() as u32;
    if count == 0 {
        return Ok(last);
    }
    let mut report = Report::start(count, text, target)?;
    for answered in good(all) {
        if let Added::Report(figures) = report.add(&answered.readings)? {
            last = figures;
        }
    }
    Ok(last)
}

fn told(arguments: &Arguments, all: &[Said], figures: Option<Figures>) -> String {
    let each = arguments.has(Opt::Each);
    if arguments.json {
        return as_json(all, figures, each, arguments.has(Opt::SkipRefused));
    }
    if arguments.has(Opt::Csv) {
        return table(all).csv();
    }
    let lines = figures.map(|figures| in_lines(all, figures)).unwrap_or_default();
    match (each, lines.is_empty()) {
        (false, _) => lines,
        (true, true) => table(all).text(),
        (true, false) => format!("{}\n{lines}", table(all).text()),
    }
}

fn in_lines(all: &[Said], figures: Figures) -> String {
    let Figures { met, empty, distances, mean } = figures;
    let (count, mean) = (good(all).count(), mean.map_or("none".to_string(), |mean| mean.to_string()));
    format!("recordings {count}\nmet        {met}\nempty      {empty}\ndistances  {distances}\nmean       {mean}\n")
}

fn as_json(all: &[Said], figures: Option<Figures>, each: bool, skip: bool) -> String {
    let mut object = json::Object::new();
    if let Some(Figures { met, empty, distances, mean }) = figures {
        object.number("recordings", good(all).count());
        object.number("met", met);
        object.number("empty", empty);
        object.number("distances", distances);
        object.raw("mean", &mean.map_or("null".to_string(), |mean| mean.to_string()));
    }
    let not = good(all).filter(|answered| matches!(answered.assurance, Assurance::Not(_))).count();
    let known = good(all).count() > 0 && good(all).all(|answered| matches!(answered.assurance, Assurance::Assured));
    object.raw(
        "assured",
        if not > 0 {
            "false"
        } else if known {
            "true"
        } else {
            "null"
        },
    );
    object.number("not_assured", not);
    if skip {
        object.number("left_out", all.len() - good(all).count());
    }
    if each {
        object.raw("each", &json::list(all.iter().map(one)));
    }
    object.line()
}

/// The word for a degree in a line.
fn word(degree: Degree) -> &'static str {
    match degree {
        Degree::Met => "met",
        Degree::Short { .. } => "short",
        Degree::NoValue => "empty",
    }
}

/// A recording in JSON.
fn one(said: &Said) -> String {
    let mut object = json::Object::new();
    object.string("recording", &plain(said.file));
    match &said.outcome {
        Ok(answered) => {
            object.string("answer", word(answered.degree));
            degree::put_in(answered.degree, &mut object);
            answered.assurance.put_in(&mut object);
        }
        Err(trouble) => {
            object.string("answer", "refused");
            object.string("said", &trouble.about(said.file));
        }
    }
    object.text()
}

fn table(all: &[Said]) -> Table {
    let mut table = Table::new(&["recording", "answer", "distance", "degree", "assured", "refusal"]);
    for said in all {
        let file = shown(said.file);
        let none = || "-".to_string();
        table.row(match &said.outcome {
            Err(trouble) => vec![file, "refused".to_string(), none(), none(), none(), trouble.about(said.file)],
            Ok(answered) => {
                let (distance, degree) = match answered.degree {
                    Degree::Short { distance, degree } => (distance.to_string(), degree.to_string()),
                    _ => (none(), none()),
                };
                let assured = answered.assurance.word(["yes", "no", "-"]).to_string();
                vec![file, word(answered.degree).to_string(), distance, degree, assured, none()]
            }
        });
    }
    table
}

/// A line on standard error that counts recordings, where that is a terminal.
struct Progress {
    of: usize,
    shown: bool,
}

impl Progress {
    fn show(&self, done: usize) {
        if self.shown {
            let _ = io::stderr().write_all(format!("\r{done} of {}", self.of).as_bytes());
        }
    }

    fn wipe(&self) {
        if self.shown {
            let _ = io::stderr().write_all(format!("\r{}\r", " ".repeat(24)).as_bytes());
        }
    }
}
