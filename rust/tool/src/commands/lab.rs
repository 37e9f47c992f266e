//! `mill lab`: the calls for a buyer's laboratory, which is not to learn the master's curve.

use super::{ask, degree, pair, Command};
use crate::arguments::{self, Arguments};
use crate::hints::Hint;
use crate::options::Opt;
use crate::output::Answer;
use crate::source::{self, Kept, Source};
use crate::trouble::Trouble;
use crate::{input, text};
use mill::Refusal;
use std::path::Path;

pub const COMMAND: Command = Command {
    name: "lab",
    operands: "ask [-m K].. TEXT RECORDING
       mill lab degree [-m K].. TEXT TARGET RECORDING
       mill lab pair [-m K].. CURVE APART RECORDING",
    does: "Answer a buyer's laboratory, which is not to learn the master's curve.",
    about: "\
As 'mill ask', 'mill degree' and 'mill pair', but for what would tell of B: that is
refused. The marks must be the very ones with which the readings were thinned. A
tin has them: marks that are given with -m must be these. Bare readings have none:
give them with -m. What is printed is for the laboratory; the readings are not.
",
    takes: &[Opt::Mark, Opt::ExitCode],
    run,
};

fn run(arguments: &Arguments) -> Result<Answer, Trouble> {
    match arguments.first().and_then(|word| word.to_str()) {
        Some("ask") => {
            let [_, text, recording] = arguments.operands("lab", ["ask", "TEXT", "RECORDING"])?;
            let asked = Asked::read(arguments, text, recording)?;
            let set = mill::lab_question(&asked.source.readings, &asked.marks, &asked.text);
            set.map(|set| ask::said(arguments, &set, None)).map_err(|refusal| asked.refused(refusal))
        }
        Some("degree") => {
            let [_, text, target, recording] = arguments.operands("lab", ["degree", "TEXT", "TARGET", "RECORDING"])?;
            let target = arguments::whole("lab", "TARGET", target)?;
            let asked = Asked::read(arguments, text, recording)?;
            let degree = mill::lab_degree(&asked.source.readings, &asked.marks, &asked.text, target);
            degree.map(|degree| degree::said(arguments, degree, None)).map_err(|refusal| asked.refused(refusal))
        }
        Some("pair") => {
            let [_, curve, apart, recording] = arguments.operands("lab", ["pair", "CURVE", "APART", "RECORDING"])?;
            let curve = arguments::curve("lab", curve)?;
            let apart = arguments::whole("lab", "APART", apart)?;
            let recording = Path::new(recording);
            let source = source::asked(recording)?;
            // The pair call takes no marks; those that are given must still be the right ones.
            source.marks(recording, &arguments.marks)?;
            let pair = mill::lab_pair(&source.readings, curve, apart);
            pair.map(|pair| pair::said(arguments, pair)).map_err(|refusal| Trouble::refused(recording, refusal))
        }
        _ => Err(arguments::usage("lab", "the word behind it is ask, degree or pair")),
    }
}

/// A text, the readings that it is asked of, and their marks.
struct Asked<'a> {
    recording: &'a Path,
    source: Source,
    marks: Vec<u32>,
    text: Vec<u8>,
}

impl Asked<'_> {
    fn read<'a>(arguments: &Arguments, text: &std::ffi::OsStr, recording: &'a std::ffi::OsStr) -> Result<Asked<'a>, Trouble> {
        let recording = Path::new(recording);
        let text = input::text(text)?;
        let source = source::asked(recording)?;
        let marks = source.marks(recording, &arguments.marks)?;
        Ok(Asked { recording, source, marks, text })
    }

    /// Where an after-time is asked for and there are no marks, that is said.
    fn refused(&self, refusal: Refusal) -> Trouble {
        let trouble = Trouble::refused(self.recording, refusal);
        let after = text::read(&self.text).is_ok_and(|parts| !parts.after.is_empty());
        match (refusal, &self.source.kept) {
            (Refusal::NotForLaboratory, Kept::Unknown) if after && self.marks.is_empty() => {
                trouble.hinting(Some(Hint::of_words("it is no tin and has no marks: -m gives those of its thinning")))
            }
            _ => trouble.of_text(&self.text),
        }
    }
}
