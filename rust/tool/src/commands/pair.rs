//! `mill pair`: the first two tops that lie a wanted time apart.

use super::Command;
use crate::arguments::{self, Arguments};
use crate::options::Opt;
use crate::output::Answer;
use crate::trouble::Trouble;
use crate::{json, source};
use mill::Pair;
use std::path::Path;

pub const COMMAND: Command = Command {
    name: "pair",
    operands: "CURVE APART RECORDING",
    does: "The first two tops of a curve that lie a wanted time apart.",
    about: "\
CURVE is A or B, APART a time in tenths of a second. The answer is the earlier
and the later time, of all such pairs the earliest, or 'none'.
",
    takes: &[Opt::ExitCode],
    run,
};

fn run(arguments: &Arguments) -> Result<Answer, Trouble> {
    let [curve, apart, recording] = arguments.operands("pair", ["CURVE", "APART", "RECORDING"])?;
    let curve = arguments::curve("pair", curve)?;
    let apart = arguments::whole("pair", "APART", apart)?;
    let recording = Path::new(recording);
    let pair = mill::pair(&source::asked(recording)?.readings, curve, apart);
    pair.map(|pair| said(arguments, pair)).map_err(|refusal| Trouble::refused(recording, refusal))
}

/// A pair as an answer.
pub fn said(arguments: &Arguments, pair: Option<Pair>) -> Answer {
    let text = match (pair, arguments.json) {
        (Some(Pair { earlier, later }), false) => format!("{earlier} {later}\n"),
        (None, false) => "none\n".to_string(),
        (pair, true) => {
            let mut object = json::Object::new();
            object.raw("pair", &pair.map_or("null".to_string(), |pair| format!("[{},{}]", pair.earlier, pair.later)));
            object.line()
        }
    };
    Answer::text(text).of_something(arguments, pair.is_some())
}
