//! `mill raw`: the bare readings of a tin.

use super::{export, Command};
use crate::arguments::Arguments;
use crate::options::Opt;
use crate::output::{made, Answer};
use crate::trouble::Trouble;
use crate::{readings, source};
use std::path::Path;

pub const COMMAND: Command = Command {
    name: "raw",
    operands: "[--force] [-o FILE] TIN",
    does: "Give the bare readings of a tin, byte by byte.",
    about: "\
They are what the library takes as a recording, for programs that know no tins.
Without their head nothing tells their marks, nor whether a byte of them changed.
",
    takes: &[Opt::Output, Opt::Force],
    run,
};

fn run(arguments: &Arguments) -> Result<Answer, Trouble> {
    let [tin] = arguments.operands("raw", ["TIN"])?;
    let tin = Path::new(tin);
    let source = source::read(tin)?;
    if source.counts().is_none() {
        return Err(Trouble::of_file(tin, "is no tin"));
    }
    let all = mill::decode(&source.readings).map_err(|refusal| Trouble::refused(tin, refusal))?;
    let file = match arguments.json && arguments.output.is_none() {
        true => Answer::text(readings::listed(&all)),
        false => Answer::bytes(source.readings),
    };
    made(arguments, file, || export::count(arguments, all.len()))
}
