//! `mill add`: takes a piece into a tin.

use super::Command;
use crate::arguments::Arguments;
use crate::options::Opt;
use crate::output::Answer;
use crate::source;
use crate::store::can_be_kept;
use crate::take::take;
use crate::trouble::Trouble;
use std::path::Path;

pub const COMMAND: Command = Command {
    name: "add",
    operands: "[-m K].. KEPT PIECE",
    does: "Take a piece of a recording into a tin, which keeps what must be kept.",
    about: "\
KEPT then holds the kept readings of all pieces taken, joined; a file that is not
there is begun. Its marks are set with the first piece, and later ones must be the
same or be left out. KEPT is one file; readings with KEPT.marks beside them, as
they were kept before, become a tin. If the machine stops, KEPT is what it was or
what it was to be. Of several at once each waits for the one before it, by a lock
on KEPT.lock. A piece that is refused is not taken at all, and its place counts
the readings of the piece from 0. Kept readings, a tin or such a pair, can only
begin KEPT. Pinned readings are dropped.
",
    takes: &[Opt::Mark],
    run,
};

fn run(arguments: &Arguments) -> Result<Answer, Trouble> {
    let [kept, piece] = arguments.operands("add", ["KEPT", "PIECE"])?;
    let (kept, piece) = (Path::new(kept), Path::new(piece));
    can_be_kept("add", "KEPT", kept)?;
    // Before the lock, for it may be slow to come.
    let source = source::long(piece)?;
    take(arguments, kept, piece, source)
}
