//! Taking a piece into a tin.

use crate::arguments::Arguments;
use crate::noise;
use crate::output::Answer;
use crate::source::{Kept, Source};
use crate::store::Store;
use crate::tin::Tin;
use crate::trouble::{shown, Trouble};
use crate::{json, marks};
use mill::sys::MILL_RECORD_BYTES;
use mill::Thinning;
use std::path::Path;

/// Takes a piece into the tin `into`, whole or not at all. `piece` is its name, `source` what it holds.
pub fn take(arguments: &Arguments, into: &Path, piece: &Path, source: Source) -> Result<Answer, Trouble> {
    let store = Store::open(into)?;
    let (before, taken) = begun(&store, arguments, piece, &source)?;
    let pins = [(into, before.pins), (piece, source.counts().map_or(0, |counts| counts.pins))];
    let dropped = |(file, pins): (&Path, u32)| format!("mill: {}: {pins} pinned readings are dropped", shown(file));
    let mut notes: Vec<String> = pins.into_iter().filter(|(_, pins)| *pins > 0).map(dropped).collect();
    let refused = |refusal| Trouble::refused(piece, refusal);
    let kept = mill::thin(&before.readings, &before.marks).map_err(refused)?;
    let mut thinning = Thinning::resume(&before.marks, &kept).map_err(refused)?;
    thinning.take(&source.readings).map_err(refused)?;
    let tin = Tin {
        marks: before.marks,
        taken: before.taken.and_then(|before| before.checked_add(taken?)),
        pins: 0,
        readings: thinning.into_held(),
    };
    store.put(&tin)?;
    notes.extend(noise::of_tin(into, &tin));
    Ok(said(arguments, source.readings.len() / MILL_RECORD_BYTES, &tin).noting(notes))
}

/// The tin as it is, and how many readings those of the piece were taken from. Kept readings, in a tin or with their marks beside
/// them, lack others that the join may have to keep: only a tin that holds nothing can begin with them, under their marks.
fn begun(store: &Store, arguments: &Arguments, piece: &Path, source: &Source) -> Result<(Tin, Option<u64>), Trouble> {
    let (what, taken) = match &source.kept {
        Kept::Unknown => return Ok((store.tin(&arguments.marks)?, Some((source.readings.len() / MILL_RECORD_BYTES) as u64))),
        Kept::Doubtful(why) => return Err(Trouble::of_file(piece, why)),
        Kept::Under { tin: Some(counts), .. } => ("is a tin", counts.taken),
        Kept::Under { tin: None, .. } => ("holds kept readings with marks", None),
    };
    let own = source.marks(piece, &arguments.marks)?;
    let before = store.tin(&own)?;
    if before.held() > 0 {
        let why = "lacks readings that may have to be kept behind others: take its recording";
        return Err(Trouble::of_file(piece, format!("{what}, and {why}")));
    }
    if before.marks != own {
        let [own, begun] = [own, before.marks].map(|marks| marks::listed(&marks));
        return Err(Trouble::of_file(piece, format!("its marks are {own}, and not {begun}")));
    }
    Ok((before, taken))
}

fn said(arguments: &Arguments, taken: usize, tin: &Tin) -> Answer {
    let held = tin.held();
    if arguments.json {
        let mut object = json::Object::new();
        object.number("taken", taken);
        object.number("held", held);
        object.raw("marks", &json::list(tin.marks.iter().map(u32::to_string)));
        return Answer::text(object.line());
    }
    Answer::text(format!("taken {taken}\nheld  {held}\n"))
}
