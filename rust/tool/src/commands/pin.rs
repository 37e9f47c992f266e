//! `mill pin`: readings put back into a tin by choice.

use super::Command;
use crate::arguments::{self, Arguments};
use crate::output::Answer;
use crate::source::{self, Kept, Source};
use crate::store::{can_be_kept, Store};
use crate::tin::Tin;
use crate::trouble::{shown, Trouble};
use crate::{json, noise};
use mill::sys::{MILL_MAX_RECORDS, MILL_RECORD_BYTES};
use mill::{Reading, Thinning};
use std::collections::BTreeSet;
use std::ffi::OsStr;
use std::path::Path;

pub const COMMAND: Command = Command {
    name: "pin",
    operands: "TIN FULL TIME..",
    does: "Put readings of the full recording back into its tin.",
    about: "\
FULL is the recording of which TIN holds the kept readings, TIME the time of a
reading of it. What is assured stays assured. The head of TIN counts its pins;
'mill add' and 'mill thin' drop them.
",
    takes: &[],
    run,
};

fn run(arguments: &Arguments) -> Result<Answer, Trouble> {
    let ([kept, full], times) = arguments.operands_then_files("pin", ["TIN", "FULL"], "TIME")?;
    let (kept, full) = (Path::new(kept), Path::new(full));
    can_be_kept("pin", "TIN", kept)?;
    let times = times.into_iter().map(time).collect::<Result<BTreeSet<i64>, Trouble>>()?;
    let bytes = recording(full)?;
    if !kept.exists() {
        return Err(Trouble::of_file(kept, "No such file or directory"));
    }
    let store = Store::open(kept)?;
    let before = store.tin(&[])?;
    let pinned = pinned(kept, full, &before, &bytes, &times)?;
    store.put(&pinned)?;
    let notes = noise::of_tin(kept, &pinned);
    let [pins, held] = [pinned.pins as usize, pinned.held()];
    if arguments.json {
        let mut object = json::Object::new();
        object.number("pinned", pins);
        object.number("held", held);
        return Ok(Answer::text(object.line()).noting(notes));
    }
    Ok(Answer::text(format!("pinned {pins}\nheld   {held}\n")).noting(notes))
}

/// The bytes of a recording that is not known to lack readings.
fn recording(full: &Path) -> Result<Vec<u8>, Trouble> {
    let Source { readings, kept } = source::long(full)?;
    let what = match kept {
        Kept::Unknown => return Ok(readings),
        Kept::Under { tin: Some(_), .. } => "is a tin",
        Kept::Under { tin: None, .. } | Kept::Doubtful(_) => "has marks beside it, as kept readings have",
    };
    Err(Trouble::of_file(full, format!("{what}: a pin is taken from the full recording")))
}

fn time(word: &OsStr) -> Result<i64, Trouble> {
    arguments::whole("pin", "TIME", word)
}

/// The tin with the readings of these times among its own, if it is what is kept of the recording.
fn pinned(kept: &Path, full: &Path, before: &Tin, bytes: &[u8], times: &BTreeSet<i64>) -> Result<Tin, Trouble> {
    let refused = |refusal| Trouble::refused(full, refusal);
    let mut thinning = Thinning::start(&before.marks).map_err(refused)?;
    thinning.take(bytes).map_err(refused)?;
    let own = mill::thin(&before.readings, &before.marks).map_err(|refusal| Trouble::refused(kept, refusal))?;
    let (all, _) = bytes.as_chunks::<MILL_RECORD_BYTES>();
    let (held, _) = before.readings.as_chunks::<MILL_RECORD_BYTES>();
    let mut held: BTreeSet<&[u8; MILL_RECORD_BYTES]> = held.iter().collect();
    let mut missing = times.clone();
    let mut readings = Vec::new();
    for reading in all {
        let wanted = Reading::from_bytes(*reading).is_ok_and(|reading| missing.remove(&i64::from(reading.time)));
        if held.remove(reading) || wanted {
            readings.extend_from_slice(reading);
        }
    }
    if thinning.held() != own || !held.is_empty() {
        return Err(Trouble::of_file(kept, format!("does not hold what is kept of {}", shown(full))));
    }
    // Another recording may keep the same.
    if let Some(taken) = before.taken.filter(|taken| *taken != all.len() as u64) {
        let why = format!("was made of {taken} readings, and {} has {}", shown(full), all.len());
        return Err(Trouble::of_file(kept, why));
    }
    if let Some(time) = missing.first() {
        return Err(Trouble::of_file(full, format!("has no reading at {time}")));
    }
    let [held, pins] = [readings.len(), readings.len() - own.len()].map(|bytes| bytes / MILL_RECORD_BYTES);
    if held > MILL_MAX_RECORDS {
        return Err(Trouble::of_file(kept, format!("would hold {held} readings, and a tin holds at most {MILL_MAX_RECORDS}")));
    }
    Ok(Tin { marks: before.marks.clone(), taken: before.taken, pins: pins as u32, readings })
}
