//! Lines about recordings that hardly thin: a head that shivers turns or crosses at every reading, and then nearly all is kept.

use crate::events::Events;
use crate::tin::Tin;
use crate::trouble::shown;
use mill::sys::{MILL_MAX_RECORDS, MILL_RECORD_BYTES};
use std::path::Path;

/// Of fewer readings nothing is said: a short recording is mostly ends.
const MANY: u64 = 100;

/// A tin with at least as many readings is nearly full.
const NEARLY_FULL: usize = MILL_MAX_RECORDS - MILL_MAX_RECORDS / 16;

/// The lines about a tin.
pub fn of_tin(file: &Path, tin: &Tin) -> Vec<String> {
    let mut lines: Vec<String> = tin.taken.and_then(|taken| of_kept(file, taken, &unpinned(tin))).into_iter().collect();
    if tin.held() >= NEARLY_FULL {
        let (file, held, why) = (shown(file), tin.held(), causes(&tin.readings));
        lines.push(format!("mill: {file}: holds {held} of at most {MILL_MAX_RECORDS} readings ({why}): begin another tin soon"));
    }
    lines
}

/// Its readings but for those that were put back by choice.
fn unpinned(tin: &Tin) -> Vec<u8> {
    match tin.pins {
        0 => tin.readings.clone(),
        _ => mill::thin(&tin.readings, &tin.marks).unwrap_or_default(),
    }
}

/// The line about kept readings where they are nearly all of those taken, 9 of 10.
pub fn of_kept(file: &Path, taken: u64, kept: &[u8]) -> Option<String> {
    let held = (kept.len() / MILL_RECORD_BYTES) as u64;
    let noisy = taken >= MANY && held * 10 >= taken.saturating_mul(9);
    noisy.then(|| format!("mill: {}: {held} of {taken} readings are kept, for it is noisy ({})", shown(file), causes(kept)))
}

/// Why so many are kept: how often it turns, crosses and is added to. Kept readings have all of these.
fn causes(kept: &[u8]) -> String {
    let Ok(readings) = mill::decode(kept) else { return "no recording".to_string() };
    let Ok(events) = Events::of(kept, &readings) else { return "more than can be counted".to_string() };
    let count = |of: &[bool]| of.iter().filter(|is| **is).count();
    let [turns_a, turns_b] =
        [(&events.tops_a, &events.dips_a), (&events.tops_b, &events.dips_b)].map(|(tops, dips)| count(tops) + count(dips));
    let crossings = count(&events.crossings) + count(&events.upward);
    let additions = readings.iter().filter(|reading| reading.pigment > 0).count();
    format!("A turns {turns_a} times, B {turns_b} times, they cross {crossings} times, {additions} additions")
}
