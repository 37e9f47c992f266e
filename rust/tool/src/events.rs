//! Which readings of a recording are tops, dips and crossings: asked of the library, not worked out here.
//!
//! A set of over 256 runs is refused. A recording that has more is asked in parts, each again a recording. A part begins early enough
//! to give for its own readings what the whole gives: at the reading before, and for tops and dips at the last before that is not
//! flat, which the library is asked for too.

use mill::sys::MILL_RECORD_BYTES;
use mill::{question, Reading, Refusal};

/// For each reading whether it is one.
pub struct Events {
    pub tops_a: Vec<bool>,
    pub tops_b: Vec<bool>,
    pub dips_a: Vec<bool>,
    pub dips_b: Vec<bool>,
    pub crossings: Vec<bool>,
    pub upward: Vec<bool>,
}

impl Events {
    /// Of a recording and its readings.
    pub fn of(recording: &[u8], readings: &[Reading]) -> Result<Events, Refusal> {
        let of = |text: &'static str, sloping| {
            let mut found = Found { recording, readings, text, sloping, events: vec![false; readings.len()] };
            found.ask(0, 0, readings.len())?;
            Ok(found.events)
        };
        let (a, b) = (Some("rise(A)|fall(A)"), Some("rise(B)|fall(B)"));
        Ok(Events {
            tops_a: of("peaks(A)", a)?,
            tops_b: of("peaks(B)", b)?,
            dips_a: of("dips(A)", a)?,
            dips_b: of("dips(B)", b)?,
            crossings: of("cross", None)?,
            upward: of("crossup", None)?,
        })
    }
}

struct Found<'a> {
    recording: &'a [u8],
    readings: &'a [Reading],
    /// The question for the times of the events.
    text: &'static str,
    /// True of a reading that a part may not leave behind it; without it the reading before a part is enough.
    sloping: Option<&'static str>,
    events: Vec<bool>,
}

impl Found<'_> {
    /// Marks the events from one reading up to another, from what the readings since `context` answer.
    fn ask(&mut self, context: usize, from: usize, to: usize) -> Result<(), Refusal> {
        if from == to {
            return Ok(());
        }
        match question(self.bytes(context, to), self.text.as_bytes()) {
            Ok(times) => {
                for (event, reading) in self.events.iter_mut().zip(self.readings).take(to).skip(from) {
                    *event = times.contains(reading.time.into());
                }
                Ok(())
            }
            Err(Refusal::TooManyRuns) if to - from > 1 => {
                let middle = from.midpoint(to);
                self.ask(context, from, middle)?;
                self.ask(self.context_of(context, middle)?, middle, to)
            }
            Err(refusal) => Err(refusal),
        }
    }

    /// Where a part that begins at this reading must begin to be asked.
    fn context_of(&self, context: usize, from: usize) -> Result<usize, Refusal> {
        let Some(sloping) = self.sloping else { return Ok(from - 1) };
        for at in (context..from).rev() {
            if !question(self.bytes(at, at + 1), sloping.as_bytes())?.is_empty() {
                return Ok(at);
            }
        }
        Ok(context)
    }

    fn bytes(&self, from: usize, to: usize) -> &[u8] {
        self.recording.get(from * MILL_RECORD_BYTES..to * MILL_RECORD_BYTES).unwrap_or_default()
    }
}
