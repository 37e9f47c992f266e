//! The book against which a list of thinning calls is read: it holds only the join of the pieces taken.

use super::kept::{accepted_marks, chosen, selected_bytes};
use super::recording::{accepted, in_rules};
use super::Refused;

#[derive(Clone, Debug)]
pub struct Book {
    join: Vec<u8>,
    marks: Vec<u8>,
}

impl Book {
    /// A book whose join is empty; the marks are those of every call.
    pub fn open(marks: &[u8]) -> Book {
        Book { join: Vec::new(), marks: marks.to_vec() }
    }

    /// The pieces taken, joined.
    pub fn join(&self) -> &[u8] {
        &self.join
    }

    /// What a call with this piece and an output of `room` bytes answers; a piece that is not refused is taken.
    pub fn call(&mut self, piece: &[u8], room: usize) -> Result<Vec<u8>, Refused> {
        let held = match accepted_marks(&self.marks) {
            Ok(marks) => kept_readings(&self.join, &marks),
            Err(_) => Vec::new(),
        };
        accepted(&[held.as_slice(), piece].concat())?;
        let marks = accepted_marks(&self.marks)?;
        let joined = [self.join.as_slice(), piece].concat();
        let kept = kept_readings(&joined, &marks);
        if room < kept.len() {
            return Err(Refused::plain(10));
        }
        self.join = joined;
        Ok(kept)
    }
}

/// The kept readings of a join, which may pass the most records of a recording.
pub fn kept_readings(join: &[u8], marks: &[i64]) -> Vec<u8> {
    let records = in_rules(join).expect("a join of pieces taken keeps the rules");
    selected_bytes(join, &chosen(&records, marks))
}
