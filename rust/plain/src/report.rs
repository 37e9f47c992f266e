//! A report over batches: the text is read once.

use crate::text::{nodes, Op};
use crate::{answer, nearness, on_axis, Refused};

const MOST_BATCHES: u32 = 1_000;

#[derive(Clone, Debug)]
pub struct Report {
    nodes: Vec<Op>,
    target: i64,
    left: u32,
    met: u32,
    empty: u32,
    distances: u64,
    /// Of the batches with a degree: how many, and their sum.
    degrees: u32,
    sum: f64,
}

#[derive(Clone, Copy, PartialEq, Debug)]
pub struct Figures {
    pub met: u32,
    pub empty: u32,
    pub distances: u64,
    pub mean: Option<f64>,
}

#[derive(Clone, Copy, PartialEq, Debug)]
pub enum Added {
    Taken,
    Report(Figures),
}

impl Report {
    /// Names how many recordings there will be, the text and the target.
    pub fn start(count: u32, text: &[u8], target: i64) -> Result<Report, Refused> {
        if count == 0 || count > MOST_BATCHES {
            return Err((15, 0));
        }
        let nodes = nodes(text)?;
        on_axis(target)?;
        Ok(Report { nodes, target, left: count, met: 0, empty: 0, distances: 0, degrees: 0, sum: 0.0 })
    }

    /// Hands in the next recording. One that is refused stops the report.
    pub fn add(&mut self, recording: &[u8]) -> Result<Added, Refused> {
        if self.left == 0 {
            return Err((15, 0));
        }
        let batches = std::mem::take(&mut self.left);
        let answer = nearness(&answer(recording, Ok(&self.nodes))?, self.target);
        self.left = batches - 1;
        match answer {
            None => self.empty += 1,
            Some((distance, degree)) => {
                self.met += u32::from(distance == 0.0);
                self.distances += distance as u64;
                self.degrees += 1;
                self.sum += degree;
            }
        }
        if self.left > 0 {
            return Ok(Added::Taken);
        }
        let mean = (self.degrees > 0).then(|| self.sum / f64::from(self.degrees));
        Ok(Added::Report(Figures { met: self.met, empty: self.empty, distances: self.distances, mean }))
    }
}
