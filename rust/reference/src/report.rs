//! A report over batches: one text and one target, put to so many recordings that are handed in one after another.

use super::{degree, on_axis, text, Degree, Refused};

/// The most batches of a report.
pub const MOST_BATCHES: u32 = 1_000;

/// A report under way: what was named, and what the degree call said of each recording that was handed in since.
#[derive(Clone, Debug)]
pub struct Report {
    count: u32,
    text: Vec<u8>,
    target: i64,
    batches: Vec<Result<Degree, Refused>>,
}

/// What a recording that is not refused is answered.
#[derive(Clone, Copy, PartialEq, Debug)]
pub enum Added {
    Taken,
    Report(Figures),
}

#[derive(Clone, Copy, PartialEq, Debug)]
pub struct Figures {
    pub met: u32,
    pub empty: u32,
    pub distances: u64,
    pub mean: Option<f64>,
}

/// Names the count, the text and the target. The order is 15, 5, 6, 7, 12.
pub fn start(count: u32, named: &[u8], target: i64) -> Result<Report, Refused> {
    if count == 0 || count > MOST_BATCHES {
        return Err(Refused::plain(15));
    }
    text::accepted(named)?;
    on_axis(target)?;
    Ok(Report { count, text: named.to_vec(), target, batches: Vec::new() })
}

impl Report {
    /// Hands in a recording: 15 after the named count and after a refusal, else what the degree call refuses.
    pub fn add(&mut self, recording: &[u8]) -> Result<Added, Refused> {
        if self.batches.len() == self.count as usize || self.batches.iter().any(Result::is_err) {
            return Err(Refused::plain(15));
        }
        let answer = degree(recording, &self.text, self.target);
        self.batches.push(answer);
        let answers: Vec<Degree> = self.batches.iter().copied().collect::<Result<_, _>>()?;
        Ok(if answers.len() < self.count as usize { Added::Taken } else { Added::Report(figures(&answers)) })
    }
}

/// The figures of so many answers, in the order handed in. A met batch has degree 1, an empty one none.
pub fn figures(answers: &[Degree]) -> Figures {
    let count = |wanted: Degree| answers.iter().filter(|answer| **answer == wanted).count() as u32;
    let distance = |answer: &Degree| if let Degree::Short { distance, .. } = answer { *distance as u64 } else { 0 };
    let degree = |answer: &Degree| match answer {
        Degree::Met => Some(1.0),
        Degree::Short { degree, .. } => Some(*degree),
        Degree::NoValue => None,
    };
    let degrees: Vec<f64> = answers.iter().filter_map(degree).collect();
    let mut sum = 0.0;
    for degree in &degrees {
        sum += degree;
    }
    Figures {
        met: count(Degree::Met),
        empty: count(Degree::NoValue),
        distances: answers.iter().map(distance).sum(),
        mean: (!degrees.is_empty()).then(|| sum / degrees.len() as f64),
    }
}
