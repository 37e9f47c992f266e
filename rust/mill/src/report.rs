//! A year of batches in figures: one text and one target, put to up to 1,000 recordings.

use crate::{sys, Refusal};

/// A report under way. It is only its bytes: a copy goes on as the original would.
///
/// ```
/// use mill::{Added, Report};
/// let recording = std::fs::read("../../crates/ask/data/run.rec")?;
/// let batches = [&recording[..], &recording[..64], &recording[..16]];
/// let mut report = Report::start(3, b"peaks(A)", 70)?;
/// for batch in batches {
///     if let Added::Report(figures) = report.add(batch)? {
///         assert_eq!((figures.met, figures.empty, figures.distances), (1, 1, 40));
///     }
/// }
/// # Ok::<(), Box<dyn std::error::Error>>(())
/// ```
#[derive(Clone, PartialEq, Eq, Debug)]
pub struct Report {
    bytes: [u8; sys::MILL_REPORT_BYTES],
}

/// What a recording that is not refused is answered.
///
/// ```
/// use mill::{Added, Report};
/// let recording = std::fs::read("../../crates/ask/data/run.rec")?;
/// let mut report = Report::start(2, b"peaks(A)", 70)?;
/// assert_eq!(report.add(&recording)?, Added::Taken);
/// assert!(matches!(report.add(&recording)?, Added::Report(_)));
/// # Ok::<(), Box<dyn std::error::Error>>(())
/// ```
#[derive(Clone, Copy, PartialEq, Debug)]
pub enum Added {
    /// It is counted, and is not the last.
    Taken,
    /// It was the last.
    Report(Figures),
}

/// What a report tells of its batches.
///
/// ```
/// use mill::{Added, Figures, Report};
/// let recording = std::fs::read("../../crates/ask/data/run.rec")?;
/// let none = Figures { met: 0, empty: 1, distances: 0, mean: None };
/// assert_eq!(Report::start(1, b"lag", 40)?.add(&recording)?, Added::Report(none));
/// # Ok::<(), Box<dyn std::error::Error>>(())
/// ```
#[derive(Clone, Copy, PartialEq, Debug)]
pub struct Figures {
    /// How many met the target.
    pub met: u32,
    /// How many had an empty set.
    pub empty: u32,
    /// The sum of the other distances, exactly.
    pub distances: u64,
    /// The mean degree of all that had no empty set; none where there are none.
    pub mean: Option<f64>,
}

impl Report {
    /// Names how many recordings there will be, 1 to 1,000, the text and the target.
    ///
    /// ```
    /// use mill::{Refusal, Report};
    /// assert!(Report::start(1_000, b"peaks(A)", 70).is_ok());
    /// assert_eq!(Report::start(1_001, b"peaks(A)", 70), Err(Refusal::NoReport));
    /// ```
    pub fn start(count: u32, text: &[u8], target: i64) -> Result<Report, Refusal> {
        let mut bytes = [0; sys::MILL_REPORT_BYTES];
        // SAFETY: each pointer is a live slice's with its own length, and `bytes` is ours alone.
        let returned =
            unsafe { sys::mill_report_start(count, text.as_ptr(), text.len(), target, bytes.as_mut_ptr(), bytes.len()) };
        match Refusal::of_returned(returned) {
            Some(refusal) => Err(refusal),
            None => Ok(Report { bytes }),
        }
    }

    /// Hands in the next recording. One that is refused stops the report: all that follow are refused with 15.
    ///
    /// ```
    /// use mill::{Refusal, Report};
    /// let recording = std::fs::read("../../crates/ask/data/run.rec")?;
    /// let mut report = Report::start(2, b"peaks(A)", 70)?;
    /// assert_eq!(report.add(&[]), Err(Refusal::NoRecord));
    /// assert_eq!(report.add(&recording), Err(Refusal::NoReport));
    /// # Ok::<(), Box<dyn std::error::Error>>(())
    /// ```
    pub fn add(&mut self, recording: &[u8]) -> Result<Added, Refusal> {
        let (mut met, mut empty, mut distances, mut mean) = (0, 0, 0, 0.0);
        // SAFETY: each pointer is a live slice's with its own length, or a live number's, and `bytes` is borrowed alone.
        let returned = unsafe {
            let (report, report_len) = (self.bytes.as_mut_ptr(), self.bytes.len());
            let (at, length) = (recording.as_ptr(), recording.len());
            sys::mill_report_add(report, report_len, at, length, &mut met, &mut empty, &mut distances, &mut mean)
        };
        match Refusal::of_returned(returned) {
            Some(refusal) => Err(refusal),
            None if returned == sys::MILL_TAKEN => Ok(Added::Taken),
            None => {
                let mean = (returned == sys::MILL_REPORT).then_some(mean);
                Ok(Added::Report(Figures { met, empty, distances, mean }))
            }
        }
    }

    /// The bytes, to keep until the next recording is there. They name their format and the kept rule: a library of another refuses them by 15.
    ///
    /// ```
    /// assert_eq!(mill::Report::start(1, b"lag", 40)?.as_bytes().len(), 320);
    /// # Ok::<(), mill::Refusal>(())
    /// ```
    pub fn as_bytes(&self) -> &[u8; sys::MILL_REPORT_BYTES] {
        &self.bytes
    }

    /// The report that these bytes of [`Report::as_bytes`] are. Of other bytes every call is answered too, as the library says.
    ///
    /// ```
    /// use mill::{Refusal, Report};
    /// let report = Report::start(1, b"lag", 40)?;
    /// assert_eq!(Report::from_bytes(*report.as_bytes()), report);
    /// assert_eq!(Report::from_bytes([0; 320]).add(&[]), Err(Refusal::NoReport));
    /// # Ok::<(), Refusal>(())
    /// ```
    pub fn from_bytes(bytes: [u8; sys::MILL_REPORT_BYTES]) -> Report {
        Report { bytes }
    }
}
