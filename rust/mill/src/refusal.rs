//! Why a call gives no result.

use crate::sys;

/// Why a call gives no result: one numbered refusal of the library.
///
/// ```
/// use mill::Refusal;
/// let recording = std::fs::read("../../crates/ask/data/run.rec")?;
/// let refusal = mill::question(&recording, b"peaks(C)").unwrap_err();
/// assert_eq!(refusal, Refusal::NoReading);
/// assert_eq!(refusal.number(), 6);
/// assert_eq!(refusal.to_string(), "the text can't be read as a question (refusal 6)");
/// # Ok::<(), Box<dyn std::error::Error>>(())
/// ```
#[derive(Clone, Copy, PartialEq, Eq, Hash, Debug)]
pub enum Refusal {
    /// 1: the recording is not a multiple of 16 bytes.
    PartialRecord,
    /// 2: it has over 4,096 records.
    TooManyRecords,
    /// 3: a record breaks its rules.
    BadRecord {
        /// The first that does, counted from 0.
        index: u32,
    },
    /// 4: the recording has no record, or the run no reading.
    NoRecord,
    /// 5: the text is empty or over 256 bytes.
    TextLength,
    /// 6: the text has no reading.
    NoReading,
    /// 7: the text has over 32 nodes, or over 16 brackets open at once.
    TextTooLarge,
    /// 8: a node's set has over 256 runs.
    TooManyRuns,
    /// 9: a curve that is asked for its tops has over 256 of them.
    TooManyTops,
    /// 10: the output is shorter than the result.
    ShortOutput,
    /// 11: the marks are not 4 bytes each, over 8, or too large; or there is no run.
    BadMarks,
    /// 12: the target or the level is off the axis.
    BadTarget,
    /// 13: the order sheet has over 32 lines, or a number that is not 1 to 16.
    BadSheet,
    /// 14: the laboratory may not ask it: a text that names B, `cross`, `crossup` or `lag`, has one of F, G, X, U and W or an after-time
    /// that is not among the marks; a pair of curve B.
    NotForLaboratory,
    /// 15: the named count is 0 or over 1,000; or no report is under way: it has all its recordings, or one of them was refused.
    NoReport,
    /// 16: the band is not 0 to 1,000,000 units.
    BadBand,
    /// 17: the text is not one of `high`, `low`, `lowafter`, `capafter` and `ampl` alone.
    NotBandQuestion,
    /// 18: the name of a moment is not 1 to 8, or no such moment is set to go back to.
    NoMoment,
    /// 19: the run with this reading would hold over 128 kept readings.
    RunFull,
    /// 20: the summary is not a multiple of 32 bytes, or has over 2,048 entries.
    BadSummary,
    /// A number that has no name here. No call of this version gives one.
    Unnamed {
        /// Its number.
        number: u32,
        /// Its place.
        place: u32,
    },
}

impl Refusal {
    /// The number of the refusal in the table.
    ///
    /// ```
    /// assert_eq!(mill::Refusal::BadRecord { index: 5 }.number(), 3);
    /// ```
    pub fn number(self) -> u32 {
        match self {
            Refusal::PartialRecord => sys::MILL_PARTIAL_RECORD,
            Refusal::TooManyRecords => sys::MILL_TOO_MANY_RECORDS,
            Refusal::BadRecord { .. } => sys::MILL_BAD_RECORD,
            Refusal::NoRecord => sys::MILL_NO_RECORD,
            Refusal::TextLength => sys::MILL_TEXT_LENGTH,
            Refusal::NoReading => sys::MILL_NO_READING,
            Refusal::TextTooLarge => sys::MILL_TEXT_TOO_LARGE,
            Refusal::TooManyRuns => sys::MILL_TOO_MANY_RUNS,
            Refusal::TooManyTops => sys::MILL_TOO_MANY_TOPS,
            Refusal::ShortOutput => sys::MILL_SHORT_OUTPUT,
            Refusal::BadMarks => sys::MILL_BAD_MARKS,
            Refusal::BadTarget => sys::MILL_BAD_TARGET,
            Refusal::BadSheet => sys::MILL_BAD_SHEET,
            Refusal::NotForLaboratory => sys::MILL_NOT_FOR_LABORATORY,
            Refusal::NoReport => sys::MILL_NO_REPORT,
            Refusal::BadBand => sys::MILL_BAD_BAND,
            Refusal::NotBandQuestion => sys::MILL_NOT_BAND_QUESTION,
            Refusal::NoMoment => sys::MILL_NO_MOMENT,
            Refusal::RunFull => sys::MILL_RUN_FULL,
            Refusal::BadSummary => sys::MILL_BAD_SUMMARY,
            Refusal::Unnamed { number, .. } => number,
        }
    }

    /// The record's index for number 3, else 0.
    ///
    /// ```
    /// assert_eq!(mill::Refusal::BadRecord { index: 5 }.place(), 5);
    /// assert_eq!(mill::Refusal::NoRecord.place(), 0);
    /// ```
    pub fn place(self) -> u32 {
        match self {
            Refusal::BadRecord { index } => index,
            Refusal::Unnamed { place, .. } => place,
            _ => 0,
        }
    }

    /// The refusal in plain words, those of `mill_sentence` in `include/mill.h`.
    ///
    /// ```
    /// assert_eq!(mill::Refusal::NoRecord.sentence(), "the recording or the run has no reading");
    /// ```
    pub fn sentence(self) -> &'static str {
        sys::mill_sentence(self.number())
    }

    /// The refusal that a call's return value carries, none for a result.
    ///
    /// ```
    /// use mill::Refusal;
    /// assert_eq!(Refusal::of_returned(16), None);
    /// assert_eq!(Refusal::of_returned(3 << 32 | 5), Some(Refusal::BadRecord { index: 5 }));
    /// ```
    pub fn of_returned(returned: u64) -> Option<Refusal> {
        let refusal = match sys::mill_number(returned) {
            0 => return None,
            sys::MILL_PARTIAL_RECORD => Refusal::PartialRecord,
            sys::MILL_TOO_MANY_RECORDS => Refusal::TooManyRecords,
            sys::MILL_BAD_RECORD => Refusal::BadRecord { index: sys::mill_place(returned) },
            sys::MILL_NO_RECORD => Refusal::NoRecord,
            sys::MILL_TEXT_LENGTH => Refusal::TextLength,
            sys::MILL_NO_READING => Refusal::NoReading,
            sys::MILL_TEXT_TOO_LARGE => Refusal::TextTooLarge,
            sys::MILL_TOO_MANY_RUNS => Refusal::TooManyRuns,
            sys::MILL_TOO_MANY_TOPS => Refusal::TooManyTops,
            sys::MILL_SHORT_OUTPUT => Refusal::ShortOutput,
            sys::MILL_BAD_MARKS => Refusal::BadMarks,
            sys::MILL_BAD_TARGET => Refusal::BadTarget,
            sys::MILL_BAD_SHEET => Refusal::BadSheet,
            sys::MILL_NOT_FOR_LABORATORY => Refusal::NotForLaboratory,
            sys::MILL_NO_REPORT => Refusal::NoReport,
            sys::MILL_BAD_BAND => Refusal::BadBand,
            sys::MILL_NOT_BAND_QUESTION => Refusal::NotBandQuestion,
            sys::MILL_NO_MOMENT => Refusal::NoMoment,
            sys::MILL_RUN_FULL => Refusal::RunFull,
            sys::MILL_BAD_SUMMARY => Refusal::BadSummary,
            number => Refusal::Unnamed { number, place: sys::mill_place(returned) },
        };
        Some(refusal)
    }

    /// What a call's return value carries: the result, or the refusal.
    pub(crate) fn or_result(returned: u64) -> Result<u32, Refusal> {
        match Refusal::of_returned(returned) {
            Some(refusal) => Err(refusal),
            None => Ok(sys::mill_place(returned)),
        }
    }
}

impl std::fmt::Display for Refusal {
    fn fmt(&self, f: &mut std::fmt::Formatter<'_>) -> std::fmt::Result {
        write!(f, "{} (refusal {}", self.sentence(), self.number())?;
        match self {
            Refusal::BadRecord { index } => write!(f, ", reading {index} counted from 0)"),
            _ => f.write_str(")"),
        }
    }
}

impl std::error::Error for Refusal {}
