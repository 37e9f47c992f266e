//! The set that a question is answered with.

use crate::sys;
use std::ops::RangeInclusive;

/// The whole numbers from `low` to `high`, both included.
///
/// ```
/// let run = mill::Run { low: 30, high: 32 };
/// assert_eq!(run.numbers().collect::<Vec<_>>(), [30, 31, 32]);
/// ```
#[derive(Clone, Copy, PartialEq, Eq, Hash, Debug)]
pub struct Run {
    /// The least of them.
    pub low: i32,
    /// The greatest of them.
    pub high: i32,
}

impl Run {
    /// The numbers of the run, ascending.
    ///
    /// ```
    /// assert!(mill::Run { low: -1, high: 7 }.numbers().contains(&7));
    /// ```
    pub fn numbers(self) -> RangeInclusive<i32> {
        self.low..=self.high
    }
}

/// All whole numbers that make a question true, as their runs: ascending, none touching the next, at most 256.
///
/// ```
/// let recording = std::fs::read("../../crates/ask/data/run.rec")?;
/// let tops = mill::question(&recording, b"peaks(A)")?;
/// for run in &tops {
///     println!("{} {}", run.low, run.high);
/// }
/// assert!(tops.contains(30) && tops.contains(70) && !tops.contains(50));
/// # Ok::<(), Box<dyn std::error::Error>>(())
/// ```
#[derive(Clone, PartialEq, Eq, Hash, Debug, Default)]
pub struct Set {
    runs: Vec<Run>,
}

impl Set {
    /// The set that a call wrote.
    pub(crate) fn of_bytes(bytes: &[u8]) -> Set {
        let (runs, _) = bytes.as_chunks::<{ sys::MILL_RUN_BYTES }>();
        let run = |&[l0, l1, l2, l3, h0, h1, h2, h3]: &[u8; sys::MILL_RUN_BYTES]| Run {
            low: i32::from_le_bytes([l0, l1, l2, l3]),
            high: i32::from_le_bytes([h0, h1, h2, h3]),
        };
        Set { runs: runs.iter().map(run).collect() }
    }

    /// The runs of the set.
    ///
    /// ```
    /// let recording = std::fs::read("../../crates/ask/data/run.rec")?;
    /// let set = mill::question(&recording, b"peaks(A)")?;
    /// assert_eq!(set.runs(), [mill::Run { low: 30, high: 30 }, mill::Run { low: 70, high: 70 }]);
    /// # Ok::<(), Box<dyn std::error::Error>>(())
    /// ```
    pub fn runs(&self) -> &[Run] {
        &self.runs
    }

    /// The runs of the set, one by one.
    ///
    /// ```
    /// let recording = std::fs::read("../../crates/ask/data/run.rec")?;
    /// let set = mill::question(&recording, b"gaps(A)")?;
    /// assert_eq!(set.iter().next(), Some(&mill::Run { low: 40, high: 40 }));
    /// # Ok::<(), Box<dyn std::error::Error>>(())
    /// ```
    pub fn iter(&self) -> std::slice::Iter<'_, Run> {
        self.runs.iter()
    }

    /// Whether the number makes the question true.
    ///
    /// ```
    /// let recording = std::fs::read("../../crates/ask/data/run.rec")?;
    /// let reached = mill::question(&recording, b"high(A)")?;
    /// assert!(reached.contains(90) && !reached.contains(91));
    /// # Ok::<(), Box<dyn std::error::Error>>(())
    /// ```
    pub fn contains(&self, number: i64) -> bool {
        self.runs.iter().any(|run| i64::from(run.low) <= number && number <= i64::from(run.high))
    }

    /// How many numbers there are in the set; [`Set::runs`] says how many runs.
    ///
    /// ```
    /// let recording = std::fs::read("../../crates/ask/data/run.rec")?;
    /// assert_eq!(mill::question(&recording, b"high(A)")?.len(), 2_000_000_091);
    /// # Ok::<(), Box<dyn std::error::Error>>(())
    /// ```
    pub fn len(&self) -> u64 {
        let length = |run: &Run| u64::from(run.high.abs_diff(run.low)).saturating_add(1);
        self.runs.iter().fold(0, |sum, run| length(run).saturating_add(sum))
    }

    /// Whether no number makes the question true.
    ///
    /// ```
    /// let recording = std::fs::read("../../crates/ask/data/run.rec")?;
    /// assert!(mill::question(&recording, b"lag")?.is_empty());
    /// # Ok::<(), Box<dyn std::error::Error>>(())
    /// ```
    pub fn is_empty(&self) -> bool {
        self.runs.is_empty()
    }
}

impl IntoIterator for Set {
    type Item = Run;
    type IntoIter = std::vec::IntoIter<Run>;

    fn into_iter(self) -> Self::IntoIter {
        self.runs.into_iter()
    }
}

impl<'a> IntoIterator for &'a Set {
    type Item = &'a Run;
    type IntoIter = std::slice::Iter<'a, Run>;

    fn into_iter(self) -> Self::IntoIter {
        self.iter()
    }
}
