//! Thinning piece by piece.

use crate::calls::{mark_bytes, thin, thin_into};
use crate::reading::check;
use crate::{sys, Refusal};

/// A recording that is thinned piece by piece: the marks, and the kept readings of all pieces taken so far.
///
/// Pieces are whole readings, cut anywhere between two, each as long as one likes. What is held is what [`thin`] would keep of
/// all pieces joined.
///
/// ```
/// use mill::Thinning;
/// let recording = std::fs::read("../../crates/ask/data/run.rec")?;
/// let mut thinning = Thinning::start(&[40])?;
/// for piece in recording.chunks(48) {
///     thinning.take(piece)?;
/// }
/// assert_eq!(thinning.held(), mill::thin(&recording, &[40])?);
/// # Ok::<(), Box<dyn std::error::Error>>(())
/// ```
#[derive(Clone, PartialEq, Eq, Debug)]
pub struct Thinning {
    marks: Vec<u32>,
    held: Vec<u8>,
}

impl Thinning {
    /// A thinning under these marks, up to 8, that holds nothing yet. Refused by 11.
    ///
    /// ```
    /// use mill::{Refusal, Thinning};
    /// assert!(Thinning::start(&[40, 70])?.held().is_empty());
    /// assert_eq!(Thinning::start(&[0; 9]), Err(Refusal::BadMarks));
    /// # Ok::<(), Refusal>(())
    /// ```
    pub fn start(marks: &[u32]) -> Result<Thinning, Refusal> {
        Thinning::resume(marks, &[])
    }

    /// Goes on with readings that were held under these very marks, as a file has them. Refused by 1, 2, 3 and 11.
    ///
    /// ```
    /// use mill::Thinning;
    /// let recording = std::fs::read("../../crates/ask/data/run.rec")?;
    /// let held = mill::thin(&recording[..64], &[40])?;
    /// let mut thinning = Thinning::resume(&[40], &held)?;
    /// thinning.take(&recording[64..])?;
    /// assert_eq!(thinning.held(), mill::thin(&recording, &[40])?);
    /// # Ok::<(), Box<dyn std::error::Error>>(())
    /// ```
    pub fn resume(marks: &[u32], held: &[u8]) -> Result<Thinning, Refusal> {
        check(held)?;
        thin_into(&[], &mark_bytes(marks), &mut [])?;
        Ok(Thinning { marks: marks.to_vec(), held: held.to_vec() })
    }

    /// Takes the next piece. A piece that is refused is not taken at all, and what is held stays as it was. Refused by 1, by 3
    /// with the index of the bad reading in the piece, and by 2 where over 4,095 readings must be held before another comes.
    ///
    /// ```
    /// use mill::{Refusal, Thinning};
    /// let recording = std::fs::read("../../crates/ask/data/run.rec")?;
    /// let mut thinning = Thinning::start(&[])?;
    /// thinning.take(&recording[..64])?;
    /// let before = thinning.clone();
    /// assert_eq!(thinning.take(&recording[64..100]), Err(Refusal::PartialRecord));
    /// assert_eq!(thinning.take(&recording[48..]), Err(Refusal::BadRecord { index: 0 }));
    /// assert_eq!(thinning, before);
    /// thinning.take(&recording[64..])?;
    /// # Ok::<(), Box<dyn std::error::Error>>(())
    /// ```
    pub fn take(&mut self, piece: &[u8]) -> Result<(), Refusal> {
        let (mut left, rest) = piece.as_chunks();
        if !rest.is_empty() {
            return Err(Refusal::PartialRecord);
        }
        let (mut held, mut taken) = (self.held.clone(), 0);
        while !left.is_empty() {
            let (now, later) = left.split_at_checked(room(&held)).unwrap_or((left, &[]));
            held = joined(held, now, &self.marks).map_err(|refusal| behind(taken, refusal))?;
            taken = now.len().saturating_add(taken);
            left = later;
        }
        self.held = held;
        Ok(())
    }

    /// The kept readings of all pieces taken so far.
    ///
    /// ```
    /// let recording = std::fs::read("../../crates/ask/data/run.rec")?;
    /// let mut thinning = mill::Thinning::start(&[])?;
    /// thinning.take(&recording)?;
    /// assert_eq!(mill::question(thinning.held(), b"peaks(A)"), mill::question(&recording, b"peaks(A)"));
    /// # Ok::<(), Box<dyn std::error::Error>>(())
    /// ```
    pub fn held(&self) -> &[u8] {
        &self.held
    }

    /// The marks. Note them beside the kept readings: these do not tell them.
    ///
    /// ```
    /// assert_eq!(mill::Thinning::start(&[40])?.marks(), [40]);
    /// # Ok::<(), mill::Refusal>(())
    /// ```
    pub fn marks(&self) -> &[u32] {
        &self.marks
    }

    /// The kept readings, when all pieces are taken.
    ///
    /// ```
    /// let recording = std::fs::read("../../crates/ask/data/run.rec")?;
    /// let mut thinning = mill::Thinning::start(&[])?;
    /// thinning.take(&recording)?;
    /// assert_eq!(thinning.into_held(), mill::thin(&recording, &[])?);
    /// # Ok::<(), Box<dyn std::error::Error>>(())
    /// ```
    pub fn into_held(self) -> Vec<u8> {
        self.held
    }
}

/// How many readings to hand in behind those held: all that there is room for. Where there is none it is one, for the library to
/// refuse.
fn room(held: &[u8]) -> usize {
    sys::MILL_MAX_RECORDS.saturating_sub(held.len() / sys::MILL_RECORD_BYTES).max(1)
}

/// What is kept of the readings held with these behind them. A bad one is told by its index among these.
fn joined(mut held: Vec<u8>, records: &[[u8; sys::MILL_RECORD_BYTES]], marks: &[u32]) -> Result<Vec<u8>, Refusal> {
    let before = (held.len() / sys::MILL_RECORD_BYTES) as u32;
    held.extend_from_slice(records.as_flattened());
    thin(&held, marks).map_err(|refusal| match refusal {
        Refusal::BadRecord { index } => Refusal::BadRecord { index: index.saturating_sub(before) },
        refusal => refusal,
    })
}

/// The refusal of readings that have `taken` others of their piece before them.
fn behind(taken: usize, refusal: Refusal) -> Refusal {
    match refusal {
        Refusal::BadRecord { index } => Refusal::BadRecord { index: index.saturating_add(taken as u32) },
        refusal => refusal,
    }
}
