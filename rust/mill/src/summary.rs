//! A summary beside the recordings: an entry for each, and the recordings that are found by them.

use crate::calls::{bytes_written, number_of};
use crate::{sys, Curve, Refusal};

/// What a summary holds of a recording.
///
/// ```
/// let recording = std::fs::read("../../crates/ask/data/run.rec")?;
/// let entry = mill::entry(&recording)?;
/// assert_eq!((entry.first_time, entry.last_time), (0, 70));
/// assert_eq!((entry.greatest_a, entry.least_a, entry.tops_a), (90, 30, 2));
/// # Ok::<(), Box<dyn std::error::Error>>(())
/// ```
#[derive(Clone, Copy, PartialEq, Eq, Hash, Debug)]
pub struct Entry {
    /// The time of the first reading.
    pub first_time: u32,
    /// The time of the last reading.
    pub last_time: u32,
    /// The greatest value of A.
    pub greatest_a: i32,
    /// The least value of A.
    pub least_a: i32,
    /// The greatest value of B.
    pub greatest_b: i32,
    /// The least value of B.
    pub least_b: i32,
    /// How many tops A has.
    pub tops_a: u32,
    /// How many tops B has.
    pub tops_b: u32,
}

impl Entry {
    /// The entry that these bytes are: any 32 bytes are one.
    ///
    /// ```
    /// let recording = std::fs::read("../../crates/ask/data/run.rec")?;
    /// let entry = mill::entry(&recording)?;
    /// assert_eq!(mill::Entry::from_bytes(entry.to_bytes()), entry);
    /// # Ok::<(), Box<dyn std::error::Error>>(())
    /// ```
    pub fn from_bytes(bytes: [u8; sys::MILL_ENTRY_BYTES]) -> Entry {
        let mut words = bytes.as_chunks().0.iter().copied();
        let mut word = || words.next().unwrap_or_default();
        Entry {
            first_time: u32::from_le_bytes(word()),
            last_time: u32::from_le_bytes(word()),
            greatest_a: i32::from_le_bytes(word()),
            least_a: i32::from_le_bytes(word()),
            greatest_b: i32::from_le_bytes(word()),
            least_b: i32::from_le_bytes(word()),
            tops_a: u32::from_le_bytes(word()),
            tops_b: u32::from_le_bytes(word()),
        }
    }

    /// The 32 bytes of the entry in a summary.
    ///
    /// ```
    /// let entry = mill::Entry::from_bytes([1; 32]);
    /// assert_eq!(entry.to_bytes(), [1; 32]);
    /// ```
    pub fn to_bytes(self) -> [u8; sys::MILL_ENTRY_BYTES] {
        let words = [
            self.first_time.to_le_bytes(),
            self.last_time.to_le_bytes(),
            self.greatest_a.to_le_bytes(),
            self.least_a.to_le_bytes(),
            self.greatest_b.to_le_bytes(),
            self.least_b.to_le_bytes(),
            self.tops_a.to_le_bytes(),
            self.tops_b.to_le_bytes(),
        ];
        let mut bytes = [0; sys::MILL_ENTRY_BYTES];
        bytes.iter_mut().zip(words.as_flattened()).for_each(|(byte, from)| *byte = *from);
        bytes
    }
}

/// The entry of the recording. Its kept readings give the same. Refused by 1, 2, 3 and 4.
///
/// ```
/// let recording = std::fs::read("../../crates/ask/data/run.rec")?;
/// let kept = mill::thin(&recording, &[])?;
/// assert_eq!(mill::entry(&kept), mill::entry(&recording));
/// # Ok::<(), Box<dyn std::error::Error>>(())
/// ```
pub fn entry(recording: &[u8]) -> Result<Entry, Refusal> {
    let mut bytes = [0; sys::MILL_ENTRY_BYTES];
    entry_into(recording, &mut bytes)?;
    Ok(Entry::from_bytes(bytes))
}

/// The same entry as bytes in `out`, and how many they are. What is behind them stays as it was.
///
/// ```
/// let recording = std::fs::read("../../crates/ask/data/run.rec")?;
/// let mut out = [0; 32];
/// assert_eq!(mill::entry_into(&recording, &mut out)?, 32);
/// assert_eq!(mill::entry_into(&recording, &mut []), Err(mill::Refusal::ShortOutput));
/// # Ok::<(), Box<dyn std::error::Error>>(())
/// ```
pub fn entry_into(recording: &[u8], out: &mut [u8]) -> Result<usize, Refusal> {
    // SAFETY: each pointer is a live slice's with its own length, and `out` is borrowed alone.
    bytes_written(unsafe { sys::mill_entry(recording.as_ptr(), recording.len(), out.as_mut_ptr(), out.len()) })
}

/// The numbers, from 0 and ascending, of the entries whose recording has the curve somewhere at least at the level. Refused by
/// 20 and 12.
///
/// ```
/// use mill::Curve;
/// let recording = std::fs::read("../../crates/ask/data/run.rec")?;
/// let entries = [mill::entry(&recording)?, mill::entry(&recording[..32])?];
/// assert_eq!(mill::find(&entries, Curve::A, 60)?, [0, 1]);
/// assert_eq!(mill::find(&entries, Curve::A, 61)?, [0]);
/// # Ok::<(), Box<dyn std::error::Error>>(())
/// ```
pub fn find(entries: &[Entry], curve: Curve, level: i64) -> Result<Vec<u32>, Refusal> {
    let entries: Vec<u8> = entries.iter().copied().flat_map(Entry::to_bytes).collect();
    let mut out = vec![0; sys::MILL_FOUND_BYTES];
    let length = find_into(&entries, curve, level, &mut out)?;
    let (numbers, _) = out.get(..length).unwrap_or_default().as_chunks();
    Ok(numbers.iter().map(|number| u32::from_le_bytes(*number)).collect())
}

/// The same numbers as bytes in `out`, 4 to a number, of the bytes of a summary, and how many they are. What is behind them stays as
/// it was.
///
/// ```
/// use mill::{Curve, Refusal};
/// let recording = std::fs::read("../../crates/ask/data/run.rec")?;
/// let summary = mill::entry(&recording)?.to_bytes();
/// let mut out = [7; 4];
/// assert_eq!(mill::find_into(&summary, Curve::A, 90, &mut out)?, 4);
/// assert_eq!(out, [0; 4]);
/// assert_eq!(mill::find_into(&summary[1..], Curve::A, 90, &mut out), Err(Refusal::BadSummary));
/// # Ok::<(), Box<dyn std::error::Error>>(())
/// ```
pub fn find_into(entries: &[u8], curve: Curve, level: i64, out: &mut [u8]) -> Result<usize, Refusal> {
    // SAFETY: each pointer is a live slice's with its own length, and `out` is borrowed alone.
    let returned =
        unsafe { sys::mill_find(entries.as_ptr(), entries.len(), number_of(curve), level, out.as_mut_ptr(), out.len()) };
    bytes_written(returned)
}
