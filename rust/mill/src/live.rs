//! A growing run with named moments to go back to.

use crate::calls::{bytes_written, mark_bytes};
use crate::{sys, Entry, Refusal};

/// A run that grows reading by reading. It is only its bytes: a copy goes on as the original would. Two runs are not compared: bytes
/// of readings that were discarded stay where they were, so that runs that hold the same may differ in bytes.
///
/// ```
/// use mill::Live;
/// let recording = std::fs::read("../../crates/ask/data/run.rec")?;
/// let mut run = Live::start(&[40])?;
/// for reading in recording.chunks(16) {
///     run.add(reading)?;
/// }
/// assert_eq!(run.kept()?, mill::thin(&recording, &[40])?);
/// # Ok::<(), Box<dyn std::error::Error>>(())
/// ```
#[derive(Clone, Debug)]
pub struct Live {
    bytes: Box<[u8]>,
}

impl Live {
    /// A run without a reading, under these marks, up to 8. Refused by 11.
    ///
    /// ```
    /// use mill::{Live, Refusal};
    /// assert!(Live::start(&[40])?.kept()?.is_empty());
    /// assert_eq!(Live::start(&[0; 9]).err(), Some(Refusal::BadMarks));
    /// # Ok::<(), Refusal>(())
    /// ```
    pub fn start(marks: &[u32]) -> Result<Live, Refusal> {
        let marks = mark_bytes(marks);
        let mut bytes = vec![0; sys::MILL_LIVE_BYTES].into_boxed_slice();
        // SAFETY: each pointer is a live slice's with its own length, and `bytes` is ours alone.
        let returned = unsafe { sys::mill_live_start(marks.as_ptr(), marks.len(), bytes.as_mut_ptr(), bytes.len()) };
        done(returned).map(|()| Live { bytes })
    }

    /// The next reading, 16 bytes. A refused one changes nothing.
    ///
    /// ```
    /// use mill::{Live, Reading, Refusal, Slope};
    /// let mut run = Live::start(&[])?;
    /// let reading = Reading { time: 0, a: 40, b: 50, slope_a: Slope::Rising, slope_b: Slope::Flat, pigment: 0 };
    /// run.add(&reading.to_bytes())?;
    /// assert_eq!(run.add(&reading.to_bytes()), Err(Refusal::BadRecord { index: 1 }));
    /// assert_eq!(run.kept()?, reading.to_bytes());
    /// # Ok::<(), Refusal>(())
    /// ```
    pub fn add(&mut self, reading: &[u8]) -> Result<(), Refusal> {
        // SAFETY: each pointer is a live slice's with its own length, and `bytes` is borrowed alone.
        done(unsafe { sys::mill_live_add(self.bytes.as_mut_ptr(), self.bytes.len(), reading.as_ptr(), reading.len()) })
    }

    /// Sets the moment of this name, 1 to 8, or sets it again.
    ///
    /// ```
    /// use mill::{Live, Refusal};
    /// let mut run = Live::start(&[])?;
    /// run.save(8)?;
    /// assert_eq!(run.save(9), Err(Refusal::NoMoment));
    /// # Ok::<(), Refusal>(())
    /// ```
    pub fn save(&mut self, name: u32) -> Result<(), Refusal> {
        // SAFETY: the pointer is a live slice's with its length, borrowed alone.
        done(unsafe { sys::mill_live_save(self.bytes.as_mut_ptr(), self.bytes.len(), name) })
    }

    /// Goes back to the moment of this name. All moments stay set as they were.
    ///
    /// ```
    /// let recording = std::fs::read("../../crates/ask/data/run.rec")?;
    /// let mut run = mill::Live::start(&[])?;
    /// run.add(&recording[..16])?;
    /// run.save(1)?;
    /// run.add(&recording[16..32])?;
    /// run.restore(1)?;
    /// assert_eq!(run.kept()?, recording[..16]);
    /// # Ok::<(), Box<dyn std::error::Error>>(())
    /// ```
    pub fn restore(&mut self, name: u32) -> Result<(), Refusal> {
        // SAFETY: the pointer is a live slice's with its length, borrowed alone.
        done(unsafe { sys::mill_live_restore(self.bytes.as_mut_ptr(), self.bytes.len(), name) })
    }

    /// The kept readings of the run so far, at most 128.
    ///
    /// ```
    /// let recording = std::fs::read("../../crates/ask/data/run.rec")?;
    /// let mut run = mill::Live::start(&[])?;
    /// run.add(&recording[..16])?;
    /// assert_eq!(run.kept()?, recording[..16]);
    /// # Ok::<(), Box<dyn std::error::Error>>(())
    /// ```
    pub fn kept(&self) -> Result<Vec<u8>, Refusal> {
        let mut out = vec![0; sys::MILL_HELD_BYTES];
        let length = self.kept_into(&mut out)?;
        out.truncate(length);
        Ok(out)
    }

    /// The same readings in `out`, and how many bytes they are. What is behind them stays as it was.
    ///
    /// ```
    /// let run = mill::Live::start(&[])?;
    /// assert_eq!(run.kept_into(&mut [])?, 0);
    /// # Ok::<(), mill::Refusal>(())
    /// ```
    pub fn kept_into(&self, out: &mut [u8]) -> Result<usize, Refusal> {
        // SAFETY: each pointer is a live slice's with its own length, and `out` is borrowed alone.
        let returned = unsafe { sys::mill_live_kept(self.bytes.as_ptr(), self.bytes.len(), out.as_mut_ptr(), out.len()) };
        bytes_written(returned)
    }

    /// The entry of the run so far: that of all its readings.
    ///
    /// ```
    /// let recording = std::fs::read("../../crates/ask/data/run.rec")?;
    /// let mut run = mill::Live::start(&[])?;
    /// assert_eq!(run.entry(), Err(mill::Refusal::NoRecord));
    /// for reading in recording.chunks(16) {
    ///     run.add(reading)?;
    /// }
    /// assert_eq!(run.entry()?, mill::entry(&recording)?);
    /// # Ok::<(), Box<dyn std::error::Error>>(())
    /// ```
    pub fn entry(&self) -> Result<Entry, Refusal> {
        let mut bytes = [0; sys::MILL_ENTRY_BYTES];
        self.entry_into(&mut bytes)?;
        Ok(Entry::from_bytes(bytes))
    }

    /// The same entry as bytes in `out`, and how many they are. What is behind them stays as it was.
    ///
    /// ```
    /// let recording = std::fs::read("../../crates/ask/data/run.rec")?;
    /// let mut run = mill::Live::start(&[])?;
    /// run.add(&recording[..16])?;
    /// let mut out = [0; 32];
    /// assert_eq!(run.entry_into(&mut out)?, 32);
    /// assert_eq!(mill::Entry::from_bytes(out).greatest_a, 40);
    /// # Ok::<(), Box<dyn std::error::Error>>(())
    /// ```
    pub fn entry_into(&self, out: &mut [u8]) -> Result<usize, Refusal> {
        // SAFETY: each pointer is a live slice's with its own length, and `out` is borrowed alone.
        let returned = unsafe { sys::mill_live_entry(self.bytes.as_ptr(), self.bytes.len(), out.as_mut_ptr(), out.len()) };
        bytes_written(returned)
    }

    /// The bytes, to keep until the next reading is there. They name their format and the kept rule: a library of another refuses them by 11.
    ///
    /// ```
    /// let run = mill::Live::start(&[])?;
    /// assert_eq!(run.as_bytes().len(), 18_624);
    /// # Ok::<(), mill::Refusal>(())
    /// ```
    pub fn as_bytes(&self) -> &[u8] {
        &self.bytes
    }

    /// The run that these bytes of [`Live::as_bytes`] are. Of other bytes every call is answered too, as the library says.
    ///
    /// ```
    /// use mill::{Live, Refusal};
    /// let run = Live::start(&[])?;
    /// assert_eq!(Live::from_bytes(run.as_bytes()).as_bytes(), run.as_bytes());
    /// assert_eq!(Live::from_bytes(&[]).kept(), Err(Refusal::BadMarks));
    /// # Ok::<(), Refusal>(())
    /// ```
    pub fn from_bytes(bytes: &[u8]) -> Live {
        Live { bytes: bytes.into() }
    }
}

fn done(returned: u64) -> Result<(), Refusal> {
    Refusal::or_result(returned).map(|_| ())
}
