//! Readings, and recordings as their bytes.

use crate::{order, sys, Refusal};

/// What the head says a curve does at a reading.
///
/// ```
/// use mill::Slope;
/// assert_eq!(Slope::of_byte(2), Some(Slope::Rising));
/// assert_eq!(Slope::Rising.to_byte(), 2);
/// ```
#[derive(Clone, Copy, PartialEq, Eq, Hash, Debug)]
pub enum Slope {
    /// The curve goes down: the byte 0.
    Falling,
    /// It stays: the byte 1.
    Flat,
    /// It goes up: the byte 2.
    Rising,
}

/// One reading of a recording.
///
/// ```
/// use mill::{Reading, Slope};
/// let addition = Reading { time: 20, a: 8, b: 0, slope_a: Slope::Flat, slope_b: Slope::Flat, pigment: 7 };
/// assert_eq!(Reading::from_bytes(addition.to_bytes()), Ok(addition));
/// ```
#[derive(Clone, Copy, PartialEq, Eq, Hash, Debug)]
pub struct Reading {
    /// In tenths of a second, 0 to 2,000,000,000.
    pub time: u32,
    /// The batch, -1,000,000,000 to 1,000,000,000.
    pub a: i32,
    /// The master, the same.
    pub b: i32,
    /// What A does here.
    pub slope_a: Slope,
    /// What B does here.
    pub slope_b: Slope,
    /// The pigment added at this reading, 1 to 16 as the tin's label counts them; 0 for none.
    pub pigment: u8,
}

impl Slope {
    /// The byte of the slope in a reading.
    ///
    /// ```
    /// assert_eq!(mill::Slope::Falling.to_byte(), 0);
    /// ```
    pub fn to_byte(self) -> u8 {
        match self {
            Slope::Falling => sys::MILL_FALLING,
            Slope::Flat => sys::MILL_FLAT,
            Slope::Rising => sys::MILL_RISING,
        }
    }

    /// The slope of this byte, none for a byte over 2.
    ///
    /// ```
    /// assert_eq!(mill::Slope::of_byte(1), Some(mill::Slope::Flat));
    /// assert_eq!(mill::Slope::of_byte(3), None);
    /// ```
    pub fn of_byte(byte: u8) -> Option<Slope> {
        match byte {
            sys::MILL_FALLING => Some(Slope::Falling),
            sys::MILL_FLAT => Some(Slope::Flat),
            sys::MILL_RISING => Some(Slope::Rising),
            _ => None,
        }
    }
}

impl Reading {
    /// The 16 bytes of the reading in a recording. Numbers out of their range go in as they are: the calls refuse them.
    ///
    /// ```
    /// use mill::{Reading, Slope};
    /// let reading = Reading { time: 10, a: 60, b: 50, slope_a: Slope::Rising, slope_b: Slope::Flat, pigment: 0 };
    /// assert_eq!(reading.to_bytes(), [10, 0, 0, 0, 60, 0, 0, 0, 50, 0, 0, 0, 2, 1, 0, 0]);
    /// ```
    pub fn to_bytes(self) -> [u8; sys::MILL_RECORD_BYTES] {
        let [t0, t1, t2, t3] = self.time.to_le_bytes();
        let [a0, a1, a2, a3] = self.a.to_le_bytes();
        let [b0, b1, b2, b3] = self.b.to_le_bytes();
        let (slope_a, slope_b) = (self.slope_a.to_byte(), self.slope_b.to_byte());
        [t0, t1, t2, t3, a0, a1, a2, a3, b0, b1, b2, b3, slope_a, slope_b, self.pigment, 0]
    }

    /// The reading of these 16 bytes; the library's refusal where they break the rules of a reading.
    ///
    /// ```
    /// use mill::{Reading, Refusal};
    /// let reading = Reading::from_bytes([10, 0, 0, 0, 60, 0, 0, 0, 50, 0, 0, 0, 2, 1, 0, 0])?;
    /// assert_eq!((reading.time, reading.a, reading.b), (10, 60, 50));
    /// assert_eq!(Reading::from_bytes([255; 16]), Err(Refusal::BadRecord { index: 0 }));
    /// # Ok::<(), Refusal>(())
    /// ```
    pub fn from_bytes(bytes: [u8; sys::MILL_RECORD_BYTES]) -> Result<Reading, Refusal> {
        check(&bytes)?;
        Reading::of(bytes).ok_or(Refusal::BadRecord { index: 0 })
    }

    /// The numbers in these bytes, of which no more is asked than that the slopes are slopes.
    fn of(bytes: [u8; sys::MILL_RECORD_BYTES]) -> Option<Reading> {
        let [t0, t1, t2, t3, a0, a1, a2, a3, b0, b1, b2, b3, slope_a, slope_b, pigment, _] = bytes;
        Some(Reading {
            time: u32::from_le_bytes([t0, t1, t2, t3]),
            a: i32::from_le_bytes([a0, a1, a2, a3]),
            b: i32::from_le_bytes([b0, b1, b2, b3]),
            slope_a: Slope::of_byte(slope_a)?,
            slope_b: Slope::of_byte(slope_b)?,
            pigment,
        })
    }
}

/// The bytes of a recording of these readings. Readings that break the rules go in as they are: the calls refuse them.
///
/// ```
/// use mill::{encode, Reading, Slope};
/// let reading = Reading { time: 0, a: 40, b: 50, slope_a: Slope::Rising, slope_b: Slope::Flat, pigment: 0 };
/// let recording = encode(&[reading, Reading { time: 10, ..reading }]);
/// assert_eq!(recording.len(), 32);
/// ```
pub fn encode(readings: &[Reading]) -> Vec<u8> {
    readings.iter().flat_map(|reading| reading.to_bytes()).collect()
}

/// The readings of a recording, none of an empty one. Bytes that are no recording get the library's own refusal: 1, 2 or 3.
///
/// ```
/// use mill::{decode, encode, Refusal};
/// let recording = std::fs::read("../../crates/ask/data/run.rec")?;
/// let readings = decode(&recording)?;
/// assert_eq!(readings.len(), 8);
/// assert_eq!(readings[2].a, 80);
/// assert_eq!(encode(&readings), recording);
///
/// assert_eq!(decode(&recording[1..]), Err(Refusal::PartialRecord));
/// let backwards = encode(&[readings[1], readings[0]]);
/// assert_eq!(decode(&backwards), Err(Refusal::BadRecord { index: 1 }));
/// # Ok::<(), Box<dyn std::error::Error>>(())
/// ```
pub fn decode(recording: &[u8]) -> Result<Vec<Reading>, Refusal> {
    check(recording)?;
    let (records, _) = recording.as_chunks();
    let reading = |(index, bytes): (u32, &[u8; sys::MILL_RECORD_BYTES])| Reading::of(*bytes).ok_or(Refusal::BadRecord { index });
    (0..=u32::MAX).zip(records).map(reading).collect()
}

/// Whether the library takes the bytes for a recording, one without a reading too. It judges the recording before all else, and
/// of a sheet without lines there is nothing to refuse.
pub(crate) fn check(recording: &[u8]) -> Result<(), Refusal> {
    match order(recording, &[]) {
        Ok(_) | Err(Refusal::NoRecord) => Ok(()),
        Err(refusal) => Err(refusal),
    }
}
