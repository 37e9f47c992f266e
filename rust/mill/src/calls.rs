//! The calls on a recording.

use crate::{sys, Refusal, Run, Set};

/// A curve of the recording.
///
/// ```
/// let recording = std::fs::read("../../crates/ask/data/run.rec")?;
/// assert!(mill::pair(&recording, mill::Curve::A, 40)?.is_some());
/// assert!(mill::pair(&recording, mill::Curve::B, 40)?.is_none());
/// # Ok::<(), Box<dyn std::error::Error>>(())
/// ```
#[derive(Clone, Copy, PartialEq, Eq, Hash, Debug)]
pub enum Curve {
    /// The batch.
    A,
    /// The master.
    B,
}

/// How near the numbers of a question's set come to a wanted one.
///
/// ```
/// use mill::Degree;
/// let recording = std::fs::read("../../crates/ask/data/run.rec")?;
/// match mill::degree(&recording, b"peaks(A)", 51)? {
///     Degree::Met => println!("met"),
///     Degree::Short { distance, degree } => println!("{distance} off, degree {degree}"),
///     Degree::NoValue => println!("no value"),
/// }
/// # Ok::<(), Box<dyn std::error::Error>>(())
/// ```
#[derive(Clone, Copy, PartialEq, Debug)]
pub enum Degree {
    /// The wanted number is in the set.
    Met,
    /// It is not.
    Short {
        /// The distance to the nearest member, a whole number.
        distance: f64,
        /// 1 / (1 + distance).
        degree: f64,
    },
    /// The set is empty.
    NoValue,
}

/// The times of two tops.
///
/// ```
/// let recording = std::fs::read("../../crates/ask/data/run.rec")?;
/// let pair = mill::pair(&recording, mill::Curve::A, 40)?;
/// assert_eq!(pair, Some(mill::Pair { earlier: 30, later: 70 }));
/// # Ok::<(), Box<dyn std::error::Error>>(())
/// ```
#[derive(Clone, Copy, PartialEq, Eq, Hash, Debug)]
pub struct Pair {
    /// The time of the one.
    pub earlier: u32,
    /// The time of the other.
    pub later: u32,
}

/// What a question says of readings that are good to plus or minus some units. An empty set is none.
///
/// ```
/// let recording = std::fs::read("../../crates/ask/data/run.rec")?;
/// let band = mill::band(&recording, b"ampl(A)", 100)?;
/// assert_eq!(band.certain, Some(mill::Run { low: -2_000_000_000, high: 0 }));
/// assert_eq!(band.possible, Some(mill::Run { low: -2_000_000_000, high: 260 }));
/// # Ok::<(), Box<dyn std::error::Error>>(())
/// ```
#[derive(Clone, Copy, PartialEq, Eq, Hash, Debug)]
pub struct Band {
    /// The numbers with which it is true of every curve within the band.
    pub certain: Option<Run>,
    /// The numbers with which it is true of at least one.
    pub possible: Option<Run>,
}

/// What an order sheet says of a recording.
///
/// ```
/// use mill::{encode, order, Order, Reading, Slope};
/// let flat = Reading { time: 0, a: 0, b: 0, slope_a: Slope::Flat, slope_b: Slope::Flat, pigment: 0 };
/// let recording = encode(&[flat, Reading { time: 10, pigment: 2, ..flat }, Reading { time: 20, pigment: 1, ..flat }]);
/// assert_eq!(order(&recording, &[[2, 1]])?, Order::Met);
/// assert_eq!(order(&recording, &[[2, 1], [1, 2]])?, Order::Broken { time: 10, line: 1 });
/// # Ok::<(), mill::Refusal>(())
/// ```
#[derive(Clone, Copy, PartialEq, Eq, Hash, Debug)]
pub enum Order {
    /// Every line is met.
    Met,
    /// A line is broken.
    Broken {
        /// The time of the first record whose addition breaks a line.
        time: u32,
        /// The first line that it breaks, counted from 0.
        line: u32,
    },
}

/// The set of all numbers that make the text true of the recording.
///
/// ```
/// let recording = std::fs::read("../../crates/ask/data/run.rec")?;
/// let tops = mill::question(&recording, b"peaks(A)")?;
/// assert_eq!(tops.runs(), [mill::Run { low: 30, high: 30 }, mill::Run { low: 70, high: 70 }]);
/// # Ok::<(), Box<dyn std::error::Error>>(())
/// ```
pub fn question(recording: &[u8], text: &[u8]) -> Result<Set, Refusal> {
    let mut out = [0; sys::MILL_SET_BYTES];
    let length = question_into(recording, text, &mut out)?;
    Ok(set(&out, length))
}

/// The same set as bytes in `out`, 8 to a run, and how many they are. What is behind them stays as it was.
///
/// ```
/// let recording = std::fs::read("../../crates/ask/data/run.rec")?;
/// let mut out = [255; 20];
/// assert_eq!(mill::question_into(&recording, b"peaks(A)", &mut out)?, 16);
/// assert_eq!(out[..], [30, 0, 0, 0, 30, 0, 0, 0, 70, 0, 0, 0, 70, 0, 0, 0, 255, 255, 255, 255]);
/// # Ok::<(), Box<dyn std::error::Error>>(())
/// ```
pub fn question_into(recording: &[u8], text: &[u8], out: &mut [u8]) -> Result<usize, Refusal> {
    // SAFETY: each pointer is a live slice's with its own length, and `out` is borrowed alone.
    let returned = unsafe {
        sys::mill_question(recording.as_ptr(), recording.len(), text.as_ptr(), text.len(), out.as_mut_ptr(), out.len())
    };
    bytes_written(returned)
}

/// How near the text's set comes to `target`.
///
/// ```
/// use mill::{degree, Degree};
/// let recording = std::fs::read("../../crates/ask/data/run.rec")?;
/// assert_eq!(degree(&recording, b"peaks(A)", 30)?, Degree::Met);
/// assert_eq!(degree(&recording, b"peaks(A)", 51)?, Degree::Short { distance: 19.0, degree: 0.05 });
/// assert_eq!(degree(&recording, b"lag", 30)?, Degree::NoValue);
/// # Ok::<(), Box<dyn std::error::Error>>(())
/// ```
pub fn degree(recording: &[u8], text: &[u8], target: i64) -> Result<Degree, Refusal> {
    let (mut distance, mut degree) = (0.0, 0.0);
    // SAFETY: each pointer is a live slice's with its own length, or a live number's.
    let returned = unsafe {
        sys::mill_degree(recording.as_ptr(), recording.len(), text.as_ptr(), text.len(), target, &mut distance, &mut degree)
    };
    nearness(returned, distance, degree)
}

/// The first two tops of the curve whose times lie `target` apart, if there are any: least earlier time, then least later time.
///
/// ```
/// use mill::{pair, Curve, Pair};
/// let recording = std::fs::read("../../crates/ask/data/run.rec")?;
/// assert_eq!(pair(&recording, Curve::A, 40)?, Some(Pair { earlier: 30, later: 70 }));
/// assert_eq!(pair(&recording, Curve::A, 41)?, None);
/// # Ok::<(), Box<dyn std::error::Error>>(())
/// ```
pub fn pair(recording: &[u8], curve: Curve, target: i64) -> Result<Option<Pair>, Refusal> {
    let (mut earlier, mut later) = (0, 0);
    // SAFETY: the pointer is a live slice's with its length, the others are live numbers'.
    let returned =
        unsafe { sys::mill_pair(recording.as_ptr(), recording.len(), number_of(curve), target, &mut earlier, &mut later) };
    two_times(returned, earlier, later)
}

/// The kept readings of the recording under the marks, up to 8. [`Thinning`](crate::Thinning) does the same piece by piece.
///
/// A question that is [`assured`] under the marks gets of them what it gets of the recording: every one that has none of F, G,
/// X, U and W and whose after-times are among the marks, and more.
///
/// ```
/// use mill::{question, thin};
/// let recording = std::fs::read("../../crates/ask/data/run.rec")?;
/// let kept = thin(&recording, &[40])?;
/// assert_eq!(question(&kept, b"lowafter(A,40)"), question(&recording, b"lowafter(A,40)"));
/// # Ok::<(), Box<dyn std::error::Error>>(())
/// ```
pub fn thin(recording: &[u8], marks: &[u32]) -> Result<Vec<u8>, Refusal> {
    let marks = mark_bytes(marks);
    let mut out = vec![0; recording.len().min(sys::MILL_MAX_RECORDS * sys::MILL_RECORD_BYTES)];
    let length = thin_into(recording, &marks, &mut out)?;
    out.truncate(length);
    Ok(out)
}

/// The same kept readings in `out`, and how many bytes they are, with the marks as bytes. What is behind them stays as it was.
///
/// ```
/// let recording = std::fs::read("../../crates/ask/data/run.rec")?;
/// let mut out = vec![0; recording.len()];
/// let length = mill::thin_into(&recording, &40_u32.to_le_bytes(), &mut out)?;
/// assert_eq!(out[..length], mill::thin(&recording, &[40])?);
/// # Ok::<(), Box<dyn std::error::Error>>(())
/// ```
pub fn thin_into(recording: &[u8], marks: &[u8], out: &mut [u8]) -> Result<usize, Refusal> {
    // SAFETY: each pointer is a live slice's with its own length, and `out` is borrowed alone.
    let returned =
        unsafe { sys::mill_thin(recording.as_ptr(), recording.len(), marks.as_ptr(), marks.len(), out.as_mut_ptr(), out.len()) };
    bytes_written(returned)
}

/// What the text, one question on extremes alone, says of every curve within `e` units of the recording, and of at least one.
///
/// ```
/// let recording = std::fs::read("../../crates/ask/data/run.rec")?;
/// let band = mill::band(&recording, b"high(A)", 5)?;
/// assert_eq!(band.certain.map(|run| run.high), Some(85));
/// assert_eq!(band.possible.map(|run| run.high), Some(95));
/// # Ok::<(), Box<dyn std::error::Error>>(())
/// ```
pub fn band(recording: &[u8], text: &[u8], e: i64) -> Result<Band, Refusal> {
    let [mut low, mut high, mut lowest, mut highest] = [0; 4];
    // SAFETY: each pointer is a live slice's with its own length, or a live number's.
    let returned = unsafe {
        let (recording_at, text_at) = (recording.as_ptr(), text.as_ptr());
        sys::mill_band(recording_at, recording.len(), text_at, text.len(), e, &mut low, &mut high, &mut lowest, &mut highest)
    };
    let bits = Refusal::or_result(returned)?;
    let run = |bit: u64, low, high| (u64::from(bits) & bit != 0).then_some(Run { low, high });
    Ok(Band { certain: run(sys::MILL_CERTAIN, low, high), possible: run(sys::MILL_POSSIBLE, lowest, highest) })
}

/// Whether the additions keep to an order sheet: lines [a, b], pigment a before pigment b.
///
/// ```
/// let recording = std::fs::read("../../crates/ask/data/run.rec")?;
/// assert_eq!(mill::order(&recording, &[[1, 2]])?, mill::Order::Met);
/// # Ok::<(), Box<dyn std::error::Error>>(())
/// ```
pub fn order(recording: &[u8], sheet: &[[u8; sys::MILL_LINE_BYTES]]) -> Result<Order, Refusal> {
    let (sheet, mut time, mut line) = (sheet.as_flattened(), 0, 0);
    // SAFETY: each pointer is a live slice's with its own length, or a live number's.
    let returned =
        unsafe { sys::mill_order(recording.as_ptr(), recording.len(), sheet.as_ptr(), sheet.len(), &mut time, &mut line) };
    match Refusal::of_returned(returned) {
        Some(refusal) => Err(refusal),
        None if returned == sys::MILL_SHEET_BROKEN => Ok(Order::Broken { time, line }),
        None => Ok(Order::Met),
    }
}

/// As [`question`], for a buyer's laboratory, which is not to learn the master's curve. The marks are those with which the
/// readings were thinned: with others nothing is promised.
///
/// ```
/// use mill::{lab_question, Refusal};
/// let recording = std::fs::read("../../crates/ask/data/run.rec")?;
/// let kept = mill::thin(&recording, &[40])?;
/// assert!(lab_question(&kept, &[40], b"lowafter(A,40)")?.contains(45));
/// assert_eq!(lab_question(&kept, &[40], b"high(B)"), Err(Refusal::NotForLaboratory));
/// # Ok::<(), Box<dyn std::error::Error>>(())
/// ```
pub fn lab_question(recording: &[u8], marks: &[u32], text: &[u8]) -> Result<Set, Refusal> {
    let mut out = [0; sys::MILL_SET_BYTES];
    let length = lab_question_into(recording, &mark_bytes(marks), text, &mut out)?;
    Ok(set(&out, length))
}

/// As [`question_into`], for a laboratory, with the marks as bytes.
///
/// ```
/// let recording = std::fs::read("../../crates/ask/data/run.rec")?;
/// let mut out = [0; 16];
/// assert_eq!(mill::lab_question_into(&recording, &[], b"peaks(A)", &mut out)?, 16);
/// # Ok::<(), Box<dyn std::error::Error>>(())
/// ```
pub fn lab_question_into(recording: &[u8], marks: &[u8], text: &[u8], out: &mut [u8]) -> Result<usize, Refusal> {
    // SAFETY: each pointer is a live slice's with its own length, and `out` is borrowed alone.
    let returned = unsafe {
        let (recording_at, marks_at, text_at) = (recording.as_ptr(), marks.as_ptr(), text.as_ptr());
        let (room, out) = (out.len(), out.as_mut_ptr());
        sys::mill_lab_question(recording_at, recording.len(), marks_at, marks.len(), text_at, text.len(), out, room)
    };
    bytes_written(returned)
}

/// As [`degree`], for a laboratory.
///
/// ```
/// let recording = std::fs::read("../../crates/ask/data/run.rec")?;
/// let near = mill::lab_degree(&recording, &[], b"peaks(A)", 51)?;
/// assert_eq!(near, mill::Degree::Short { distance: 19.0, degree: 0.05 });
/// # Ok::<(), Box<dyn std::error::Error>>(())
/// ```
pub fn lab_degree(recording: &[u8], marks: &[u32], text: &[u8], target: i64) -> Result<Degree, Refusal> {
    let (marks, mut distance, mut degree) = (mark_bytes(marks), 0.0, 0.0);
    // SAFETY: each pointer is a live slice's with its own length, or a live number's.
    let returned = unsafe {
        let (recording_at, marks_at, text_at) = (recording.as_ptr(), marks.as_ptr(), text.as_ptr());
        let (near, degree) = (&mut distance, &mut degree);
        sys::mill_lab_degree(recording_at, recording.len(), marks_at, marks.len(), text_at, text.len(), target, near, degree)
    };
    nearness(returned, distance, degree)
}

/// As [`pair`], for a laboratory.
///
/// ```
/// use mill::{lab_pair, Curve, Pair, Refusal};
/// let recording = std::fs::read("../../crates/ask/data/run.rec")?;
/// assert_eq!(lab_pair(&recording, Curve::A, 40)?, Some(Pair { earlier: 30, later: 70 }));
/// assert_eq!(lab_pair(&recording, Curve::B, 40), Err(Refusal::NotForLaboratory));
/// # Ok::<(), Box<dyn std::error::Error>>(())
/// ```
pub fn lab_pair(recording: &[u8], curve: Curve, target: i64) -> Result<Option<Pair>, Refusal> {
    let (mut earlier, mut later) = (0, 0);
    // SAFETY: the pointer is a live slice's with its length, the others are live numbers'.
    let returned =
        unsafe { sys::mill_lab_pair(recording.as_ptr(), recording.len(), number_of(curve), target, &mut earlier, &mut later) };
    two_times(returned, earlier, later)
}

/// Whether kept readings answer the text as their recording did, under the marks of the thinning. `false` promises nothing: the
/// text may be asked, and is answered of the kept readings alone.
///
/// ```
/// use mill::{assured, question, thin};
/// // What did the batch read when pigment 3 went in? Every addition is kept.
/// assert_eq!(assured(b"F(P=3&A=v)", &[]), Ok(true));
/// let recording = std::fs::read("../../crates/ask/data/run.rec")?;
/// assert_eq!(question(&thin(&recording, &[])?, b"F(P=3&A=v)"), question(&recording, b"F(P=3&A=v)"));
/// // All that it ever read: readings between may be gone.
/// assert_eq!(assured(b"F(A=v)", &[]), Ok(false));
/// // An after-time must be a mark.
/// assert_eq!((assured(b"capafter(A,36000)", &[36000]), assured(b"capafter(A,36000)", &[10000])), (Ok(true), Ok(false)));
/// # Ok::<(), Box<dyn std::error::Error>>(())
/// ```
pub fn assured(text: &[u8], marks: &[u32]) -> Result<bool, Refusal> {
    let marks = mark_bytes(marks);
    // SAFETY: each pointer is a live slice's with its own length.
    let returned = unsafe { sys::mill_assured(text.as_ptr(), text.len(), marks.as_ptr(), marks.len()) };
    Refusal::or_result(returned).map(|told| u64::from(told) == sys::MILL_ASSURED)
}

pub(crate) fn number_of(curve: Curve) -> u32 {
    match curve {
        Curve::A => sys::MILL_CURVE_A,
        Curve::B => sys::MILL_CURVE_B,
    }
}

/// The marks as the calls take them.
pub(crate) fn mark_bytes(marks: &[u32]) -> Vec<u8> {
    marks.iter().flat_map(|mark| mark.to_le_bytes()).collect()
}

/// The set in the first bytes of `out`, as many as the call says.
fn set(out: &[u8], length: usize) -> Set {
    Set::of_bytes(out.get(..length).unwrap_or_default())
}

fn nearness(returned: u64, distance: f64, degree: f64) -> Result<Degree, Refusal> {
    match (Refusal::of_returned(returned), returned) {
        (Some(refusal), _) => Err(refusal),
        (None, sys::MILL_MET) => Ok(Degree::Met),
        (None, sys::MILL_SHORT) => Ok(Degree::Short { distance, degree }),
        (None, _) => Ok(Degree::NoValue),
    }
}

fn two_times(returned: u64, earlier: u32, later: u32) -> Result<Option<Pair>, Refusal> {
    let found = Refusal::or_result(returned)?;
    Ok((u64::from(found) == sys::MILL_PAIR).then_some(Pair { earlier, later }))
}

pub(crate) fn bytes_written(returned: u64) -> Result<usize, Refusal> {
    Refusal::or_result(returned).map(|length| length as usize)
}
