//! Questions about recordings of bead mills, and their thinning: the calls of the proved library behind `include/mill.h`.
//!
//! A recording is bytes, 16 to a reading: [`encode`] makes them of [`Reading`]s and [`decode`] takes them apart. Every call
//! answers with its result or with one numbered [`Refusal`], for any bytes whatever; nothing needs to be tested first, and
//! nothing here panics. What the calls answer is proved; that these functions hand it on is tested.
//!
//! ```
//! use mill::{encode, question, thin, Reading, Slope};
//!
//! let reading = |time, a, slope_a| Reading { time, a, b: 50, slope_a, slope_b: Slope::Flat, pigment: 0 };
//! let recording = encode(&[
//!     reading(0, 40, Slope::Rising),
//!     reading(10, 60, Slope::Rising),
//!     reading(20, 80, Slope::Rising),
//!     reading(30, 70, Slope::Falling),
//! ]);
//!
//! // When did the batch top out?
//! let tops = question(&recording, b"peaks(A)")?;
//! assert!(tops.contains(30));
//! assert_eq!(tops.len(), 1);
//!
//! // The kept readings answer as the recording does.
//! let kept = thin(&recording, &[])?;
//! assert_eq!(question(&kept, b"peaks(A)")?, tops);
//! # Ok::<(), mill::Refusal>(())
//! ```
//!
//! | to | use |
//! | --- | --- |
//! | ask a recording | [`question`], [`degree`], [`pair`], [`band`], [`order`] |
//! | answer a buyer's laboratory | [`lab_question`], [`lab_degree`], [`lab_pair`] |
//! | keep the few readings that answer later | [`thin`]; piece by piece [`Thinning`]; reading by reading [`Live`] |
//! | know whether kept readings answer a text as the recording did; false promises nothing | [`assured`] |
//! | put one question to a year of batches | [`Report`] |
//! | find old recordings by a summary | [`entry`], [`find`], [`Entry`] |
//!
//! Only want of memory ends a program here, as it does everywhere in Rust.

#![deny(missing_docs)]

mod calls;
mod live;
mod reading;
mod refusal;
mod report;
mod set;
mod summary;
#[allow(missing_docs)] // `include/mill.h` says what each is.
pub mod sys;
mod thinning;
mod version;

pub use calls::{
    assured, band, degree, lab_degree, lab_pair, lab_question, lab_question_into, order, pair, question, question_into, thin,
    thin_into, Band, Curve, Degree, Order, Pair,
};
pub use live::Live;
pub use reading::{decode, encode, Reading, Slope};
pub use refusal::Refusal;
pub use report::{Added, Figures, Report};
pub use set::{Run, Set};
pub use summary::{entry, entry_into, find, find_into, Entry};
pub use thinning::Thinning;
pub use version::version;

/// The version of the library, that of `MILL_VERSION` in `include/mill.h`.
///
/// ```
/// assert_eq!(mill::VERSION.split('.').count(), 3);
/// ```
pub const VERSION: &str = env!("CARGO_PKG_VERSION");
