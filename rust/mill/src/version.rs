//! The version of the library that is linked.

use crate::sys;

/// The version of the library that is linked, as its three numbers. [`VERSION`](crate::VERSION) is that of this crate.
///
/// ```
/// assert!(mill::version() >= (1, 1, 0));
/// ```
pub fn version() -> (u32, u32, u32) {
    // SAFETY: it takes nothing and touches nothing.
    let number = unsafe { sys::mill_version() } as u32;
    (number >> 16, number >> 8 & 255, number & 255)
}
