//! How many calls were compared; said when the process ends.

use std::sync::atomic::{AtomicU64, Ordering};
use std::sync::Once;

static COMPARED: AtomicU64 = AtomicU64::new(0);

extern "C" {
    fn atexit(last: extern "C" fn()) -> i32;
}

extern "C" fn say_how_many() {
    eprintln!("compared calls: {}", COMPARED.load(Ordering::Relaxed));
}

/// Counts a call.
pub fn count() {
    static SAY: Once = Once::new();
    // SAFETY: the function only prints.
    SAY.call_once(|| assert_eq!(unsafe { atexit(say_how_many) }, 0));
    COMPARED.fetch_add(1, Ordering::Relaxed);
}
