//! Numbered cases. Each has its own seed, made of the test's name and its number, so it can be run alone:
//! `MILL_CASE='name:number' cargo test --release`. `MILL_TIMES=n` runs n times as many.

use super::random::Random;
use std::cell::Cell;
use std::panic::Location;

thread_local! {
    static CURRENT: Cell<(&'static str, u64)> = const { Cell::new(("", 0)) };
    static CALLED: Cell<Option<&'static Location<'static>>> = const { Cell::new(None) };
}

/// The name and number of the case that this thread is at.
pub fn current() -> (&'static str, u64) {
    CURRENT.get()
}

/// The file and line of the test that made this thread's last call.
pub fn called() -> (&'static str, u32) {
    CALLED.get().map_or(("", 0), |place| (place.file(), place.line()))
}

/// Says where a call is made, for the message of a failure.
pub fn calling(place: &'static Location<'static>) {
    CALLED.set(Some(place));
}

/// Says which case begins, for the message of a failure.
pub fn begin(name: &'static str, case: u64) {
    CURRENT.set((name, case));
}

/// Runs cases 0 to `count` - 1.
pub fn cases(name: &'static str, count: u64, mut run: impl FnMut(&mut Random)) {
    let times = std::env::var("MILL_TIMES").map_or(1, |times| times.parse().expect("MILL_TIMES is a number"));
    let only = std::env::var("MILL_CASE").ok();
    for case in 0..count * times {
        if only.as_ref().is_some_and(|only| *only != format!("{name}:{case}")) {
            continue;
        }
        begin(name, case);
        run(&mut Random::of_case(name, case));
    }
}

/// True where one case is run alone; then a test can't ask that all kinds of outcome came up.
pub fn one_alone() -> bool {
    std::env::var_os("MILL_CASE").is_some()
}
