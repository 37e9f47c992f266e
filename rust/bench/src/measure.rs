//! Rows of the tables, in Markdown. The two sides of a row must say the same, else it stops; then each time is the best of many, warm,
//! the two sides in turn.

use std::fmt::Debug;
use std::hint::black_box;
use std::time::{Duration, Instant};

/// What a call that writes says, with the bytes that it wrote.
pub type Said = Result<usize, (u32, u32)>;

/// Whether a row is asked for: with an argument, those whose name has it.
pub fn wanted(name: &str) -> bool {
    std::env::args().nth(1).is_none_or(|part| name.contains(&part))
}

/// A table against plain Rust or another call.
pub fn heading(other: &str) {
    println!("\n| call | library | {other} | ratio | aim |\n| --- | --- | --- | --- | --- |");
}

/// One row, for two calls that give their answer.
pub fn answering<T: Debug + PartialEq>(
    name: &str,
    aim: Option<f64>,
    library: impl Fn() -> Result<T, mill::Refusal>,
    plain: impl Fn() -> Result<T, (u32, u32)>,
) {
    if wanted(name) {
        assert_eq!(library().map_err(refused), plain(), "{name}");
        row(name, best(&library, &plain), aim);
    }
}

/// One row, for two calls that write bytes.
pub fn writing(
    name: &str,
    aim: f64,
    library: impl Fn(&mut [u8]) -> Result<usize, mill::Refusal>,
    plain: impl Fn(&mut [u8]) -> Said,
) {
    if !wanted(name) {
        return;
    }
    let (mut left, mut right) = (vec![0; 65_536], vec![0; 65_536]);
    let said = library(&mut left).map_err(refused);
    assert_eq!(said, plain(&mut right), "{name}");
    assert_eq!(left, right, "{name}");
    let times = best(|| library(black_box(&mut left)), || plain(black_box(&mut right)));
    assert_eq!(left, right, "{name}");
    let name = said.map_or_else(|(number, _)| format!("{name} (refused {number})"), |_| name.into());
    row(&name, times, Some(aim));
}

pub fn refused(refusal: mill::Refusal) -> (u32, u32) {
    (refusal.number(), refusal.place())
}

pub fn row(name: &str, (library, other): (f64, f64), aim: Option<f64>) {
    let aim = aim.map_or(String::new(), |aim| format!("{aim:?}"));
    println!("| {name} | {} | {} | {:.2} | {aim} |", microseconds(library), microseconds(other), library / other);
}

/// Three figures at least, none behind the point from 100 on.
pub fn microseconds(seconds: f64) -> String {
    let time = seconds * 1e6;
    match time {
        ..1.0 => format!("{time:.2}"),
        ..100.0 => format!("{time:.1}"),
        ..1_000.0 => format!("{time:.0}"),
        _ => format!("{},{:03}", time.round() as u64 / 1_000, time.round() as u64 % 1_000),
    }
}

/// The best times of two calls in seconds.
pub fn best<T, U>(mut library: impl FnMut() -> T, mut other: impl FnMut() -> U) -> (f64, f64) {
    let [library, other] = best_of([&mut || drop(black_box(library())), &mut || drop(black_box(other()))]);
    (library, other)
}

/// The best times of some calls in seconds, over batches of about a millisecond in turn, for half a second or 40 rounds.
pub fn best_of<const CALLS: usize>(calls: [&mut dyn FnMut(); CALLS]) -> [f64; CALLS] {
    let mut batches = calls.map(Batch::new);
    let (start, mut rounds) = (Instant::now(), 0);
    while rounds < 40 || start.elapsed() < Duration::from_millis(500) {
        batches.iter_mut().for_each(Batch::run);
        rounds += 1;
    }
    batches.map(|batch| batch.best)
}

/// A call so many times one after another, and the best time so far for one.
struct Batch<'a> {
    call: &'a mut dyn FnMut(),
    times: u32,
    best: f64,
}

impl Batch<'_> {
    fn new(call: &mut dyn FnMut()) -> Batch<'_> {
        let start = Instant::now();
        call();
        let times = (Duration::from_millis(1).as_nanos() / start.elapsed().as_nanos().max(1)).clamp(1, 10_000) as u32;
        Batch { call, times, best: f64::INFINITY }
    }

    fn run(&mut self) {
        let start = Instant::now();
        for _ in 0..self.times {
            (self.call)();
        }
        self.best = self.best.min(start.elapsed().as_secs_f64() / f64::from(self.times));
    }
}
