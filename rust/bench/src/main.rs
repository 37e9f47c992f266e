//! Times of the library beside plain Rust, their ratio, and the most that it is to be, in microseconds on 4,096 records unless a row says
//! otherwise; calls of the library among themselves; and how they grow, with the slowest question. The tables are those of `docs/SPEED.md`: `tests/speed/run` prints
//! them all, with an argument the rows whose name has it.

mod calls;
mod growth;
mod measure;
mod questions;
mod recordings;
mod summaries;
mod thinning;

fn main() {
    measure::heading("plain Rust");
    thinning::rows();
    questions::rows();
    calls::rows();
    summaries::rows();
    measure::heading("the other");
    calls::among_themselves();
    growth::rows();
    growth::of_texts_and_tops();
}
