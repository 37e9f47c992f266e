//! thin KEPT [MARK..] <RECORDING: thins a recording of any length, piece by piece as it comes in, into the file KEPT.
//! A works would also note the marks beside it, and write it so that no crash loses it, as the tool `mill` does.

use mill::{Refusal, Thinning};
use std::io::Read;
use std::process::ExitCode;

const PIECE: u64 = 4 * 16;

fn main() -> ExitCode {
    let arguments: Vec<String> = std::env::args().skip(1).collect();
    let Some((name, marks)) = arguments.split_first() else {
        eprintln!("usage: thin KEPT [MARK..] <RECORDING");
        return ExitCode::from(2);
    };
    let marks: Vec<u32> = marks
        .iter()
        .map(|mark| mark.parse().unwrap_or(u32::MAX))
        .collect();
    match thinned(&marks) {
        Ok((came, kept)) => match std::fs::write(name, &kept) {
            Ok(()) => {
                println!("{} readings, {} kept", came / 16, kept.len() / 16);
                ExitCode::SUCCESS
            }
            Err(error) => {
                eprintln!("{name}: {error}");
                ExitCode::from(2)
            }
        },
        Err(refusal) => {
            eprintln!(
                "refused {} {}: {}",
                refusal.number(),
                refusal.place(),
                refusal.sentence()
            );
            ExitCode::FAILURE
        }
    }
}

/// How many bytes came in, and what is kept of them.
fn thinned(marks: &[u32]) -> Result<(usize, Vec<u8>), Refusal> {
    let mut thinning = Thinning::start(marks)?;
    let mut came = 0;
    loop {
        let mut piece = Vec::new();
        if std::io::stdin()
            .lock()
            .take(PIECE)
            .read_to_end(&mut piece)
            .is_err()
            || piece.is_empty()
        {
            return Ok((came, thinning.into_held()));
        }
        // A piece that is refused is not taken; what is held stays.
        thinning.take(&piece)?;
        came += piece.len();
    }
}
