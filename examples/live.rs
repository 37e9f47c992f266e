//! live RECORDING [MOMENT]: hands a run its readings one by one, as a mill does, and prints how many are held after each.
//! After the reading of that number, from 1, a moment is set; in the end the run goes back to it.

use mill::{Live, Refusal};
use std::process::ExitCode;

fn main() -> ExitCode {
    let arguments: Vec<String> = std::env::args().skip(1).collect();
    let Some((name, rest)) = arguments.split_first() else {
        eprintln!("usage: live RECORDING [MOMENT]");
        return ExitCode::from(2);
    };
    let recording = match std::fs::read(name) {
        Ok(recording) => recording,
        Err(error) => {
            eprintln!("{name}: {error}");
            return ExitCode::from(2);
        }
    };
    let moment = rest.first().map_or(0, |moment| moment.parse().unwrap_or(0));
    match grown(&recording, moment) {
        Ok(()) => ExitCode::SUCCESS,
        Err(refusal) => {
            eprintln!(
                "refused {} {}: {}",
                refusal.number(),
                refusal.place(),
                refusal.sentence()
            );
            ExitCode::FAILURE
        }
    }
}

fn grown(recording: &[u8], moment: usize) -> Result<(), Refusal> {
    let mut run = Live::start(&[])?;
    for (number, reading) in (1..).zip(recording.chunks(16)) {
        run.add(reading)?;
        if number == moment {
            run.save(1)?;
        }
        println!("{} held", run.kept()?.len() / 16);
    }
    if moment != 0 {
        run.restore(1)?;
        println!("gone back: {} held", run.kept()?.len() / 16);
    }
    Ok(())
}
