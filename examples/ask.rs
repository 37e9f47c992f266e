//! ask RECORDING TEXT: all whole numbers that make the text true of the recording, one run a line.

use std::process::ExitCode;

fn main() -> ExitCode {
    let arguments: Vec<String> = std::env::args().collect();
    let [_, name, text] = &arguments[..] else {
        eprintln!("usage: ask RECORDING TEXT");
        return ExitCode::from(2);
    };
    let recording = match std::fs::read(name) {
        Ok(recording) => recording,
        Err(error) => {
            eprintln!("{name}: {error}");
            return ExitCode::from(2);
        }
    };
    match mill::question(&recording, text.as_bytes()) {
        Ok(set) => {
            for run in &set {
                println!("{} {}", run.low, run.high);
            }
            ExitCode::SUCCESS
        }
        Err(refusal) => {
            eprintln!(
                "refused {} {}: {}",
                refusal.number(),
                refusal.place(),
                refusal.sentence()
            );
            ExitCode::FAILURE
        }
    }
}
