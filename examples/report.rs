//! report TEXT TARGET RECORDING..: how near the numbers of one question came to a wanted one, over all the recordings.

use mill::{Added, Figures, Report};
use std::error::Error;
use std::process::ExitCode;

fn main() -> ExitCode {
    let arguments: Vec<String> = std::env::args().skip(1).collect();
    let [text, target, names @ ..] = &arguments[..] else {
        eprintln!("usage: report TEXT TARGET RECORDING..");
        return ExitCode::from(2);
    };
    match figures(text, target, names) {
        Ok(figures) => {
            println!(
                "met {}, empty {}, distances {}",
                figures.met, figures.empty, figures.distances
            );
            if let Some(mean) = figures.mean {
                println!("mean degree {mean:.6}");
            }
            ExitCode::SUCCESS
        }
        Err(error) => match error.downcast::<mill::Refusal>() {
            Ok(refusal) => {
                eprintln!(
                    "refused {} {}: {}",
                    refusal.number(),
                    refusal.place(),
                    refusal.sentence()
                );
                ExitCode::FAILURE
            }
            Err(error) => {
                eprintln!("{error}");
                ExitCode::from(2)
            }
        },
    }
}

fn figures(text: &str, target: &str, names: &[String]) -> Result<Figures, Box<dyn Error>> {
    let mut report = Report::start(names.len() as u32, text.as_bytes(), target.parse()?)?;
    for name in names {
        if let Added::Report(figures) = report.add(&std::fs::read(name)?)? {
            return Ok(figures);
        }
    }
    Err("a report needs a recording".into())
}
