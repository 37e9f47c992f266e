//! The tool `mill`: recordings of bead mills asked, thinned, shown and kept from the command line.
//!
//! What a recording answers comes from the proved library, call by call. This program reads files, hands them in, and prints or
//! keeps what comes out. `docs/TOOL.md` is its page for users.

#![forbid(unsafe_code)]

mod arguments;
mod assured;
mod bad_lines;
mod commands;
mod crc64;
mod csv;
mod events;
mod hints;
mod input;
mod json;
mod layout;
mod lock;
mod marks;
mod noise;
mod options;
mod output;
mod pages;
mod readings;
mod replace;
mod similar;
mod source;
mod store;
mod summary;
mod table;
mod take;
mod text;
mod tin;
mod trouble;

use arguments::Arguments;
use commands::{Command, COMMANDS};
use output::Answer;
use std::ffi::OsString;
use std::process::ExitCode;
use trouble::Trouble;

fn main() -> ExitCode {
    let mut words = std::env::args_os().skip(1);
    let said = match words.next() {
        None => Err((Trouble::Usage("no command; see 'mill --help'".to_string()), false)),
        Some(word) => answer(&word, words.collect()),
    };
    ExitCode::from(match said.map(|answer| (answer.status, answer.say())) {
        Ok((status, Ok(()) | Err(Trouble::Unread))) => status,
        Ok((_, Err(trouble))) => complain(&trouble, false),
        Err((trouble, json)) => complain(&trouble, json),
    })
}

/// The answer to a command, or the trouble and whether it is to be told as JSON.
fn answer(word: &OsString, words: Vec<OsString>) -> Result<Answer, (Trouble, bool)> {
    match word.to_str() {
        Some("-h" | "--help") => return Ok(Answer::text(commands::overview())),
        Some("help") => return help(words).map_err(|trouble| (trouble, false)),
        Some("-V" | "--version") => return Ok(Answer::text(format!("mill {}\n", env!("CARGO_PKG_VERSION")))),
        _ => (),
    }
    let command = named(word).ok_or_else(|| (unknown(word, names()), false))?;
    let arguments = Arguments::read(command.name, command.takes, words).map_err(|trouble| (trouble, false))?;
    match arguments.help {
        true => Ok(Answer::text(command.page())),
        false => (command.run)(&arguments).map_err(|trouble| (trouble, arguments.json)),
    }
}

/// `mill help`, `mill help COMMAND` and `mill help PAGE`.
fn help(words: Vec<OsString>) -> Result<Answer, Trouble> {
    let Some(word) = words.first() else { return Ok(Answer::text(commands::overview())) };
    let page = named(word).map(Command::page).or_else(|| pages::named(word.to_str()?).map(str::to_string));
    page.map(Answer::text).ok_or_else(|| unknown(word, names().chain(pages::names())))
}

fn names() -> impl Iterator<Item = &'static str> {
    COMMANDS.iter().map(|command| command.name)
}

fn named(word: &OsString) -> Option<&'static Command> {
    COMMANDS.iter().find(|command| word == command.name)
}

fn unknown<'a>(word: &OsString, names: impl Iterator<Item = &'a str>) -> Trouble {
    let typed = word.to_string_lossy();
    let hint = similar::hint(&typed, names);
    Trouble::Usage(format!("no command '{}'{hint}; see 'mill --help'", typed.escape_debug()))
}

/// Says why there is no answer. What is asked for as JSON goes to standard output, as an answer would.
fn complain(trouble: &Trouble, json: bool) -> u8 {
    match trouble.json().filter(|_| json).map(|line| Answer::text(line).say()) {
        None => output::tell(&trouble.lines()),
        Some(Ok(()) | Err(Trouble::Unread)) => (),
        Some(Err(trouble)) => return complain(&trouble, false),
    }
    trouble.status()
}
