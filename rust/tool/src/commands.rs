//! The commands, each in a file of its own.

mod add;
mod ask;
mod assured;
mod band;
mod degree;
mod entry;
mod export;
mod find;
mod import;
mod lab;
mod live;
mod order;
mod pair;
mod pin;
mod raw;
mod report;
mod show;
mod thin;
mod verify;

use crate::arguments::Arguments;
use crate::options::Opt;
use crate::output::Answer;
use crate::pages;
use crate::trouble::Trouble;

pub struct Command {
    pub name: &'static str,
    /// What stands behind the name on its line of usage.
    pub operands: &'static str,
    /// What it does, in a few words.
    pub does: &'static str,
    /// What else its page says.
    pub about: &'static str,
    /// Its options, beside `--json` and `--help`.
    pub takes: &'static [Opt],
    pub run: fn(&Arguments) -> Result<Answer, Trouble>,
}

pub const COMMANDS: [Command; 19] = [
    ask::COMMAND,
    degree::COMMAND,
    pair::COMMAND,
    band::COMMAND,
    order::COMMAND,
    report::COMMAND,
    assured::COMMAND,
    entry::COMMAND,
    find::COMMAND,
    lab::COMMAND,
    show::COMMAND,
    thin::COMMAND,
    add::COMMAND,
    verify::COMMAND,
    pin::COMMAND,
    raw::COMMAND,
    live::COMMAND,
    import::COMMAND,
    export::COMMAND,
];

const STATUS: &str = "\
Exit status: 0 an answer, 1 a refusal (its number, its place and a sentence),
2 a command line that is not understood, or trouble with a file.
";

const NOTHING: &str = "With --exit-code it is 3 where nothing is found, met or fits.\n";

/// What `mill --help` prints.
pub fn overview() -> String {
    let mut page = "Usage: mill COMMAND ..\n\nQuestions about recordings of bead mills, and their keeping.\n\n".to_string();
    for command in &COMMANDS {
        page.push_str(&format!("  {:<7} {}\n", command.name, command.does));
    }
    page.push_str("\n'mill COMMAND --help' says more of each. A file named - is standard input.\n");
    let pages: Vec<String> = pages::names().map(|name| format!("'mill help {name}'")).collect();
    let (last, first) = pages.split_last().map_or(("", &pages[..0]), |(last, first)| (last.as_str(), first));
    page.push_str(&format!("There are pages too: {}\nand {last}.\n", first.join(", ")));
    page.push_str("Every command takes --json. 'mill --version' prints the version.\n\n");
    page + STATUS + NOTHING
}

impl Command {
    /// What `mill COMMAND --help` prints.
    pub fn page(&self) -> String {
        let mut page = format!("Usage: mill {} {}\n\n{}\n\n{}\n", self.name, self.operands, self.does, self.about);
        page.push_str("Options:\n");
        for opt in self.takes.iter().chain(&[Opt::Json, Opt::Help]) {
            page.push_str(&opt.form().line());
        }
        page.push('\n');
        page + STATUS + if self.takes.contains(&Opt::ExitCode) { NOTHING } else { "" }
    }
}
