//! The tool, run as its users run it: every command with answers, refusals, usage errors, JSON and standard input; any bytes as files;
//! runs that are killed or fail at each system call; several at once; the examples of `docs/TOOL.md`.

#[path = "../../tests/support/mod.rs"]
mod support;

mod tool {
    mod add;
    mod any_bytes;
    mod assured;
    mod at_once;
    mod csv;
    mod damage;
    mod every;
    mod files;
    mod folder;
    mod help;
    mod hints;
    mod import;
    mod json;
    mod live;
    mod noise;
    mod page;
    mod pin;
    mod questions;
    mod report;
    mod show;
    mod stopped;
    mod streams;
    mod summary;
    mod terminal;
    mod thin;
    mod tin;
}
