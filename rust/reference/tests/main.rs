//! The independent implementation, held to the scope's own words: these tests need no library.

#[path = "../../tests/support/mod.rs"]
mod support;

mod grammar;
mod kept;
mod old_lists;
mod pieces;
mod plain;
mod r1;
mod sets;
mod summary;
mod truth;
mod turns;
