//! The library behind the C boundary, compared call by call with the independent implementation, in guarded memory.

#[path = "../support/mod.rs"]
mod support;

mod assured;
mod band;
mod boundary;
mod calls;
mod damaged;
mod declarations;
mod degree;
mod edges;
mod entry;
mod exhaustive;
mod find;
mod guarded;
mod header;
mod lab;
mod laws;
mod limits;
mod live;
mod order;
mod page;
mod pair;
mod pinned;
mod question;
mod report;
mod stack;
mod texts;
mod thinning;
mod wrapper;
