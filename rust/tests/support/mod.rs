//! What the tests share: numbered cases with seeds of their own, and what is made at random.
#![allow(dead_code)]

pub mod cases;
pub mod compared;
pub mod header;
pub mod old_rule;
pub mod painted;
pub mod r1;
pub mod r2;
pub mod r3;
pub mod r4;
pub mod r5;
pub mod random;
pub mod recordings;
pub mod sheets;
pub mod slopes;
pub mod small_stack;
pub mod summaries;
pub mod texts;
