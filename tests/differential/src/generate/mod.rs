//! The inputs: sound tables, tables with broken clauses, and calls.

pub mod calls;
pub mod faults;
pub mod lists;
pub mod logs;
pub mod searches;
pub mod sound;
