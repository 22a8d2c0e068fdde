//! Times the command core beside the same rules in plain C.

pub mod days;
pub mod plain;
pub mod rows;
pub mod timing;
