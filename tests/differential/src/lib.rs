//! Compares implementations of the rules over generated calls.

pub mod call;
pub mod compare;
pub mod generate;
pub mod guarded;
pub mod harness;
pub mod random;
pub mod scenarios;
pub mod scene;
pub mod tally;

/// The calls of a run, where the command line does not say otherwise.
pub const DEFAULT_CALLS: usize = 200_000;

/// The seed of a run, where the command line does not say otherwise.
pub const DEFAULT_SEED: u64 = 0x434C_4F56_4552;
