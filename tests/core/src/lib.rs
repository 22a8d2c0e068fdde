//! The command core's static library behind the interface of the reference.
//!
//! The library is linked when this crate is built: see `build.rs`.

// `call_entry` is given the function and its arguments, no more.
#![allow(clippy::macro_metavars_in_unsafe)]

mod entries;
mod linked;

pub use entries::{
    CommandEntry, Entries, ExportEntry, ImportEntry, ReplayEntry, Replayed, Reply, ResetEntry,
};
pub use linked::{EmptySlices, Linked};

/// The command core as the front end calls it.
pub fn core(empty: EmptySlices) -> Linked {
    Linked {
        entries: &entries::CORE,
        empty,
    }
}
