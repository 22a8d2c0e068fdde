//! The plain implementation of `c/plain.c`.

use core_ffi::{declare_entries, EmptySlices, Entries, Linked, Replayed, Reply};

declare_entries! {
    plain_command(u32, *const u8, usize, *const u8, usize, *mut u8, usize) -> Reply;
    plain_import(u32, u32) -> Reply;
    plain_export(u32) -> Reply;
    plain_reset() -> Reply;
    plain_replay(*const u8, usize, u32, u32) -> Replayed;
}

static PLAIN: Entries = Entries {
    commands: [plain_command; 12],
    import: plain_import,
    export: plain_export,
    reset: plain_reset,
    replay: plain_replay,
};

pub fn plain(empty: EmptySlices) -> Linked {
    Linked {
        entries: &PLAIN,
        empty,
    }
}
