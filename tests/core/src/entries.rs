//! The entries of the C interface as a table of functions, so that whatever has them can be called through one harness.

/// The reply as the C interface lays it out.
#[repr(C)]
#[derive(Clone, Copy, Debug, Default, PartialEq, Eq)]
pub struct Reply {
    pub number: u8,
    pub status: u8,
    pub preventers: u8,
    pub lowest: u8,
    pub count: u32,
}

impl From<Reply> for reference::Reply {
    fn from(reply: Reply) -> reference::Reply {
        reference::Reply {
            number: reply.number,
            status: reply.status,
            preventers: reply.preventers,
            lowest: reply.lowest,
            count: reply.count,
        }
    }
}

/// How a replay ended, as the C interface lays it out.
#[repr(C)]
#[derive(Clone, Copy, Debug, Default, PartialEq, Eq)]
pub struct Replayed {
    pub number: u32,
    pub lines: u32,
    pub place: usize,
    pub expected: u32,
}

impl From<Replayed> for reference::Replayed {
    fn from(replayed: Replayed) -> reference::Replayed {
        reference::Replayed {
            number: replayed.number,
            lines: replayed.lines,
            place: replayed.place,
            expected: replayed.expected,
        }
    }
}

/// A pointer and a length for each of head, elements, tags, blank label, generations, masks and search, and what follows them.
macro_rules! entry {
    ($($more:ty),*) => { entry!($($more),* => Reply) };
    ($($more:ty),* => $returned:ty) => {
        unsafe extern "C" fn(
            *mut u8, usize, *mut u8, usize, *const u8, usize, *const u8, usize,
            *const u8, usize, *const u8, usize, *mut u8, usize, $($more),*
        ) -> $returned
    };
}

/// Host, block, parameters, answer.
pub type CommandEntry = entry!(u32, *const u8, usize, *const u8, usize, *mut u8, usize);
/// Address, volume.
pub type ImportEntry = entry!(u32, u32);
/// Address.
pub type ExportEntry = entry!(u32);
pub type ResetEntry = entry!();
/// Log, expected number, budget.
pub type ReplayEntry = entry!(*const u8, usize, u32, u32 => Replayed);

/// One implementation of the C interface.
pub struct Entries {
    /// In the order of [`reference::Entry::ALL`].
    pub commands: [CommandEntry; 12],
    pub import: ImportEntry,
    pub export: ExportEntry,
    pub reset: ResetEntry,
    pub replay: ReplayEntry,
}

/// Declares functions in C that take the lent tables and what is given here.
#[macro_export]
macro_rules! declare_entries {
    ($($name:ident($($more:ty),*) -> $returned:ty;)*) => {
        extern "C" {
            $(fn $name(
                head: *mut u8, head_len: usize,
                elements: *mut u8, elements_len: usize,
                tags: *const u8, tags_len: usize,
                blank: *const u8, blank_len: usize,
                generations: *const u8, generations_len: usize,
                masks: *const u8, masks_len: usize,
                search: *mut u8, search_len: usize,
                $(_: $more),*
            ) -> $returned;)*
        }
    };
}

/// Calls such a function with the tables and what follows them.
#[macro_export]
macro_rules! call_entry {
    ($entry:expr, $empty:expr, $tables:ident $(, $more:expr)*) => {{
        let entry = $entry;
        let empty = $empty;
        // SAFETY: each pointer comes from a slice of the length beside it that lives through the call,
        // and the borrows keep the slices from overlapping.
        unsafe {
            entry(
                empty.write($tables.head), $tables.head.len(),
                empty.write($tables.elements), $tables.elements.len(),
                empty.read($tables.tags), $tables.tags.len(),
                empty.read($tables.blank), $tables.blank.len(),
                empty.read($tables.generations), $tables.generations.len(),
                empty.read($tables.masks), $tables.masks.len(),
                empty.write($tables.search), $tables.search.len(),
                $($more),*
            )
        }
    }};
}

declare_entries! {
    smc_command(u32, *const u8, usize, *const u8, usize, *mut u8, usize) -> Reply;
    smc_test_unit_ready(u32, *const u8, usize, *const u8, usize, *mut u8, usize) -> Reply;
    smc_request_sense(u32, *const u8, usize, *const u8, usize, *mut u8, usize) -> Reply;
    smc_reserve(u32, *const u8, usize, *const u8, usize, *mut u8, usize) -> Reply;
    smc_release(u32, *const u8, usize, *const u8, usize, *mut u8, usize) -> Reply;
    smc_prevent_allow(u32, *const u8, usize, *const u8, usize, *mut u8, usize) -> Reply;
    smc_move_medium(u32, *const u8, usize, *const u8, usize, *mut u8, usize) -> Reply;
    smc_exchange_medium(u32, *const u8, usize, *const u8, usize, *mut u8, usize) -> Reply;
    smc_read_element_status(u32, *const u8, usize, *const u8, usize, *mut u8, usize) -> Reply;
    smc_mode_sense(u32, *const u8, usize, *const u8, usize, *mut u8, usize) -> Reply;
    smc_send_volume_tag(u32, *const u8, usize, *const u8, usize, *mut u8, usize) -> Reply;
    smc_request_volume_element_address(u32, *const u8, usize, *const u8, usize, *mut u8, usize) -> Reply;
    smc_import(u32, u32) -> Reply;
    smc_export(u32) -> Reply;
    smc_reset() -> Reply;
    smc_replay(*const u8, usize, u32, u32) -> Replayed;
}

pub(crate) static CORE: Entries = Entries {
    commands: [
        smc_command,
        smc_test_unit_ready,
        smc_request_sense,
        smc_reserve,
        smc_release,
        smc_prevent_allow,
        smc_move_medium,
        smc_exchange_medium,
        smc_read_element_status,
        smc_mode_sense,
        smc_send_volume_tag,
        smc_request_volume_element_address,
    ],
    import: smc_import,
    export: smc_export,
    reset: smc_reset,
    replay: smc_replay,
};
