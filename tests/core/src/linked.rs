//! A table of entries behind the interface of the reference.

use std::ptr::{null, null_mut};

use reference::{Entry, Implementation, Request, Tables};

use crate::call_entry;
use crate::entries::{Entries, Replayed, Reply};

/// What is passed for a slice of no bytes.
#[derive(Clone, Copy, Debug, PartialEq, Eq)]
pub enum EmptySlices {
    /// A pointer that is not null.
    Pointer,
    /// A null pointer.
    Null,
}

impl EmptySlices {
    /// The pointer that is passed for a slice.
    #[inline(always)]
    pub fn read(self, bytes: &[u8]) -> *const u8 {
        match self {
            EmptySlices::Null if bytes.is_empty() => null(),
            _ => bytes.as_ptr(),
        }
    }

    /// The pointer that is passed for a slice that may be written.
    #[inline(always)]
    pub fn write(self, bytes: &mut [u8]) -> *mut u8 {
        match self {
            EmptySlices::Null if bytes.is_empty() => null_mut(),
            _ => bytes.as_mut_ptr(),
        }
    }
}

impl Entries {
    /// A command by its entry. In line, so that nothing else is timed where this is.
    #[inline(always)]
    pub fn enter(
        &self,
        entry: Entry,
        empty: EmptySlices,
        tables: Tables,
        request: Request,
    ) -> Reply {
        call_entry!(
            self.commands[entry as usize],
            empty,
            tables,
            request.host,
            empty.read(request.block),
            request.block.len(),
            empty.read(request.parameters),
            request.parameters.len(),
            empty.write(request.answer),
            request.answer.len()
        )
    }

    /// A replay, in line as well.
    #[inline(always)]
    pub fn replay(
        &self,
        empty: EmptySlices,
        tables: Tables,
        log: &[u8],
        (expected, budget): (u32, u32),
    ) -> Replayed {
        call_entry!(
            self.replay,
            empty,
            tables,
            empty.read(log),
            log.len(),
            expected,
            budget
        )
    }
}

/// Linked code as the front end calls it.
#[derive(Clone, Copy)]
pub struct Linked {
    pub entries: &'static Entries,
    pub empty: EmptySlices,
}

impl Implementation for Linked {
    fn enter(&self, entry: Entry, tables: Tables, request: Request) -> reference::Reply {
        let reply = self.entries.enter(entry, self.empty, tables, request);
        reply.into()
    }

    fn import(&self, tables: Tables, address: u32, volume: u32) -> reference::Reply {
        call_entry!(self.entries.import, self.empty, tables, address, volume).into()
    }

    fn export(&self, tables: Tables, address: u32) -> reference::Reply {
        call_entry!(self.entries.export, self.empty, tables, address).into()
    }

    fn reset(&self, tables: Tables) -> reference::Reply {
        call_entry!(self.entries.reset, self.empty, tables).into()
    }

    fn replay(
        &self,
        tables: Tables,
        log: &[u8],
        expected: u32,
        budget: u32,
    ) -> reference::Replayed {
        let asked = (expected, budget);
        self.entries.replay(self.empty, tables, log, asked).into()
    }
}
