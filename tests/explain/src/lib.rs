//! `include/smc_explain.h` for the tests: why tables are not sound.

use std::ffi::{c_char, c_int, CStr};
use std::sync::OnceLock;

use core_ffi::{call_entry, declare_entries, EmptySlices};
use reference::{Clause, Tables};

/// `smc_fault`.
#[repr(C)]
#[derive(Clone, Copy, Debug, Default, PartialEq, Eq)]
pub struct Fault {
    pub clause: u32,
    pub range: u8,
    pub host: u8,
    pub address: u16,
    pub place: u16,
    pub value: u64,
    pub other: u64,
}

declare_entries! {
    smc_explain() -> Fault;
}

extern "C" {
    fn smc_clause_text(clause: u32) -> *const c_char;
    fn smc_fault_text(fault: Fault, text: *mut c_char, size: usize) -> c_int;
}

const HEADER: &str = include_str!("../../../include/smc_explain.h");

/// The clauses in the order of `smc_clause`, from 1 on: the header and the reference name them alike.
pub fn clauses() -> &'static [Clause] {
    static CLAUSES: OnceLock<Vec<Clause>> = OnceLock::new();
    CLAUSES.get_or_init(|| {
        let words = HEADER.split(|c: char| !c.is_ascii_uppercase() && c != '_');
        let names = words.filter_map(|word| word.strip_prefix("SMC_CLAUSE_"));
        names.map(named).collect()
    })
}

fn named(name: &str) -> Clause {
    let meant = Clause::ALL.into_iter().find(|clause| clause.name() == name);
    meant.unwrap_or_else(|| panic!("the reference has no clause {name}"))
}

impl Fault {
    /// The clause that fails; none where the tables are sound.
    pub fn clause(&self) -> Option<Clause> {
        let at = (self.clause as usize).checked_sub(1)?;
        Some(clauses()[at])
    }

    /// The whole text.
    pub fn text(&self) -> String {
        self.text_within(256).0
    }

    /// The text as it fits into so many bytes, and the length of the whole.
    pub fn text_within(&self, size: usize) -> (String, usize) {
        let mut text = vec![0x7F_u8; size + 1];
        // SAFETY: the buffer has as many bytes as are said, and one more.
        let length = unsafe { smc_fault_text(*self, text.as_mut_ptr().cast(), size) };
        assert_eq!(text[size], 0x7F, "a byte behind the buffer was written");
        let told = CStr::from_bytes_until_nul(&text).map(CStr::to_string_lossy);
        let told = told.map_or_else(|_| String::new(), |told| told.into_owned());
        (told, length as usize)
    }
}

/// Why the tables are not sound, if they are not.
pub fn explain(tables: Tables) -> Fault {
    call_entry!(smc_explain, EmptySlices::Null, tables)
}

pub fn clause_text(clause: u32) -> String {
    // SAFETY: it is the address of a text that is never changed.
    let text = unsafe { CStr::from_ptr(smc_clause_text(clause)) };
    text.to_string_lossy().into_owned()
}
