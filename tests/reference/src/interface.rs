//! What a front end and any implementation of the rules share: the lent slices, a command's arguments,
//! the reply, and the entries.

/// How a call ended, field for field as the front end receives it.
#[derive(Clone, Copy, Debug, Default, PartialEq, Eq)]
pub struct Reply {
    pub number: u8,
    pub status: u8,
    pub preventers: u8,
    pub lowest: u8,
    pub count: u32,
}

/// How a replay ended, field for field as the front end receives it.
#[derive(Clone, Copy, Debug, Default, PartialEq, Eq)]
pub struct Replayed {
    pub number: u32,
    pub lines: u32,
    pub place: usize,
    pub expected: u32,
}

/// The lent tables, as bytes.
#[derive(Debug)]
pub struct Tables<'a> {
    pub head: &'a mut [u8],
    pub elements: &'a mut [u8],
    pub tags: &'a [u8],
    pub blank: &'a [u8],
    pub generations: &'a [u8],
    pub masks: &'a [u8],
    pub search: &'a mut [u8],
}

/// The tables by name, in the order in which they are lent.
pub const TABLES: [&str; 7] = [
    "head",
    "elements",
    "tags",
    "blank",
    "generations",
    "masks",
    "search",
];

impl<'a> Tables<'a> {
    /// A slice for each of [`TABLES`].
    pub fn of(slices: [&'a mut [u8]; TABLES.len()]) -> Tables<'a> {
        let [head, elements, tags, blank, generations, masks, search] = slices;
        Tables {
            head,
            elements,
            tags,
            blank,
            generations,
            masks,
            search,
        }
    }

    /// The same slices for a call, to be lent again after it.
    pub fn lend(&mut self) -> Tables<'_> {
        Tables {
            head: self.head,
            elements: self.elements,
            tags: self.tags,
            blank: self.blank,
            generations: self.generations,
            masks: self.masks,
            search: self.search,
        }
    }
}

/// The tables as owned bytes.
#[derive(Clone, Debug, Default, PartialEq, Eq)]
pub struct TableBytes {
    pub head: Vec<u8>,
    pub elements: Vec<u8>,
    pub tags: Vec<u8>,
    pub blank: Vec<u8>,
    pub generations: Vec<u8>,
    pub masks: Vec<u8>,
    pub search: Vec<u8>,
}

impl TableBytes {
    /// A library with labels, and every other table empty.
    pub fn labelled(head: Vec<u8>, elements: Vec<u8>, tags: Vec<u8>, blank: Vec<u8>) -> TableBytes {
        TableBytes {
            head,
            elements,
            tags,
            blank,
            ..TableBytes::default()
        }
    }

    pub fn lend(&mut self) -> Tables<'_> {
        Tables {
            head: &mut self.head,
            elements: &mut self.elements,
            tags: &self.tags,
            blank: &self.blank,
            generations: &self.generations,
            masks: &self.masks,
            search: &mut self.search,
        }
    }

    /// One of [`TABLES`].
    pub fn named(&mut self, name: &str) -> &mut Vec<u8> {
        let mut each = TABLES.into_iter().zip(self.each());
        let found = each.find(|(table, _)| *table == name);
        found.map_or_else(|| panic!("no table {name}"), |(_, bytes)| bytes)
    }

    /// Each of [`TABLES`], to make it longer or shorter or to fill it with something else.
    pub fn each(&mut self) -> [&mut Vec<u8>; TABLES.len()] {
        [
            &mut self.head,
            &mut self.elements,
            &mut self.tags,
            &mut self.blank,
            &mut self.generations,
            &mut self.masks,
            &mut self.search,
        ]
    }
}

/// What a command is given beside the tables.
#[derive(Debug)]
pub struct Request<'a> {
    pub host: u32,
    pub block: &'a [u8],
    pub parameters: &'a [u8],
    pub answer: &'a mut [u8],
}

/// The entries that take a command block.
#[derive(Clone, Copy, Debug, PartialEq, Eq, PartialOrd, Ord)]
pub enum Entry {
    Command,
    TestUnitReady,
    RequestSense,
    Reserve,
    Release,
    PreventAllow,
    MoveMedium,
    ExchangeMedium,
    ReadElementStatus,
    ModeSense,
    SendVolumeTag,
    RequestVolumeElementAddress,
}

impl Entry {
    pub const ALL: [Entry; 12] = [
        Entry::Command,
        Entry::TestUnitReady,
        Entry::RequestSense,
        Entry::Reserve,
        Entry::Release,
        Entry::PreventAllow,
        Entry::MoveMedium,
        Entry::ExchangeMedium,
        Entry::ReadElementStatus,
        Entry::ModeSense,
        Entry::SendVolumeTag,
        Entry::RequestVolumeElementAddress,
    ];
}

/// Anything that has the entries of the C interface.
pub trait Implementation {
    /// One of the entries that take a command block.
    fn enter(&self, entry: Entry, tables: Tables, request: Request) -> Reply;
    fn import(&self, tables: Tables, address: u32, volume: u32) -> Reply;
    fn export(&self, tables: Tables, address: u32) -> Reply;
    fn reset(&self, tables: Tables) -> Reply;
    /// At most `budget` lines of the log, the first of which has the expected number.
    fn replay(&self, tables: Tables, log: &[u8], expected: u32, budget: u32) -> Replayed;
}
