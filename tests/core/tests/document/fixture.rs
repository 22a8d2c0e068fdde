//! The small library as lent bytes, and calls on it. Every call is made on the reference and on the built library.

use std::fmt::Debug;
use std::ops::{Deref, DerefMut};

use core_ffi::EmptySlices;
use reference::{Entry, Implementation, Reference, Replayed, Reply, Request, TableBytes, Tables};

/// What every answer buffer is filled with before a call.
pub const UNTOUCHED: u8 = 0xEE;

pub const EMPTY: [u8; 8] = [0; 8];
pub const VOLUME_1: [u8; 8] = [0, 1, 0, 0, 0, 0, 0, 0];
pub const VOLUME_2: [u8; 8] = [0, 2, 0, 0, 0, 0, 0, 0];

/// Places in the element table of the small library, which lies in address order.
pub const AT_0001: usize = 0;
pub const AT_0010: usize = 1;
pub const AT_0100: usize = 2;
pub const AT_1000: usize = 3;
pub const AT_1001: usize = 4;
pub const AT_1002: usize = 5;
pub const AT_1003: usize = 6;

pub const GOOD: Reply = reply(0, 0x00, 0);
pub const CHECK_CONDITION: Reply = reply(0, 0x02, 0);
pub const RESERVATION_CONFLICT: Reply = reply(0, 0x18, 0);

pub const fn good(count: u32) -> Reply {
    reply(0, 0x00, count)
}

pub const fn refused(number: u8) -> Reply {
    reply(number, 0, 0)
}

const fn reply(number: u8, status: u8, count: u32) -> Reply {
    Reply {
        number,
        status,
        preventers: 0,
        lowest: 0,
        count,
    }
}

/// The label of an 8-character barcode: blank fill to 32, then four zeros.
pub fn label(barcode: &[u8; 8]) -> Vec<u8> {
    [&barcode[..], &[0x20; 24], &[0; 4]].concat()
}

pub fn blank_label() -> Vec<u8> {
    [&[0x20; 32][..], &[0; 4]].concat()
}

#[derive(Clone, Debug, PartialEq, Eq)]
pub struct Library(TableBytes);

impl Deref for Library {
    type Target = TableBytes;

    fn deref(&self) -> &TableBytes {
        &self.0
    }
}

impl DerefMut for Library {
    fn deref_mut(&mut self) -> &mut TableBytes {
        &mut self.0
    }
}

#[derive(Debug, PartialEq, Eq)]
pub struct Answered {
    pub reply: Reply,
    pub answer: Vec<u8>,
}

impl Answered {
    /// The bytes returned; the rest of the buffer must be as it was.
    pub fn returned(&self) -> &[u8] {
        let (returned, rest) = self.answer.split_at(self.reply.count as usize);
        assert!(rest.iter().all(|&byte| byte == UNTOUCHED), "{self:02x?}");
        returned
    }
}

impl Library {
    /// The small library, with labels for three volumes of generation 1, which the drive takes, and without a search.
    pub fn small() -> Library {
        let ranges = [
            [0x00, 0x01, 0, 1],
            [0x10, 0x00, 0, 4],
            [0x00, 0x10, 0, 1],
            [0x01, 0x00, 0, 1],
        ];
        let elements = [EMPTY, EMPTY, EMPTY, VOLUME_1, EMPTY, VOLUME_2, EMPTY];
        let labels = [b"ABC123L1", b"ABC124L1", b"ABC125L1"];
        Library(TableBytes {
            generations: vec![1, 1, 1],
            masks: vec![0x01],
            search: vec![0; 41],
            ..TableBytes::labelled(
                [&ranges.concat()[..], &[0; 2], &[0; 40], &[0, 2]].concat(),
                elements.concat(),
                labels.map(label).concat(),
                blank_label(),
            )
        })
    }

    /// A command without parameters and with room for any answer of the small library.
    pub fn command(&mut self, host: u32, block: &[u8]) -> Answered {
        self.with_buffer(host, block, &[], 512)
    }

    pub fn with_list(&mut self, host: u32, block: &[u8], list: &[u8]) -> Answered {
        self.with_buffer(host, block, list, 0)
    }

    pub fn with_buffer(
        &mut self,
        host: u32,
        block: &[u8],
        parameters: &[u8],
        buffer: usize,
    ) -> Answered {
        self.entered(Entry::Command, (host, block, parameters), buffer)
    }

    /// The command by this entry.
    pub fn entered(
        &mut self,
        entry: Entry,
        (host, block, parameters): (u32, &[u8], &[u8]),
        buffer: usize,
    ) -> Answered {
        let (reply, answer) = self.on_each(buffer, |on, tables, answer| {
            let request = Request {
                host,
                block,
                parameters,
                answer,
            };
            on.enter(entry, tables, request)
        });
        Answered { reply, answer }
    }

    pub fn import(&mut self, address: u32, volume: u32) -> Reply {
        let call = |on: &dyn Implementation, tables: Tables, _: &mut [u8]| {
            on.import(tables, address, volume)
        };
        self.on_each(0, call).0
    }

    pub fn export(&mut self, address: u32) -> Reply {
        let call =
            |on: &dyn Implementation, tables: Tables, _: &mut [u8]| on.export(tables, address);
        self.on_each(0, call).0
    }

    pub fn reset(&mut self) -> Reply {
        let call = |on: &dyn Implementation, tables: Tables, _: &mut [u8]| on.reset(tables);
        self.on_each(0, call).0
    }

    pub fn replay(&mut self, log: &[u8], expected: u32, budget: u32) -> Replayed {
        let call = |on: &dyn Implementation, tables: Tables, _: &mut [u8]| {
            on.replay(tables, log, expected, budget)
        };
        self.on_each(0, call).0
    }

    /// Makes the call on the reference, and on the built library over the same bytes. Both must end in the same
    /// way, to the last byte of tables and buffer: so what a test expects of one, it expects of the other.
    fn on_each<R: Debug + PartialEq>(
        &mut self,
        buffer: usize,
        call: impl Fn(&dyn Implementation, Tables, &mut [u8]) -> R,
    ) -> (R, Vec<u8>) {
        let made = |on: &dyn Implementation, mut library: Library| {
            let mut answer = vec![UNTOUCHED; buffer];
            let ending = call(on, library.lend(), &mut answer);
            ((ending, answer), library)
        };
        let expected = made(&Reference::default(), self.clone());
        for empty in [EmptySlices::Pointer, EmptySlices::Null] {
            let found = made(&core_ffi::core(empty), self.clone());
            assert_eq!(
                found, expected,
                "the built library, {empty:?} for empty slices, beside the reference"
            );
        }
        *self = expected.1;
        expected.0
    }

    pub fn element(&self, place: usize) -> [u8; 8] {
        self.elements[8 * place..8 * place + 8].try_into().unwrap()
    }

    /// The number of empty shelves stays true.
    pub fn set_element(&mut self, place: usize, bytes: [u8; 8]) {
        self.elements[8 * place..8 * place + 8].copy_from_slice(&bytes);
        self.recount();
    }

    /// The number of empty shelves that the head shows.
    pub fn empty_shelves(&self) -> u16 {
        u16::from_be_bytes([self.head[58], self.head[59]])
    }

    pub fn show_empty_shelves(&mut self, number: u16) {
        self.head[58..].copy_from_slice(&number.to_be_bytes());
    }

    /// The head shows how many elements of the storage range are empty: they lie behind those of lower addresses.
    pub fn recount(&mut self) {
        let ranges = self.head[..16].chunks(4);
        let two = |high: u8, low: u8| usize::from(u16::from_be_bytes([high, low]));
        let ranges = ranges.map(|r| (two(r[0], r[1]), two(r[2], r[3])));
        let ranges: Vec<(usize, usize)> = ranges.collect();
        let (first, shelves) = ranges[1];
        let lower = ranges.iter().filter(|range| range.0 < first);
        let behind = lower.map(|range| range.1).sum();
        let records = self.elements.chunks_exact(8).skip(behind).take(shelves);
        let empty = records.filter(|record| record[..2] == [0, 0]).count();
        self.show_empty_shelves(empty as u16);
    }

    /// As many generations as labels and as many masks as drives: all of generation 1, and each drive takes that.
    pub fn fit_cartridges(&mut self) {
        let drives = u16::from_be_bytes([self.head[14], self.head[15]]);
        self.generations = vec![1; self.tags.len() / 36];
        self.masks = vec![0x01; drives.into()];
    }

    /// Holder and id only; volume, source and mark stay.
    pub fn hold(&mut self, place: usize, host: u8, id: u8) {
        self.elements[8 * place + 4] = host;
        self.elements[8 * place + 5] = id;
    }

    pub fn holder_and_id(&self, place: usize) -> [u8; 2] {
        [self.elements[8 * place + 4], self.elements[8 * place + 5]]
    }

    pub fn hold_unit(&mut self, host: u8) {
        self.head[16] = host;
    }

    pub fn unit_holder(&self) -> u8 {
        self.head[16]
    }

    pub fn prevent_mask(&self) -> u8 {
        self.head[17]
    }

    /// Key, ASC, ASCQ, attention ASC, attention ASCQ.
    pub fn host_record(&self, host: usize) -> [u8; 5] {
        let at = 18 + 5 * (host - 1);
        self.head[at..at + 5].try_into().unwrap()
    }

    pub fn set_host_record(&mut self, host: usize, record: [u8; 5]) {
        let at = 18 + 5 * (host - 1);
        self.head[at..at + 5].copy_from_slice(&record);
    }

    /// The call ends in CHECK CONDITION with this sense, and nothing else changes: no other host's record,
    /// no mask, no holder, no element, no byte of the answer buffer.
    pub fn expect_check(&mut self, host: u32, block: &[u8], list: &[u8], sense: [u8; 3]) {
        let mut expected = self.clone();
        let [.., asc, ascq] = self.host_record(host as usize);
        expected.set_host_record(host as usize, [sense[0], sense[1], sense[2], asc, ascq]);
        let answered = self.with_buffer(host, block, list, 64);
        assert_eq!(answered.reply, CHECK_CONDITION, "{block:02x?}");
        assert_eq!(answered.answer, [UNTOUCHED; 64], "{block:02x?}");
        assert_eq!(*self, expected, "{block:02x?}");
    }

    /// The call ends in RESERVATION CONFLICT; the host's sense is cleared and nothing else changes.
    pub fn expect_conflict(&mut self, host: u32, block: &[u8], list: &[u8]) {
        let mut expected = self.clone();
        let [.., asc, ascq] = self.host_record(host as usize);
        expected.set_host_record(host as usize, [0, 0, 0, asc, ascq]);
        let answered = self.with_buffer(host, block, list, 64);
        assert_eq!(answered.reply, RESERVATION_CONFLICT, "{block:02x?}");
        assert_eq!(answered.answer, [UNTOUCHED; 64], "{block:02x?}");
        assert_eq!(*self, expected, "{block:02x?}");
    }

    /// The call is refused by number and changes no byte.
    pub fn expect_refused(&mut self, host: u32, block: &[u8], list: &[u8], number: u8) {
        let expected = self.clone();
        let answered = self.with_buffer(host, block, list, 64);
        assert_eq!(answered.reply, refused(number), "{block:02x?}");
        assert_eq!(answered.answer, [UNTOUCHED; 64], "{block:02x?}");
        assert_eq!(*self, expected, "{block:02x?}");
    }
}

/// MOVE MEDIUM by transport 0.
pub fn move_block(source: u16, destination: u16) -> [u8; 12] {
    let [s, t] = source.to_be_bytes();
    let [d, e] = destination.to_be_bytes();
    [0xA5, 0, 0, 0, s, t, d, e, 0, 0, 0, 0]
}

/// EXCHANGE MEDIUM by transport 0.
pub fn exchange_block(source: u16, first: u16, second: u16) -> [u8; 12] {
    let [s, t] = source.to_be_bytes();
    let [f, g] = first.to_be_bytes();
    let [h, i] = second.to_be_bytes();
    [0xA6, 0, 0, 0, s, t, f, g, h, i, 0, 0]
}

/// RESERVE of elements, for a list of this many descriptors.
pub fn reserve_block(id: u8, descriptors: u8) -> [u8; 6] {
    [0x16, 1, id, 0, 6 * descriptors, 0]
}

/// One descriptor of a RESERVE list.
pub fn descriptor(number: u16, address: u16) -> [u8; 6] {
    let [n, m] = number.to_be_bytes();
    let [a, b] = address.to_be_bytes();
    [0, 0, n, m, a, b]
}
