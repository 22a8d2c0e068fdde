//! The calls that are timed, over libraries of any size.

use std::hint::black_box;

use core_ffi::{EmptySlices, Entries};
use differential::call::Call;
use differential::compare::{differences, make};
use differential::generate::calls::{mode_block, named_entry, read_block, request_block};
use differential::generate::searches::{list, send_block};
use differential::scene::{Scene, HEAD_LENGTH, SEARCH_LENGTH, TEMPLATE_LENGTH};
use reference::{Implementation, Reference, Request, TableBytes};

const TRANSPORT: u16 = 0x0001;
const PORT: u16 = 0x0010;
const DRIVE: u16 = 0x0100;
pub(crate) const FIRST_SHELF: u16 = 0x1000;
const MOST_DESCRIPTORS: u16 = 32;
const EVERY_CHARACTER: [u8; TEMPLATE_LENGTH] = [b'?'; TEMPLATE_LENGTH];

/// The small library's addresses with as many shelves as make up the size. Every second shelf is full, and every
/// second volume came from the shelf beside it. The volumes are of all generations, and the drive takes them.
pub fn library(elements: u16) -> TableBytes {
    let shelves = elements - 3;
    let ranges = [
        (TRANSPORT, 1),
        (FIRST_SHELF, shelves),
        (PORT, 1),
        (DRIVE, 1),
    ];
    let mut head: Vec<u8> = ranges
        .iter()
        .flat_map(|(first, count)| [first.to_be_bytes(), u16::to_be_bytes(*count)].concat())
        .collect();
    head.resize(HEAD_LENGTH - 2, 0);
    head.extend((shelves / 2).to_be_bytes());
    let mut table = vec![0; 24];
    for shelf in 0..shelves {
        let (volume, source) = match shelf % 4 {
            0 => (shelf / 2 + 1, 0),
            2 => (shelf / 2 + 1, FIRST_SHELF + shelf - 1),
            _ => (0, 0),
        };
        table.extend(volume.to_be_bytes());
        table.extend(source.to_be_bytes());
        table.extend([0; 4]);
    }
    TableBytes {
        head,
        elements: table,
        tags: (0..elements).flat_map(label).collect(),
        generations: (0..elements).map(|at| (at % 8) as u8 + 1).collect(),
        masks: vec![0xFF],
        ..Scene::small_library().tables
    }
}

/// The reels of a film, every fourth; any bytes for the others.
fn label(volume: u16) -> Vec<u8> {
    let mut label: Vec<u8> = (0..36)
        .map(|at| (at + 36 * usize::from(volume)) as u8)
        .collect();
    if volume.is_multiple_of(4) {
        label[..8].copy_from_slice(format!("FILM{volume:04}").as_bytes());
    }
    label
}

/// Calls that are made one after the other, over and over: they never fail, and the tables need no putting back.
#[derive(Clone)]
pub struct Row {
    pub name: &'static str,
    calls: Vec<Call>,
    tables: TableBytes,
}

fn command(block: Vec<u8>, parameters: Vec<u8>, answer: usize) -> Call {
    Call::Command {
        entry: named_entry(block[0]),
        host: 1,
        block,
        parameters,
        answer: vec![0; answer],
    }
}

/// The block of a MOVE or an EXCHANGE by transport 0.
pub(crate) fn addresses(first: u8, addresses: [u16; 3]) -> Vec<u8> {
    let fields = addresses.iter().flat_map(|address| address.to_be_bytes());
    let mut block = vec![first, 0, 0, 0];
    block.extend(fields);
    block.extend([0, 0]);
    block
}

/// All elements by 32 descriptors of equal runs, or by one descriptor for each where there are fewer.
fn reserve(elements: u16) -> Call {
    let descriptors = elements.min(MOST_DESCRIPTORS);
    let run = elements / descriptors;
    let address = |place: u16| match place {
        0 => TRANSPORT,
        1 => PORT,
        2 => DRIVE,
        shelf => FIRST_SHELF + shelf - 3,
    };
    let descriptor = |at: u16| {
        let [high, low] = address(at * run).to_be_bytes();
        [0, 0, 0, run as u8, high, low]
    };
    let list: Vec<u8> = (0..descriptors).flat_map(descriptor).collect();
    command(vec![0x16, 1, 7, 0, list.len() as u8, 0], list, 0)
}

pub fn rows(elements: u16) -> Vec<Row> {
    let read = |allocation| {
        let block = read_block(0x10, 0, 0xFFFF, allocation);
        vec![command(block, Vec::new(), 26_664)]
    };
    let shelf = |number: u16| FIRST_SHELF + number;
    let carry = |first, places| command(addresses(first, places), Vec::new(), 0);
    let there = carry(0xA5, [shelf(0), shelf(1), 0]);
    let back = carry(0xA5, [shelf(1), shelf(0), 0]);
    let swap = carry(0xA6, [shelf(0), shelf(2), shelf(0)]);
    let sense = command(vec![0x03, 0, 0, 0, 18, 0], Vec::new(), 18);
    let pages = command(mode_block(0, 0x3F, 255), Vec::new(), 255);
    let all = vec![send(&EVERY_CHARACTER), find(0xFFFF)];
    let calls = [
        ("TEST UNIT READY", vec![command(vec![0; 6], Vec::new(), 0)]),
        ("MOVE", vec![there, back]),
        ("EXCHANGE", vec![swap]),
        ("RESERVE, 32 descriptors", vec![reserve(elements)]),
        ("REQUEST SENSE", vec![sense]),
        ("READ all with tags", read(0xFF_FFFF)),
        ("READ, allocation 8", read(8)),
        ("MODE SENSE 3Fh", vec![pages]),
        ("B6h", vec![send(&begins_so())]),
        ("B6h, B5h all with tags", all),
    ];
    let tables = library(elements);
    let row = |(name, calls)| Row {
        name,
        calls,
        tables: tables.clone(),
    };
    let mut rows = calls.map(row).to_vec();
    rows.extend(searches(&tables));
    rows
}

/// With room for the header alone nothing is told: the search stays at its start.
fn searches(tables: &TableBytes) -> [Row; 3] {
    let templates = [
        ("B5h, no search", None),
        ("B5h, FILM*", Some(begins_so())),
        ("B5h, 32 characters", Some(EVERY_CHARACTER)),
    ];
    templates.map(|(name, template)| Row {
        name,
        calls: vec![find(8)],
        tables: searching(tables, template),
    })
}

fn begins_so() -> [u8; TEMPLATE_LENGTH] {
    let mut template = [b' '; TEMPLATE_LENGTH];
    template[..5].copy_from_slice(b"FILM*");
    template
}

/// REQUEST VOLUME ELEMENT ADDRESS of all, with tags.
fn find(allocation: usize) -> Call {
    let block = request_block(0x10, 0, 0xFFFF, allocation);
    command(block, Vec::new(), 26_664)
}

/// SEND VOLUME TAG for any type and any sequence number, all of which are compared.
fn send(template: &[u8; TEMPLATE_LENGTH]) -> Call {
    let list = list(template, [0, 0xFFFF]);
    command(send_block(0, 0, 1, list.len()), list, 0)
}

/// The tables with a search at its start.
fn searching(tables: &TableBytes, template: Option<[u8; TEMPLATE_LENGTH]>) -> TableBytes {
    let search = match template {
        None => vec![0; SEARCH_LENGTH],
        Some(template) => [&template[..], &[0, 1, 0, 0, 0xFF, 0xFF, 0, 0, 0]].concat(),
    };
    TableBytes {
        search,
        ..tables.clone()
    }
}

impl Row {
    /// Whether the calls, made three times over, end GOOD and as the reference ends them, to the last byte.
    pub fn agrees(&self, on: &dyn Implementation) -> bool {
        let mut tables = self.tables.clone();
        let three_times = self.calls.iter().cycle().take(3 * self.calls.len());
        for call in three_times {
            let expected = make(&Reference::default(), &tables, call, [0; 16]);
            let found = make(on, &tables, call, [0; 16]);
            let reply = expected.reply();
            let good = (reply.number, reply.status) == (0, 0);
            if !good || !differences(&expected, &found).is_empty() {
                return false;
            }
            found.carry_on(&mut tables);
        }
        true
    }

    /// A closure that goes through the calls so many times, with nothing between the clock and the entries but the
    /// loop. It returns how many calls it made.
    pub fn repeated(&self, entries: &'static Entries) -> impl FnMut(u32) -> u32 + '_ {
        let mut tables = self.tables.clone();
        let mut answer = vec![0; 26_664];
        move |times| {
            for _ in 0..times {
                for call in &self.calls {
                    enter(entries, &mut tables, call, &mut answer);
                }
            }
            times * self.calls.len() as u32
        }
    }
}

/// A command by its entry, with its buffer at the front of the room.
#[inline(always)]
pub(crate) fn enter(entries: &Entries, tables: &mut TableBytes, call: &Call, room: &mut [u8]) {
    let Call::Command {
        entry,
        host,
        block,
        parameters,
        answer,
    } = call
    else {
        return;
    };
    let request = Request {
        host: *host,
        block,
        parameters,
        answer: &mut room[..answer.len()],
    };
    black_box(entries.enter(*entry, EmptySlices::Pointer, tables.lend(), request));
}
