//! Logs of many lines on 512 elements: replayed by the core and by plain C, and their calls made one by one.

use core_ffi::{EmptySlices, Entries, Linked};
use differential::call::Call;
use differential::generate::calls::read_block;
use differential::generate::logs::Line;
use reference::{Entry, Implementation, Reference, Replayed, TableBytes};

use crate::rows::{addresses, enter, library, FIRST_SHELF};

const ELEMENTS: u16 = 512;
/// Neighbouring shelves, the first of each pair full: how many pairs the moves go through.
const PAIRS: u16 = 250;

/// The calls of a day, again and again: a log of any length. After all of them the tables are as they were.
pub struct Day {
    pub name: &'static str,
    calls: Vec<Call>,
    tables: TableBytes,
}

fn from_host(host: u32, block: Vec<u8>, parameters: Vec<u8>) -> Call {
    Call::Command {
        entry: Entry::Command,
        host,
        block,
        parameters,
        answer: vec![0; 26_664],
    }
}

fn carry(host: u32, from: u16, to: u16) -> Call {
    from_host(host, addresses(0xA5, [from, to, 0]), Vec::new())
}

/// Each full shelf's volume to the empty one beside it, and back.
fn moves() -> Vec<Call> {
    let pair = |pair: u16| {
        let (full, empty) = (FIRST_SHELF + 2 * pair, FIRST_SHELF + 2 * pair + 1);
        [carry(1, full, empty), carry(1, empty, full)]
    };
    (0..PAIRS).flat_map(pair).collect()
}

fn readiness_tests() -> Vec<Call> {
    let ready = |host| from_host(host, vec![0; 6], Vec::new());
    (1..=8).map(ready).collect()
}

fn listings() -> Vec<Call> {
    let block = read_block(0x10, 0, 0xFFFF, 0xFF_FFFF);
    vec![from_host(1, block, Vec::new())]
}

/// By number: an unknown host, a block and parameters of wrong length. By status: a stray bit, a wrong address, an empty source, a full
/// destination, an unknown command.
fn refusals() -> Vec<Call> {
    let (full, empty) = (FIRST_SHELF, FIRST_SHELF + 1);
    vec![
        from_host(9, vec![0; 6], Vec::new()),
        from_host(1, vec![0; 5], Vec::new()),
        from_host(1, vec![0; 6], vec![0]),
        from_host(1, vec![0, 0, 0, 0, 0, 1], Vec::new()),
        carry(1, full, FIRST_SHELF - 1),
        carry(1, empty, full),
        carry(1, full, full + 2),
        from_host(1, vec![0x12, 0, 0, 0, 36, 0], Vec::new()),
    ]
}

/// A move, a readiness test, a move back, a refusal; a listing after each four of them.
fn mixed() -> Vec<Call> {
    let ready = readiness_tests().into_iter().cycle();
    let refused = refusals().into_iter().cycle();
    let listing = listings();
    let of_a_pair = moves().chunks(2).map(<[Call]>::to_vec).collect::<Vec<_>>();
    let some = |((pair, ready), refused): ((Vec<Call>, Call), Call)| {
        let [there, back] = [0, 1].map(|way| pair[way].clone());
        [there, ready, back, refused, listing[0].clone()]
    };
    let all = of_a_pair.into_iter().zip(ready).zip(refused);
    all.flat_map(some).collect()
}

pub fn days() -> [Day; 5] {
    let tables = library(ELEMENTS);
    let day = |(name, calls)| Day {
        name,
        calls,
        tables: tables.clone(),
    };
    [
        ("moves", moves()),
        ("readiness tests", readiness_tests()),
        ("listings", listings()),
        ("refusals", refusals()),
        ("mixed", mixed()),
    ]
    .map(day)
}

impl Day {
    /// A log of so many lines, from number 1 on.
    pub fn log(&self, lines: u32) -> Vec<u8> {
        let unnumbered = |call: &Call| {
            let Call::Command { host, .. } = call else {
                return Vec::new();
            };
            let lent = call.lent();
            let line = Line::new(0, *host as u8, lent.block, lent.parameters);
            line.bytes()[1..].to_vec()
        };
        let texts: Vec<Vec<u8>> = self.calls.iter().map(unnumbered).collect();
        let mut log = Vec::new();
        for (number, text) in (1..=lines).zip(texts.iter().cycle()) {
            log.extend(number.to_string().into_bytes());
            log.extend(text);
        }
        log
    }

    pub fn tables(&self) -> TableBytes {
        self.tables.clone()
    }

    /// The calls from this line on, one by one by `smc_command`, with nothing between the clock and the entry but the loop.
    pub fn one_by_one(&self, entries: &Entries, tables: &mut TableBytes, from: u32, lines: u32) {
        let mut room = vec![0; 26_664];
        let first = from as usize % self.calls.len();
        let calls = self.calls.iter().cycle().skip(first);
        for call in calls.take(lines as usize) {
            enter(entries, tables, call, &mut room);
        }
    }

    /// Whether a replay of so many lines applies them all and leaves what the calls one by one leave, and the first of them what they leave
    /// on the reference, which is slow.
    pub fn agrees(&self, on: &Linked, lines: u32, on_reference: u32) -> bool {
        let log = self.log(lines);
        let [mut replayed, mut made] = [self.tables(), self.tables()];
        let told = on.replay(replayed.lend(), &log, 1, u32::MAX);
        let whole = Replayed {
            number: 0,
            lines,
            place: log.len(),
            expected: 1 + lines,
        };
        self.one_by_one(on.entries, &mut made, 0, lines);
        let [mut expected, mut found] = [self.tables(), self.tables()];
        let begun = Reference::default().replay(expected.lend(), &log, 1, on_reference);
        let alike = on.replay(found.lend(), &log, 1, on_reference) == begun && found == expected;
        told == whole && replayed == made && alike
    }
}

/// So many lines of the log from a place on: where the next line begins.
#[inline(always)]
pub fn go_on(
    entries: &Entries,
    tables: &mut TableBytes,
    log: &[u8],
    (place, expected): (usize, u32),
    lines: u32,
) -> usize {
    let asked = (expected, lines);
    let told = entries.replay(EmptySlices::Pointer, tables.lend(), &log[place..], asked);
    place + told.place
}
