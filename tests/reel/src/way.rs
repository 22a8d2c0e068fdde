//! Where each reel went, by the reference: the element table is read before and after each line.

use reference::{Implementation, Reference, TableBytes};
use std::collections::BTreeMap;

/// One line that moved a reel. Address 0 is outside.
#[derive(Clone, Debug, PartialEq, Eq)]
pub struct Step {
    pub number: u32,
    pub host: u32,
    pub from: u32,
    pub to: u32,
}

fn two(bytes: &[u8]) -> u32 {
    u32::from(bytes[0]) * 256 + u32::from(bytes[1])
}

/// The addresses of all elements, ascending: "one for each address in the ranges".
pub fn addresses(head: &[u8]) -> Vec<u32> {
    let mut all: Vec<u32> = (0..4)
        .flat_map(|range| {
            let first = two(&head[4 * range..]);
            first..first + two(&head[4 * range + 2..])
        })
        .collect();
    all.sort_unstable();
    all
}

/// The address of each volume that is in the library.
pub fn places(tables: &TableBytes) -> BTreeMap<u32, u32> {
    let records = tables.elements.chunks(8);
    let full = records
        .zip(addresses(&tables.head))
        .filter(|(record, _)| two(record) != 0);
    full.map(|(record, address)| (two(record), address))
        .collect()
}

/// The steps of each volume through a log, whose first line has this number. The tables are those after it.
pub fn follow(tables: &mut TableBytes, log: &str, first: u32) -> BTreeMap<u32, Vec<Step>> {
    let reference = Reference::default();
    let mut ways: BTreeMap<u32, Vec<Step>> = BTreeMap::new();
    for (number, line) in (first..).zip(log.split_inclusive('\n')) {
        let before = places(tables);
        let told = reference.replay(tables.lend(), line.as_bytes(), number, 1);
        assert_eq!((told.number, told.lines), (0, 1), "line {line:?}");
        let after = places(tables);
        let host = line
            .split('\t')
            .nth(1)
            .and_then(|host| host.parse().ok())
            .expect("a host");
        for volume in 1..=(tables.tags.len() / 36) as u32 {
            let (from, to) = (before.get(&volume).copied(), after.get(&volume).copied());
            if from != to {
                let step = Step {
                    number,
                    host,
                    from: from.unwrap_or(0),
                    to: to.unwrap_or(0),
                };
                ways.entry(volume).or_default().push(step);
            }
        }
    }
    ways
}
