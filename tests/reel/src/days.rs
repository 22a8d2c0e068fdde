//! Libraries and logs by chance: mostly moves that can be done, and everything else among them.

use crate::way::{addresses, places};
use reference::{Implementation, Reference, TableBytes};
use std::fmt::Write;

/// Xorshift.
pub struct Chance(pub u64);

impl Chance {
    pub fn below(&mut self, most: u32) -> u32 {
        self.0 ^= self.0 << 13;
        self.0 ^= self.0 >> 7;
        self.0 ^= self.0 << 17;
        ((self.0 >> 33) % u64::from(most.max(1))) as u32
    }

    pub fn of<T: Copy>(&mut self, all: &[T]) -> Option<T> {
        let place = self.below(all.len() as u32) as usize;
        all.get(place).copied()
    }
}

/// The words of `loft new` for a library, and its list of labels.
pub struct Plan {
    pub words: Vec<String>,
    pub labels: String,
    pub reels: u32,
}

pub fn plan(chance: &mut Chance) -> Plan {
    let counts = [
        1 + chance.below(3),
        1 + chance.below(4),
        1 + chance.below(4),
        4 + chance.below(40),
    ];
    let firsts = [0x0001, 0x0010, 0x0100, 0x1000];
    let names = ["--transports", "--mail", "--drives", "--shelves"];
    let mut words = Vec::new();
    for place in 0..4 {
        words.push(names[place].to_string());
        words.push(format!(
            "{:04X}-{:04X}",
            firsts[place],
            firsts[place] + counts[place] - 1
        ));
    }
    let masks: String = (0..counts[2])
        .map(|_| ["01", "03", "07", "FF"][chance.below(4) as usize])
        .collect();
    words.extend(["--masks".to_string(), masks]);
    let reels = 2 + chance.below(counts[3]);
    let mut labels = String::new();
    for reel in 0..reels {
        let place = format!("{:04X}", firsts[3] + reel);
        let inside = reel < counts[3] && chance.below(4) > 0;
        let _ = writeln!(
            labels,
            "FILM{reel:02}L8 {}",
            if inside { &place } else { "-" }
        );
    }
    Plan {
        words,
        labels,
        reels,
    }
}

/// The addresses that hold a volume, and those that do not, transports left out.
fn halves(tables: &TableBytes) -> (Vec<u32>, Vec<u32>) {
    let full: Vec<u32> = places(tables).into_values().collect();
    let empty = addresses(&tables.head)
        .into_iter()
        .filter(|a| *a >= 0x10 && !full.contains(a))
        .collect();
    (full, empty)
}

/// Host, command and parameters in digits.
type Call = (u32, String, String);

fn moved(chance: &mut Chance, tables: &TableBytes) -> Call {
    let (full, empty) = halves(tables);
    let any = addresses(&tables.head);
    let host = 1 + chance.below(3);
    let mut pick = |good: &[u32]| {
        let from = if chance.below(8) == 0 { &any[..] } else { good };
        chance.of(from).unwrap_or(0x1000)
    };
    let (source, first, second) = (pick(&full), pick(&empty), pick(&empty));
    let other = pick(&full);
    match source % 3 {
        0 => (
            host,
            format!("A6000000{source:04X}{other:04X}{second:04X}0000"),
            String::new(),
        ),
        1 if host == 2 => (
            host,
            format!("A6000000{source:04X}{other:04X}{source:04X}0000"),
            String::new(),
        ),
        _ => (
            host,
            format!("A5000000{source:04X}{first:04X}00000000"),
            String::new(),
        ),
    }
}

fn event(chance: &mut Chance, tables: &TableBytes, reels: u32) -> Call {
    let slot = 0x10 + chance.below(4);
    let (full, _) = halves(tables);
    let held: Vec<u32> = full.into_iter().filter(|a| *a < 0x100).collect();
    match chance.below(9) {
        0 => (0, "03".into(), String::new()),
        1..=4 => (
            0,
            "02".into(),
            format!("{:04X}", chance.of(&held).unwrap_or(slot)),
        ),
        _ => (
            0,
            "01".into(),
            format!("{slot:04X}{:04X}", 1 + chance.below(reels)),
        ),
    }
}

fn other(chance: &mut Chance, tables: &TableBytes) -> Call {
    let host = 1 + chance.below(3);
    let element = chance.of(&addresses(&tables.head)).unwrap_or(1);
    let block = match chance.below(9) {
        0 => "030000001200".into(),
        1 => {
            return (
                host,
                "160105000600".into(),
                format!("00000001{element:04X}"),
            )
        }
        2 | 3 => "170000000000".into(),
        4 => "1E0000000100".into(),
        5 => "1E0000000000".into(),
        6 => "B8100000FFFF00FFFFFF0000".into(),
        7 => return (9, "A5".into(), String::new()),
        _ => "000000000000".into(),
    };
    (host, block, String::new())
}

/// A log of so many lines, each made on the tables as those before it leave them.
pub fn log(
    chance: &mut Chance,
    tables: &TableBytes,
    (first, lines): (u32, u32),
    reels: u32,
) -> String {
    let reference = Reference::default();
    let mut tables = tables.clone();
    let mut whole = String::new();
    for number in first..first + lines {
        let (host, block, parameters) = match chance.below(10) {
            0..=4 => moved(chance, &tables),
            5 | 6 => event(chance, &tables, reels),
            _ => other(chance, &tables),
        };
        let line = format!("{number}\t{host}\t{block}\t{parameters}\n");
        let told = reference.replay(tables.lend(), line.as_bytes(), number, 1);
        assert_eq!((told.number, told.lines), (0, 1), "line {line:?}");
        whole += &line;
    }
    whole
}
