//! A fault is found exactly where the core answers number 1, and the clause that is told is one that fails.

use std::cell::RefCell;
use std::collections::BTreeMap;

use core_ffi::{core, EmptySlices, Linked};
use differential::generate::{faults, sound};
use differential::harness::{Limits, Subject};
use differential::random::Random;
use differential::{scenarios, DEFAULT_SEED};
use explain::{explain, Fault};
use reference::{
    check, fails_alone, Clause, Entry, Implementation, Reference, Replayed, Reply, Request,
    TableBytes, Tables,
};

const CALLS: usize = 60_000;

/// The core, with the explanation held to each of its replies.
struct Explained {
    core: Linked,
    told: RefCell<BTreeMap<Clause, usize>>,
}

impl Explained {
    fn new() -> Explained {
        Explained {
            core: core(EmptySlices::Pointer),
            told: RefCell::default(),
        }
    }

    fn call<R>(
        &self,
        tables: Tables,
        make: impl FnOnce(Tables) -> R,
        number: impl Fn(&R) -> u32,
    ) -> R {
        let (fault, tables) = explained(tables);
        let expected = check(&tables);
        if let Err(clause) = expected {
            if fails_alone(&tables, clause) {
                assert_eq!(fault.clause(), Some(clause), "{tables:?}");
            }
        }
        let shown = format!("{fault:?}");
        let reply = make(tables);
        assert_eq!(fault.clause().is_some(), number(&reply) == 1, "{shown}");
        if let Some(clause) = fault.clause() {
            *self.told.borrow_mut().entry(clause).or_default() += 1;
        }
        reply
    }

    fn reply(&self, tables: Tables, make: impl FnOnce(Tables) -> Reply) -> Reply {
        self.call(tables, make, |reply| reply.number.into())
    }

    /// The tables alone, by the event that needs nothing else.
    fn judge(&self, tables: &mut TableBytes) -> Reply {
        self.reset(tables.lend())
    }
}

/// The fault, and the tables as they were: nothing may be written.
fn explained(tables: Tables) -> (Fault, Tables) {
    let mut tables = tables;
    let written =
        |tables: &Tables| [&*tables.head, tables.elements, tables.search].map(<[u8]>::to_vec);
    let before = written(&tables);
    let fault = explain(tables.lend());
    assert_eq!(written(&tables), before);
    (fault, tables)
}

impl Implementation for Explained {
    fn enter(&self, entry: Entry, tables: Tables, request: Request) -> Reply {
        self.reply(tables, |tables| self.core.enter(entry, tables, request))
    }

    fn import(&self, tables: Tables, address: u32, volume: u32) -> Reply {
        self.reply(tables, |tables| self.core.import(tables, address, volume))
    }

    fn export(&self, tables: Tables, address: u32) -> Reply {
        self.reply(tables, |tables| self.core.export(tables, address))
    }

    fn reset(&self, tables: Tables) -> Reply {
        self.reply(tables, |tables| self.core.reset(tables))
    }

    fn replay(&self, tables: Tables, log: &[u8], expected: u32, budget: u32) -> Replayed {
        let replay = |tables: Tables| self.core.replay(tables, log, expected, budget);
        self.call(tables, replay, |replayed| replayed.number)
    }
}

#[test]
fn every_call_of_the_comparison_is_explained() {
    let explained = Explained::new();
    let subject = Subject {
        name: "explained core",
        implementation: &explained,
    };
    let limits = Limits {
        calls: CALLS,
        stop_at_first_difference: false,
        trace: false,
    };
    let report = scenarios::run(&Reference::default(), &[subject], limits, DEFAULT_SEED);
    assert_eq!(report.broken_off, [""; 0]);
    assert_eq!((report.calls, report.failed), (CALLS, 0));
    let told: Vec<Clause> = explained.told.into_inner().into_keys().collect();
    assert_eq!(told, Clause::ALL);
}

#[test]
fn every_broken_table_is_explained() {
    let explained = Explained::new();
    let mut random = Random::new(21);
    for clause in Clause::ALL {
        for _ in 0..400 {
            let mut scene = faults::broken_scene(&mut random, clause);
            assert_eq!(explained.judge(&mut scene.tables).number, 1);
        }
    }
    for _ in 0..5_000 {
        let mut scene = faults::doubly_broken_scene(&mut random);
        assert_eq!(explained.judge(&mut scene.tables).number, 1);
    }
}

#[test]
fn random_bytes_are_explained() {
    let explained = Explained::new();
    let mut random = Random::new(22);
    let mut sound_ones = 0;
    for _ in 0..60_000 {
        let mut tables = sound::small_scene(&mut random).tables;
        for _ in 0..random.between(1, 3) {
            spoil(&mut random, &mut tables);
        }
        sound_ones += usize::from(explained.judge(&mut tables).number == 0);
    }
    assert!(sound_ones > 1_000, "{sound_ones}");
    for _ in 0..20_000 {
        let mut tables = sound::small_scene(&mut random).tables;
        for table in tables.each() {
            let right = table.len();
            let length = random.pick(&[right, right, right, right.saturating_sub(1), 0]);
            *table = random.bytes(length);
        }
        explained.judge(&mut tables);
    }
}

/// One byte of a table becomes another, or the table is cut or made longer.
fn spoil(random: &mut Random, tables: &mut TableBytes) {
    let each = tables.each();
    // Mostly head or elements, where most clauses stand.
    let table = match random.percent(90) {
        true => &mut *each[random.below(2)],
        false => &mut *each[random.below(each.len())],
    };
    if random.percent(3) {
        let length = random.below(2 * table.len() + 2);
        table.resize(length, 0);
    } else if !table.is_empty() {
        let at = random.below(table.len());
        table[at] = random.pick(&[0, 1, 2, 8, 9, 0x28, 0x29, 255]);
    }
}
