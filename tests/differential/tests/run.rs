//! What a run of the default size goes through.

use std::time::Instant;

use differential::harness::{Limits, Report, Subject};
use differential::{scenarios, DEFAULT_CALLS, DEFAULT_SEED};
use reference::{Entry, Implementation, Reference, Replayed, Reply, Request, Tables};

fn compare_with_a_copy(calls: usize, seed: u64) -> Report {
    let copy = Subject {
        name: "copy",
        implementation: &Reference::default(),
    };
    let limits = Limits {
        calls,
        stop_at_first_difference: false,
        trace: false,
    };
    scenarios::run(&Reference::default(), &[copy], limits, seed)
}

#[test]
fn a_default_run_reaches_every_required_outcome() {
    let started = Instant::now();
    let report = compare_with_a_copy(DEFAULT_CALLS, DEFAULT_SEED);
    println!("{}\n{:?}", report.tally, started.elapsed());
    assert_eq!(report.tally.missing(), []);
    assert_eq!((report.calls, report.failed), (DEFAULT_CALLS, 0));
}

#[test]
fn the_seed_that_once_broke_off_goes_through() {
    let report = compare_with_a_copy(20_000, 40);
    assert_eq!(report.broken_off, [""; 0]);
    assert_eq!((report.calls, report.failed), (20_000, 0));
}

/// Does not come back from any RESERVE.
struct BreaksOff;

impl Implementation for BreaksOff {
    fn enter(&self, entry: Entry, tables: Tables, request: Request) -> Reply {
        assert_ne!(request.block.first(), Some(&0x16), "a RESERVE");
        Reference::default().enter(entry, tables, request)
    }

    fn import(&self, tables: Tables, address: u32, volume: u32) -> Reply {
        Reference::default().import(tables, address, volume)
    }

    fn export(&self, tables: Tables, address: u32) -> Reply {
        Reference::default().export(tables, address)
    }

    fn reset(&self, tables: Tables) -> Reply {
        Reference::default().reset(tables)
    }

    fn replay(&self, tables: Tables, log: &[u8], expected: u32, budget: u32) -> Replayed {
        Reference::default().replay(tables, log, expected, budget)
    }
}

#[test]
fn a_scenario_that_breaks_off_is_told_and_the_run_goes_on() {
    let subject = Subject {
        name: "breaks off",
        implementation: &BreaksOff,
    };
    let limits = Limits {
        calls: DEFAULT_CALLS,
        stop_at_first_difference: false,
        trace: false,
    };
    let report = scenarios::run(&Reference::default(), &[subject], limits, 1);
    assert_eq!(report.broken_off.len(), 20);
    assert!(report.broken_off[0].contains("a RESERVE"));
    assert!(report.calls > 1_000 && report.failed == 0);
}
