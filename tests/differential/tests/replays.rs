//! What must hold of any replay, on the reference and on the core: it goes on where it stopped, it ends as the recorded calls
//! end one by one, and it does as many lines as it says.

use core_ffi::{core, EmptySlices};
use differential::call::Call;
use differential::compare::make;
use differential::generate::logs::{self, LineFault, Recorded};
use differential::generate::sound;
use differential::random::Random;
use differential::scene::Scene;
use reference::{check, Implementation, Reference, Replayed, TableBytes};

const LOGS: usize = 1_000;

/// Tables, a log for them, broken at a line or not, and the number of its first line.
struct Day {
    tables: TableBytes,
    lines: Vec<Recorded>,
    log: Vec<u8>,
    first: u32,
}

fn day(random: &mut Random) -> Day {
    let scene: Scene = match random.percent(80) {
        true => sound::small_scene(random),
        false => sound::scene(random),
    };
    let first = random.pick(&[1, 8, 97, 1_000, 999_999_900]);
    let lines = random.between(1, 12);
    let mut lines = logs::recorded(random, &scene, first, lines);
    let mut log = logs::text(&lines);
    if random.percent(60) {
        let at = random.below(lines.len());
        let fault = random.pick(&LineFault::ALL);
        let before = logs::text(&lines[..at]);
        let line = logs::broken(random, &lines[at].line, first + at as u32, fault);
        let behind = match fault {
            LineFault::NoLineFeed => Vec::new(),
            _ => logs::text(&lines[at + 1..]),
        };
        log = [before, line, behind].concat();
        lines.truncate(at);
    }
    Day {
        tables: scene.tables,
        lines,
        log,
        first,
    }
}

/// What a replay told, and the tables that it left.
fn replay(
    on: &dyn Implementation,
    before: &TableBytes,
    log: &[u8],
    (expected, budget): (u32, u32),
) -> (Replayed, TableBytes) {
    let mut tables = before.clone();
    let told = on.replay(tables.lend(), log, expected, budget);
    (told, tables)
}

/// For many days, on the reference and on the core.
fn each_day(seed: u64, holds: impl Fn(&mut Random, &dyn Implementation, &Day)) {
    let [pointers, nulls] = [EmptySlices::Pointer, EmptySlices::Null].map(core);
    for on in [
        &Reference::default() as &dyn Implementation,
        &pointers,
        &nulls,
    ] {
        let mut random = Random::new(seed);
        for _ in 0..LOGS {
            let day = day(&mut random);
            holds(&mut random, on, &day);
        }
    }
}

#[test]
fn two_calls_end_as_one_with_the_sum_of_their_budgets() {
    each_day(31, |random, on, day| {
        let [one, two] = [0, 0].map(|_| random.below(day.lines.len() + 3) as u32);
        let (told, between) = replay(on, &day.tables, &day.log, (day.first, one));
        if told.number != 0 {
            return;
        }
        let rest = &day.log[told.place..];
        let (then, after) = replay(on, &between, rest, (told.expected, two));
        let (whole, at_once) = replay(on, &day.tables, &day.log, (day.first, one + two));
        let expected = Replayed {
            lines: told.lines + then.lines,
            place: told.place + then.place,
            ..then
        };
        assert_eq!((whole, at_once), (expected, after));
    });
}

#[test]
fn a_replay_ends_as_its_calls_end_one_by_one() {
    each_day(32, |_, on, day| {
        let (told, after) = replay(on, &day.tables, &day.log, (day.first, u32::MAX));
        assert_eq!(told.lines as usize, day.lines.len());
        let mut tables = day.tables.clone();
        for recorded in &day.lines {
            let made = make(on, &tables, &recorded.call, [0; 16]);
            assert_eq!(made.reply(), recorded.reply);
            made.carry_on(&mut tables);
        }
        assert_eq!(after, tables);
    });
}

#[test]
fn number_10_keeps_what_the_lines_before_did() {
    each_day(33, |_, on, day| {
        let whole = logs::text(&day.lines).len();
        let lines = day.lines.len() as u32;
        let (told, after) = replay(on, &day.tables, &day.log, (day.first, u32::MAX));
        let (before, kept) = replay(on, &day.tables, &day.log, (day.first, lines));
        let number = if whole == day.log.len() { 0 } else { 10 };
        let expected = Replayed {
            number,
            lines,
            place: whole,
            expected: day.first + lines,
        };
        assert_eq!(told, expected);
        let expected = Replayed {
            number: 0,
            ..expected
        };
        assert_eq!(before, expected);
        assert_eq!(after, kept);
    });
}

#[test]
fn a_replay_stays_within_its_budget_and_its_log() {
    each_day(34, |random, on, day| {
        let budget = random.below(day.lines.len() + 3) as u32;
        let (told, mut after) = replay(on, &day.tables, &day.log, (day.first, budget));
        assert!(told.lines <= budget && told.place <= day.log.len());
        let applied = &day.log[..told.place];
        let line_feeds = applied.iter().filter(|&&byte| byte == b'\n').count();
        assert_eq!(line_feeds, told.lines as usize);
        assert!(applied.is_empty() || applied.ends_with(b"\n"));
        assert_eq!(told.expected, day.first + told.lines);
        let stopped = told.lines == budget || told.place == day.log.len();
        assert!(stopped || told.number == 10);
        assert_eq!(check(&after.lend()), Ok(()));
    });
}

/// A log that is not looked at tells nothing, whatever stands in it.
#[test]
fn without_a_budget_nothing_is_looked_at() {
    each_day(35, |random, on, day| {
        let length = random.below(40);
        let log = random.bytes(length);
        let expected = random.word() as u32;
        let (told, after) = replay(on, &day.tables, &log, (expected, 0));
        let nothing = Replayed {
            expected,
            ..Replayed::default()
        };
        assert_eq!((told, after), (nothing, day.tables.clone()));
    });
}

#[test]
fn a_replay_is_shown_line_by_line() {
    let call = Call::Replay {
        log: b"7\t1\t00\t\nrest".to_vec(),
        expected: 7,
        budget: 2,
    };
    let shown = "  replay, expected 7, budget 2\n  log (12):\n    7\\t1\\t00\\t\\n\n    rest\n";
    assert_eq!(call.to_string(), shown);
}
