//! Recorded logs: right ones cut by budgets anywhere and gone on with, and such as are broken in one place.

use reference::{Clause, Entry, TableBytes};

use super::pairs;
use crate::call::{Call, Ending};
use crate::generate::logs::{self, LineFault, Recorded, LARGEST_NUMBER, LONGEST_LINE};
use crate::generate::{calls, faults, sound};
use crate::harness::Harness;
use crate::random::Random;
use crate::scene::Scene;
use crate::tally::{line_outcomes, Outcome, Stop};

/// A log and the number expected of its first line.
struct Log {
    lines: Vec<Recorded>,
    /// What the text holds in place of a line, or behind the last: the fault, and at which line.
    broken: Option<(LineFault, usize)>,
    text: Vec<u8>,
    first: u32,
}

impl Log {
    fn right(random: &mut Random, scene: &Scene, first: u32, lines: usize) -> Log {
        Log::of(logs::recorded(random, scene, first, lines), first)
    }

    fn of(lines: Vec<Recorded>, first: u32) -> Log {
        Log {
            text: logs::text(&lines),
            lines,
            broken: None,
            first,
        }
    }

    /// The line at this place is broken; where it has no line feed it is the last of the text.
    fn broken(mut self, random: &mut Random, fault: LineFault, at: usize) -> Log {
        let number = self.first + at as u32;
        let line = logs::broken(random, &self.lines[at].line, number, fault);
        let behind = match fault {
            LineFault::NoLineFeed => Vec::new(),
            _ => logs::text(&self.lines[at + 1..]),
        };
        self.text = [logs::text(&self.lines[..at]), line, behind].concat();
        self.broken = Some((fault, at));
        self
    }

    fn call(&self, budget: u32) -> Call {
        Call::Replay {
            log: self.text.clone(),
            expected: self.first,
            budget,
        }
    }

    /// Where a line begins.
    fn place(&self, line: usize) -> usize {
        logs::text(&self.lines[..line]).len()
    }
}

/// The call; then what became of the lines, and a call that goes on where this one stopped, with what is left of the budget or more.
fn replay(
    harness: &mut Harness,
    random: &mut Random,
    tables: &mut TableBytes,
    log: &Log,
    budget: u32,
) {
    let Some(Ending::Replayed(told)) = harness.call(tables, &log.call(budget)) else {
        return;
    };
    for line in &log.lines[..told.lines as usize] {
        for outcome in line_outcomes(line) {
            harness.reach(outcome);
        }
    }
    if let (10, Some((fault, at))) = (told.number, log.broken) {
        if told.place == log.place(at) {
            harness.reach(Outcome::LineAtFault(fault));
        }
    }
    let rest = log.text[told.place..].to_vec();
    if told.number == 1 || rest.is_empty() {
        return;
    }
    let on = Call::Replay {
        log: rest,
        expected: told.expected,
        budget: random.pick(&[0, 1, 2, budget, u32::MAX]),
    };
    if harness.call(tables, &on).is_some() {
        harness.reach(Outcome::WentOn(match told.number {
            10 => Stop::WrongLine,
            _ => Stop::BudgetUsed,
        }));
    }
}

/// Few elements mostly, quiet or busy.
fn scene(random: &mut Random) -> Scene {
    match random.below(8) {
        0 => sound::scene(random),
        1 => sound::quiet_scene(random),
        _ => sound::small_scene(random),
    }
}

/// A first number of any number of digits: the least or the largest of so many, or any. The lines behind it stay below 999,999,999.
fn first_number(random: &mut Random) -> u32 {
    let digits = random.between(1, 9) as u32;
    let least = 10_usize.pow(digits - 1);
    let most = (10 * least - 1).min(LARGEST_NUMBER as usize - 100);
    let any = random.between(least, most);
    random.pick(&[1, least, most, most - least.min(2), any]) as u32
}

/// Every budget up to more than all, each gone on with.
pub(super) fn cut_logs(harness: &mut Harness, random: &mut Random, _: usize) {
    for _ in 0..12 {
        let scene = scene(random);
        let first = first_number(random);
        let lines = random.between(0, 8);
        let log = Log::right(random, &scene, first, lines);
        for budget in (0..=lines as u32 + 1).chain([u32::MAX]) {
            replay(harness, random, &mut scene.tables.clone(), &log, budget);
        }
    }
}

/// A log whole, and line by line with a budget of one.
pub(super) fn line_by_line(harness: &mut Harness, random: &mut Random, _: usize) {
    for small in [true, false, true, false] {
        let scene = match small {
            true => sound::small_scene(random),
            false => sound::scene(random),
        };
        let first = first_number(random);
        let log = Log::right(random, &scene, first, 60);
        replay(harness, random, &mut scene.tables.clone(), &log, u32::MAX);
        let mut tables = scene.tables;
        let (mut place, mut expected) = (0, log.first);
        while place < log.text.len() {
            let call = Call::Replay {
                log: log.text[place..].to_vec(),
                expected,
                budget: 1,
            };
            let Some(Ending::Replayed(told)) = harness.call(&mut tables, &call) else {
                return;
            };
            place += told.place;
            expected = told.expected;
        }
    }
}

/// Each command with the unit open, held by another host, with attention pending, and with a bit that has no use; twice, since the
/// first ends the attention.
pub(super) fn each_command(harness: &mut Harness, random: &mut Random, _: usize) {
    for (case, first) in pairs(&[0, 1, 2, 3], &calls::COMMANDS) {
        let mut scene = sound::small_scene(random);
        match case {
            1 => scene.hold_unit(2),
            2 => scene.host_record(1)[3..].copy_from_slice(&[0x29, 0x00]),
            _ => {}
        }
        let (mut block, parameters) = calls::block(random, &scene, first);
        if case == 3 {
            *block.last_mut().expect("no block is empty") |= 1;
        }
        let call = Call::Command {
            entry: Entry::Command,
            host: 1,
            block,
            parameters,
            answer: vec![0; 600],
        };
        let mut after = scene.clone();
        let lines = [1, 2].map(|number| logs::record(&mut after, number, call.clone()));
        let log = Log::of(lines.into(), 1);
        replay(harness, random, &mut scene.tables, &log, 2);
    }
}

/// Each fault at the first line, the last or any other; budgets that end before it, just at it, and behind it.
pub(super) fn broken_logs(harness: &mut Harness, random: &mut Random, _: usize) {
    for fault in LineFault::ALL {
        for _ in 0..2 {
            let scene = scene(random);
            let first = first_number(random);
            let lines = random.between(1, 6);
            let any = random.below(lines);
            let at = random.pick(&[0, lines - 1, any]);
            let log = Log::right(random, &scene, first, lines).broken(random, fault, at);
            let at = at as u32;
            for budget in [at, at + 1, u32::MAX] {
                replay(harness, random, &mut scene.tables.clone(), &log, budget);
            }
        }
    }
}

/// Numbers that no line can have, and those beside them, with lines that have them and with none.
pub(super) fn first_numbers(harness: &mut Harness, random: &mut Random, _: usize) {
    let numbers = [
        0,
        1,
        LARGEST_NUMBER - 1,
        LARGEST_NUMBER,
        LARGEST_NUMBER + 1,
        u32::MAX - 3,
    ];
    for first in numbers {
        let scene = sound::small_scene(random);
        for lines in 0..=3 {
            let log = Log::right(random, &scene, first, lines);
            for budget in 0..=3 {
                let call = log.call(budget);
                harness.call(&mut scene.tables.clone(), &call);
            }
        }
    }
}

/// Lines about as long as they may be, by numbers of one digit and of two: then 512 or 513 bytes have an even number of hexadecimal digits.
pub(super) fn long_lines(harness: &mut Harness, random: &mut Random, _: usize) {
    for first in [7, 8, 42, 98, 123, 9_998, 99_999, 123_456, 99_999_998] {
        let scene = sound::small_scene(random);
        for length in LONGEST_LINE - 3..=LONGEST_LINE + 4 {
            let mut log = Log::right(random, &scene, first, 2);
            log.lines[1].line = logs::line_of_length(random, first + 1, length);
            log.text = logs::text(&log.lines);
            replay(harness, random, &mut scene.tables.clone(), &log, 2);
        }
    }
}

/// More bytes, and more lines, than two bytes can say; each budget and place would be another one if it were cut.
pub(super) fn wide_logs(harness: &mut Harness, random: &mut Random, _: usize) {
    let scene = sound::small_scene(random);
    let first = random.between(10, 99) as u32;
    let mut log = Log::right(random, &scene, first, 2);
    for number in (first + 2..).take(140) {
        let mut long = log.lines[0].clone();
        long.line = logs::longest_line(random, number);
        log.lines.push(long);
    }
    log.text = logs::text(&log.lines);
    for budget in [65_536, 65_537, 256, 141, 130] {
        let call = log.call(budget);
        harness.call(&mut scene.tables.clone(), &call);
    }
    let log = log.broken(random, LineFault::LeadingZero, 139);
    harness.call(&mut scene.tables.clone(), &log.call(u32::MAX));
}

/// One byte of the text becomes another, goes or comes, anywhere.
pub(super) fn one_byte_changed(harness: &mut Harness, random: &mut Random, _: usize) {
    for _ in 0..12 {
        let scene = scene(random);
        let first = first_number(random);
        let log = Log::right(random, &scene, first, 4);
        for _ in 0..8 {
            let mut text = log.text.clone();
            let at = random.below(text.len());
            let byte = random.pick(b"\t\t\n\n\r\0 0019AFaf/:@G");
            match random.below(4) {
                0 => text[at] ^= 1 << random.below(8),
                1 => text[at] = byte,
                2 => text.insert(at, byte),
                _ => {
                    text.remove(at);
                }
            }
            let call = Call::Replay {
                log: text,
                expected: log.first,
                budget: random.pick(&[1, 2, 3, 4, u32::MAX]),
            };
            harness.call(&mut scene.tables.clone(), &call);
        }
    }
}

/// Any bytes, and any of those that lines are made of.
pub(super) fn no_logs(harness: &mut Harness, random: &mut Random, _: usize) {
    for _ in 0..40 {
        let mut scene = sound::small_scene(random);
        let length = random.pick(&[0, 1, 2, 12, 100, 1_000]);
        let length = random.below(length + 1);
        let log = match random.percent(40) {
            true => random.bytes(length),
            false => (0..length)
                .map(|_| random.pick(b"1\t0\t03\t\n\n0A"))
                .collect(),
        };
        let call = Call::Replay {
            log,
            expected: random.pick(&[0, 1, 1, 1, 10, u32::MAX]),
            budget: random.pick(&[0, 1, 2, u32::MAX]),
        };
        harness.call(&mut scene.tables, &call);
    }
}

/// Number 1 comes first: without a budget, without a log, and before a line at fault.
pub(super) fn unsound_tables(harness: &mut Harness, random: &mut Random, round: usize) {
    let right = Scene::small_library();
    for (at, clause) in Clause::ALL.into_iter().enumerate() {
        let mut scene = faults::broken_scene(random, clause);
        let log = Log::right(random, &right, 5, 2);
        let text = match (at + round) % 4 {
            0 | 1 => log.text,
            2 => Vec::new(),
            _ => b"no line".to_vec(),
        };
        for budget in [0, 1] {
            let call = Call::Replay {
                log: text.clone(),
                expected: random.pick(&[0, 5, 6]),
                budget,
            };
            harness.call(&mut scene.tables, &call);
        }
    }
}
