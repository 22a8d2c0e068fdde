//! What a replay came to, and what became of the lines that it applied.

use reference::Reply;

use super::{Event, First, Outcome};
use crate::call::{Call, Ending};
use crate::compare::Made;
use crate::generate::calls::COMMANDS;
use crate::generate::logs::{LineFault, Recorded, LARGEST_NUMBER, LONGEST_LINE};

/// Why a replay stopped.
#[derive(Clone, Copy, Debug, PartialEq, Eq, PartialOrd, Ord)]
pub enum Stop {
    NotSound,
    WrongLine,
    BudgetUsed,
    LogEnded,
    /// The budget was used when the log was at its end.
    BothAtOnce,
}

/// How many lines were applied.
#[derive(Clone, Copy, Debug, PartialEq, Eq, PartialOrd, Ord)]
pub enum Lines {
    None,
    One,
    More,
}

/// The number that was expected first.
#[derive(Clone, Copy, Debug, PartialEq, Eq, PartialOrd, Ord)]
pub enum Given {
    Zero,
    One,
    Between,
    Largest,
    Above,
}

impl Given {
    fn of(expected: u32) -> Given {
        match expected {
            0 => Given::Zero,
            1 => Given::One,
            2..LARGEST_NUMBER => Given::Between,
            LARGEST_NUMBER => Given::Largest,
            _ => Given::Above,
        }
    }
}

pub(super) fn outcomes(log: &[u8], (expected, budget): (u32, u32), made: &Made) -> Vec<Outcome> {
    let Ending::Replayed(told) = made.ending else {
        return Vec::new();
    };
    let stop = match told.number {
        1 => Stop::NotSound,
        10 => Stop::WrongLine,
        _ if told.place < log.len() => Stop::BudgetUsed,
        _ if told.lines < budget => Stop::LogEnded,
        _ => Stop::BothAtOnce,
    };
    let lines = match told.lines {
        0 => Lines::None,
        1 => Lines::One,
        _ => Lines::More,
    };
    let mut reached = vec![
        Outcome::Replay(stop, lines),
        Outcome::ReplayFrom(Given::of(expected), stop),
    ];
    if stop == Stop::NotSound {
        let (budget, log) = (budget != 0, !log.is_empty());
        reached.push(Outcome::ReplayNotSound { budget, log });
    }
    reached
}

/// What the call of an applied line came to.
pub fn line_outcomes(recorded: &Recorded) -> Vec<Outcome> {
    let Reply {
        number,
        status,
        count,
        ..
    } = recorded.reply;
    let mut reached = vec![Outcome::LineNumber(number)];
    match &recorded.call {
        Call::Command { block, .. } => {
            if let Some(first) = First::of(block).filter(|_| number == 0) {
                reached.push(Outcome::LineStatus(first, status));
                if status == 0x02 && recorded.sense == [5, 0x30, 0x12] {
                    reached.push(Outcome::LineNotTaken(first));
                }
                if recorded.searches {
                    reached.push(Outcome::LineSearches(first));
                }
                if count > 0 {
                    reached.push(Outcome::LineAnswered(first));
                }
            }
        }
        Call::Import { .. } => reached.push(Outcome::LineEvent(Event::Import, number)),
        Call::Export { .. } => reached.push(Outcome::LineEvent(Event::Export, number)),
        Call::Reset => reached.push(Outcome::LineEvent(Event::Reset, number)),
        Call::Replay { .. } => {}
    }
    if recorded.line.bytes().len() == LONGEST_LINE + 1 {
        reached.push(Outcome::LongestLine);
    }
    reached
}

/// Each stop with none, one and more lines behind it; each first number; each fault; lines of each command with each status, of each
/// event, and refused by each number but 5.
pub(super) fn required() -> Vec<Outcome> {
    let mut required = vec![Outcome::Replay(Stop::NotSound, Lines::None)];
    for lines in [Lines::None, Lines::One, Lines::More] {
        let stops = [
            Stop::WrongLine,
            Stop::BudgetUsed,
            Stop::LogEnded,
            Stop::BothAtOnce,
        ];
        required.extend(stops.map(|stop| Outcome::Replay(stop, lines)));
    }
    for given in [
        Given::Zero,
        Given::One,
        Given::Between,
        Given::Largest,
        Given::Above,
    ] {
        let stops = [Stop::WrongLine, Stop::BudgetUsed, Stop::LogEnded];
        required.extend(stops.map(|stop| Outcome::ReplayFrom(given, stop)));
    }
    for (budget, log) in [(false, false), (false, true), (true, false), (true, true)] {
        required.push(Outcome::ReplayNotSound { budget, log });
    }
    required.extend([Stop::BudgetUsed, Stop::WrongLine].map(Outcome::WentOn));
    required.extend(LineFault::ALL.map(Outcome::LineAtFault));
    required.extend(required_lines());
    required
}

fn required_lines() -> Vec<Outcome> {
    let mut required = vec![Outcome::LongestLine];
    required.extend([0, 2, 3, 4, 6, 7, 8, 9].map(Outcome::LineNumber));
    for first in COMMANDS {
        let statuses: &[u8] = match first {
            0x03 | 0x17 => &[0x00, 0x02],
            _ => &[0x00, 0x02, 0x18],
        };
        let line = |status: &u8| Outcome::LineStatus(First::Known(first), *status);
        required.extend(statuses.iter().map(line));
    }
    let reads = [0x03, 0xB8, 0x1A, 0xB5].map(First::Known);
    required.extend(reads.map(Outcome::LineAnswered));
    for event in [Event::Import, Event::Export, Event::Reset] {
        required.push(Outcome::LineEvent(event, 0));
    }
    required
}
