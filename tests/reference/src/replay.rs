//! "Replay of the day's log. Where did a reel go on Tuesday?"
//!
//! A line is split at its tabs and read field by field. What it records is then a call like any other: it is made by the
//! reference's own entries, with room for any answer.

use crate::bytes::two;
use crate::interface::{Entry, Implementation, Replayed, Reply, Request, Tables};
use crate::rules::{Mutation, Rules};
use crate::Reference;

/// "lines of at most 512 bytes and a line feed": the line feed is not one of them.
const MOST_BYTES: usize = 512;
/// A number of 1 to 9 digits whose first is not 0 is one of 1 to 999,999,999.
const MOST_DIGITS: usize = 9;
/// All 512 elements with tags.
const LARGEST_ANSWER: usize = 26_664;

const NOT_SOUND: u32 = 1;
const WRONG_LINE: u32 = 10;

/// "Replay starts from given tables and an expected number that rises by one a line"
pub(crate) fn replay(
    reference: &Reference,
    mut tables: Tables,
    log: &[u8],
    (expected, budget): (u32, u32),
) -> Replayed {
    let rules = reference.rules;
    let mut told = Replayed {
        expected,
        ..Replayed::default()
    };
    let unlooked =
        rules.broken_by(Mutation::TablesUnjudgedWithoutLines) && budget.min(log.len() as u32) == 0;
    if !unlooked && reference.read(&tables).is_err() {
        told.number = NOT_SOUND;
        return told;
    }
    let start = [&*tables.head, tables.elements, tables.search].map(<[u8]>::to_vec);
    // "Each call does at most a stated number of lines, stops sooner only at number 1 or 10 or the log's end"
    while told.lines < budget && told.place < log.len() {
        let rest = &log[told.place..];
        let Some((bytes, call)) = next(rest, told.expected, rules) else {
            told.number = WRONG_LINE;
            stop_mistakes(&mut told, rest, &mut tables, start, rules);
            return told;
        };
        let reply = call.make(reference, tables.lend());
        // "A line the core refuses by number counts as applied."
        let uncounted = reply.number != 0 && rules.broken_by(Mutation::RefusedLineNotCounted);
        told.lines += u32::from(!uncounted);
        told.place += bytes;
        told.expected += 1;
    }
    end_mistakes(&mut told, log, expected, rules);
    told
}

/// The budget is used or the log at its end: this does nothing but under a mutation.
fn end_mistakes(told: &mut Replayed, log: &[u8], given: u32, rules: Rules) {
    let behind = &log[told.place..];
    let looks_on = rules.broken_by(Mutation::LineBehindBudgetJudged) && !behind.is_empty();
    if looks_on && next(behind, told.expected, rules).is_none() {
        told.number = WRONG_LINE;
    }
    if rules.broken_by(Mutation::ExpectedAsGiven) {
        told.expected = given;
    }
}

/// "replay stops with the tables as after the line before; number 10 alone keeps what earlier lines did, and their count": this does
/// nothing but under a mutation.
fn stop_mistakes(
    told: &mut Replayed,
    rest: &[u8],
    tables: &mut Tables,
    [head, elements, search]: [Vec<u8>; 3],
    rules: Rules,
) {
    match rules.mutation {
        Some(Mutation::LineAtFaultCounted) => told.lines += 1,
        Some(Mutation::LineAtFaultPassed) => {
            let end = rest.iter().position(|&byte| byte == b'\n');
            told.place += end.map_or(rest.len(), |end| end + 1);
        }
        Some(Mutation::TablesPutBackAtTen) => {
            tables.head.copy_from_slice(&head);
            tables.elements.copy_from_slice(&elements);
            tables.search.copy_from_slice(&search);
        }
        Some(Mutation::SearchPutBackAtTen) => tables.search.copy_from_slice(&search),
        _ => {}
    }
}

/// The line that the log begins with: how many bytes it takes, with its line feed, and the call that it records. None for "a line of
/// another form or number".
fn next(log: &[u8], expected: u32, rules: Rules) -> Option<(usize, Recorded)> {
    let end = log.iter().position(|&byte| byte == b'\n');
    let line = match end {
        None if !rules.broken_by(Mutation::RestWithoutLineFeedTaken) => return None,
        end => &log[..end.unwrap_or(log.len())],
    };
    let counted = match rules.broken_by(Mutation::LineFeedCountedInLine) {
        true => line.len() + 1,
        false => line.len(),
    };
    if counted > MOST_BYTES && !rules.broken_by(Mutation::LongLineTaken) {
        return None;
    }
    let (number, call) = read(line, rules)?;
    let fits = match rules.broken_by(Mutation::LaterNumberTaken) {
        true => number >= expected,
        false => number == expected,
    };
    let bytes = line.len() + usize::from(end.is_some());
    fits.then_some((bytes, call))
}

/// "four fields parted by tabs: sequence number .., host or 0 (one digit), command bytes, parameter bytes"
fn read(line: &[u8], rules: Rules) -> Option<(u32, Recorded)> {
    let line = match line {
        [line @ .., b'\r'] if rules.broken_by(Mutation::CarriageReturnPassed) => line,
        line => line,
    };
    let fields: Vec<&[u8]> = line.split(|&byte| byte == b'\t').collect();
    let [number, host, command, parameters] = match fields[..] {
        [number, host, command, parameters] => [number, host, command, parameters],
        [number, host, command, parameters, ..]
            if rules.broken_by(Mutation::FurtherFieldsPassed) =>
        {
            [number, host, command, parameters]
        }
        _ => return None,
    };
    let number = read_number(number, rules)?;
    let host = read_host(host, rules)?;
    let block = read_bytes(command, rules)?;
    let parameters = read_bytes(parameters, rules)?;
    if host == 0 {
        return Some((number, event(&block, &parameters, rules)?));
    }
    if block.is_empty() && rules.broken_by(Mutation::EmptyCommandIsNoLine) {
        return None;
    }
    let command = Recorded::Command {
        host,
        block,
        parameters,
    };
    Some((number, command))
}

/// "sequence number (decimal, 1 to 999,999,999, no leading zero)"
fn read_number(field: &[u8], rules: Rules) -> Option<u32> {
    let is_number = !field.is_empty() && field.iter().all(u8::is_ascii_digit);
    let leading_zero = field.starts_with(b"0") && !rules.broken_by(Mutation::LeadingZeroLetThrough);
    if !is_number || leading_zero {
        return None;
    }
    let cut = match rules.mutation {
        Some(Mutation::NumberCutToFourBytes) => 1 << 32,
        Some(Mutation::NumberCutToEightBytes) => 1 << 64,
        _ if field.len() > MOST_DIGITS => return None,
        _ => u128::MAX,
    };
    // Modulo a power of two, so that the mistakes are those of a number that wraps.
    let value = |sum: u128, digit: &u8| (sum * 10 + u128::from(digit - b'0')) % cut;
    let number = field.iter().fold(0, value);
    u32::try_from(number).ok()
}

/// "host or 0 (one digit)"
fn read_host(field: &[u8], rules: Rules) -> Option<u32> {
    match field {
        [b'9'] if rules.broken_by(Mutation::HostNineIsNoLine) => None,
        [digit] if digit.is_ascii_digit() => Some(u32::from(digit - b'0')),
        [b'0', digit @ b'0'..=b'9'] if rules.broken_by(Mutation::HostOfTwoDigits) => {
            Some(u32::from(digit - b'0'))
        }
        _ => None,
    }
}

/// "both in upper-case hexadecimal": two digits a byte.
fn read_bytes(field: &[u8], rules: Rules) -> Option<Vec<u8>> {
    let field = match rules.broken_by(Mutation::OddDigitPassed) {
        true => &field[..field.len() & !1],
        false => field,
    };
    let digit = |byte: u8| match byte {
        b'0'..=b'9' => Some(byte - b'0'),
        b'A'..=b'F' => Some(byte - b'A' + 10),
        b'a'..=b'f' if rules.broken_by(Mutation::LowerCaseLetThrough) => Some(byte - b'a' + 10),
        _ => None,
    };
    let byte = |pair: &[u8]| match *pair {
        [high, low] => Some(digit(high)? << 4 | digit(low)?),
        _ => None,
    };
    field.chunks(2).map(byte).collect()
}

/// "01 import, 02 export, 03 reset, with address and volume, address, or nothing as parameters; all else is another form"
fn event(block: &[u8], parameters: &[u8], rules: Rules) -> Option<Recorded> {
    let word = |at: usize| u32::from(two(parameters, at));
    let more = rules.broken_by(Mutation::EventParametersPassed);
    match (block, parameters.len()) {
        ([0x01], 4) => Some(Recorded::Import {
            address: word(0),
            volume: word(2),
        }),
        ([0x02], 2) => Some(Recorded::Export { address: word(0) }),
        ([0x02], 3..) if more => Some(Recorded::Export { address: word(0) }),
        ([0x03], 0) => Some(Recorded::Reset),
        ([0x03], _) if more => Some(Recorded::Reset),
        // The core would refuse it by number 2.
        _ if rules.broken_by(Mutation::UnknownEventCounts) => Some(Recorded::Command {
            host: 0,
            block: block.to_vec(),
            parameters: parameters.to_vec(),
        }),
        _ => None,
    }
}

/// The call that a line records.
enum Recorded {
    Command {
        host: u32,
        block: Vec<u8>,
        parameters: Vec<u8>,
    },
    Import {
        address: u32,
        volume: u32,
    },
    Export {
        address: u32,
    },
    Reset,
}

impl Recorded {
    /// "Answers aren't kept, so number 5 doesn't arise."
    fn make(&self, reference: &Reference, tables: Tables) -> Reply {
        let of_lines = match reference.rules.mutation {
            Some(Mutation::ReplayTakesAnyCartridge) => Rules::with(Mutation::AnyCartridgeTaken),
            Some(Mutation::ReplayUsesTheFirstArm) => Rules::with(Mutation::FirstArmAlways),
            Some(Mutation::ReplayTellsNothing) => Rules::with(Mutation::ToldTwice),
            Some(Mutation::ReplayKeepsNoSearch) => Rules::with(Mutation::SearchNotKept),
            Some(Mutation::ReplayResetKeepsSearch) => Rules::with(Mutation::ResetKeepsSearch),
            _ => reference.rules,
        };
        let reference = &Reference { rules: of_lines };
        let room = match reference.rules.broken_by(Mutation::AnswersNeedRoom) {
            true => 0,
            false => LARGEST_ANSWER,
        };
        match self {
            Recorded::Command {
                host,
                block,
                parameters,
            } => {
                let request = Request {
                    host: *host,
                    block,
                    parameters,
                    answer: &mut vec![0; room],
                };
                reference.enter(Entry::Command, tables, request)
            }
            Recorded::Import { address, volume } => reference.import(tables, *address, *volume),
            Recorded::Export { address } => reference.export(tables, *address),
            Recorded::Reset => reference.reset(tables),
        }
    }
}
