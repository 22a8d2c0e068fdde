//! Recorded logs: plausible calls as lines of text, and lines that are broken in one place.

use reference::{Reference, Reply};

use super::calls;
use crate::call::Call;
use crate::compare::make;
use crate::random::Random;
use crate::scene::Scene;

/// A line has at most so many bytes before its line feed.
pub const LONGEST_LINE: usize = 512;
/// The largest number of a line.
pub const LARGEST_NUMBER: u32 = 999_999_999;
const LARGEST_ANSWER: usize = 26_664;

/// A line, field by field.
#[derive(Clone, Debug)]
pub struct Line {
    pub number: Vec<u8>,
    pub host: Vec<u8>,
    pub command: Vec<u8>,
    pub parameters: Vec<u8>,
}

/// A line, the call that it records, what that call ends with, and its host's sense behind it; zeros where there is no such host.
#[derive(Clone, Debug)]
pub struct Recorded {
    pub line: Line,
    pub call: Call,
    pub reply: Reply,
    pub sense: [u8; 3],
    /// Whether the search is another behind it.
    pub searches: bool,
}

fn hex(bytes: &[u8]) -> Vec<u8> {
    let pairs = bytes.iter().map(|byte| format!("{byte:02X}"));
    pairs.collect::<String>().into_bytes()
}

fn decimal(number: impl ToString) -> Vec<u8> {
    number.to_string().into_bytes()
}

impl Line {
    pub fn new(number: u32, host: u8, command: &[u8], parameters: &[u8]) -> Line {
        Line {
            number: decimal(number),
            host: decimal(host),
            command: hex(command),
            parameters: hex(parameters),
        }
    }

    /// A call whose host is one digit, and whose address and volume are two bytes each.
    fn of(number: u32, call: &Call) -> Line {
        let event = |code: u8, words: &[u32]| {
            let parameters = words.iter().flat_map(|&word| (word as u16).to_be_bytes());
            Line::new(number, 0, &[code], &parameters.collect::<Vec<u8>>())
        };
        match call {
            Call::Command {
                host,
                block,
                parameters,
                ..
            } => Line::new(number, *host as u8, block, parameters),
            Call::Import { address, volume } => event(0x01, &[*address, *volume]),
            Call::Export { address } => event(0x02, &[*address]),
            Call::Reset => event(0x03, &[]),
            Call::Replay { .. } => unreachable!("a replay has no form in the log"),
        }
    }

    fn fields(&self) -> [&[u8]; 4] {
        [&self.number, &self.host, &self.command, &self.parameters]
    }

    /// The line with its line feed.
    pub fn bytes(&self) -> Vec<u8> {
        [&self.fields().join(&b'\t')[..], b"\n"].concat()
    }
}

/// The call with a buffer that is long enough, and with numbers that a line can hold. Some of the commands are such as the core
/// refuses, by number or for a bit that has no use.
fn recordable(random: &mut Random, call: Call) -> Call {
    match call {
        Call::Command {
            entry,
            mut host,
            mut block,
            mut parameters,
            ..
        } => {
            match random.below(24) {
                0 => host = 9,
                1 => block.clear(),
                2 => block.push(0),
                3 => parameters.push(0),
                4 => block.last_mut().map_or((), |control| *control |= 1),
                _ => {}
            }
            Call::Command {
                entry,
                host,
                block,
                parameters,
                answer: vec![0; LARGEST_ANSWER],
            }
        }
        Call::Import { address, volume } => Call::Import {
            address: address & 0xFFFF,
            volume: volume & 0xFFFF,
        },
        Call::Export { address } => Call::Export {
            address: address & 0xFFFF,
        },
        other => other,
    }
}

/// The call recorded under this number, with the scene carried on to what it leaves.
pub fn record(scene: &mut Scene, number: u32, call: Call) -> Recorded {
    let made = make(&Reference::default(), &scene.tables, &call, [0; 16]);
    let searches = made.search() != scene.tables.search;
    made.carry_on(&mut scene.tables);
    let sense = match call {
        Call::Command {
            host: host @ 1..=8, ..
        } => {
            let record = scene.host_record(host as u8);
            [record[0], record[1], record[2]]
        }
        _ => [0; 3],
    };
    Recorded {
        line: Line::of(number, &call),
        reply: made.reply(),
        sense,
        searches,
        call,
    }
}

/// So many plausible calls, numbered from the first number on, each on the tables as those before it leave them. The scene is sound.
pub fn recorded(random: &mut Random, scene: &Scene, first: u32, lines: usize) -> Vec<Recorded> {
    let mut scene = scene.clone();
    (first..)
        .take(lines)
        .map(|number| {
            let call = calls::plausible(random, &scene);
            let call = recordable(random, call);
            record(&mut scene, number, call)
        })
        .collect()
}

pub fn text(lines: &[Recorded]) -> Vec<u8> {
    lines.iter().flat_map(|one| one.line.bytes()).collect()
}

/// The longest line of this number that has the form: 512 bytes where the number has an even number of digits, else 511.
pub fn longest_line(random: &mut Random, number: u32) -> Line {
    let digits = decimal(number).len();
    line_of_length(random, number, LONGEST_LINE - digits % 2)
}

/// A line of this number with so many bytes before its line feed, of the form if its length allows that: with an even number of
/// hexadecimal digits. The core finds no command in it.
pub fn line_of_length(random: &mut Random, number: u32, length: usize) -> Line {
    let mut line = Line::new(number, 1, &[0xC0], &[]);
    let digits = length - line.bytes().len() + 1;
    let of_command = 2 * random.below(digits / 2 + 1);
    line.command
        .extend((0..of_command).map(|_| random.pick(b"0123456789ABCDEF")));
    line.parameters
        .extend((of_command..digits).map(|_| random.pick(b"0123456789ABCDEF")));
    line
}

/// What makes a line one of another form or number.
#[derive(Clone, Copy, Debug, PartialEq, Eq, PartialOrd, Ord)]
pub enum LineFault {
    FieldMissing,
    FieldMore,
    BlankForTab,
    EmptyLine,
    NumberMissing,
    NumberZero,
    LeadingZero,
    OneLess,
    OneMore,
    AnotherNumber,
    TenDigits,
    TwentyDigits,
    NumberNoDigit,
    HostMissing,
    HostOfTwoDigits,
    HostNoDigit,
    CommandLowerCase,
    CommandOdd,
    CommandNoDigit,
    ParametersLowerCase,
    ParametersOdd,
    ParametersNoDigit,
    EventUnknown,
    EventMissing,
    EventOfTwoBytes,
    ImportParameters,
    ExportParameters,
    ResetParameters,
    TooLong,
    NoLineFeed,
    CarriageReturn,
    Nul,
    Binary,
}

impl LineFault {
    pub const ALL: [LineFault; 33] = [
        LineFault::FieldMissing,
        LineFault::FieldMore,
        LineFault::BlankForTab,
        LineFault::EmptyLine,
        LineFault::NumberMissing,
        LineFault::NumberZero,
        LineFault::LeadingZero,
        LineFault::OneLess,
        LineFault::OneMore,
        LineFault::AnotherNumber,
        LineFault::TenDigits,
        LineFault::TwentyDigits,
        LineFault::NumberNoDigit,
        LineFault::HostMissing,
        LineFault::HostOfTwoDigits,
        LineFault::HostNoDigit,
        LineFault::CommandLowerCase,
        LineFault::CommandOdd,
        LineFault::CommandNoDigit,
        LineFault::ParametersLowerCase,
        LineFault::ParametersOdd,
        LineFault::ParametersNoDigit,
        LineFault::EventUnknown,
        LineFault::EventMissing,
        LineFault::EventOfTwoBytes,
        LineFault::ImportParameters,
        LineFault::ExportParameters,
        LineFault::ResetParameters,
        LineFault::TooLong,
        LineFault::NoLineFeed,
        LineFault::CarriageReturn,
        LineFault::Nul,
        LineFault::Binary,
    ];
}

/// What stands beside the digits of both cases in the table of characters, and some that number readers pass over.
const NO_DIGITS: &[u8] = b"/:@G`g +-.xh";

/// The bytes of the line with this fault and no other. The line has this number, and is of the form.
pub fn broken(random: &mut Random, line: &Line, number: u32, fault: LineFault) -> Vec<u8> {
    match fault {
        LineFault::FieldMissing | LineFault::FieldMore => wrong_fields(random, line, fault),
        LineFault::EmptyLine => b"\n".to_vec(),
        LineFault::TooLong => {
            let odd = usize::from(line.number.len().is_multiple_of(2));
            let longer = random.pick(&[0, 0, 0, 2, 100, 70_000]);
            line_of_length(random, number, LONGEST_LINE + 1 + odd + longer).bytes()
        }
        LineFault::BlankForTab
        | LineFault::NoLineFeed
        | LineFault::CarriageReturn
        | LineFault::Nul
        | LineFault::Binary => spoiled_bytes(random, line.bytes(), fault),
        _ => {
            let mut line = line.clone();
            break_field(random, &mut line, number, fault);
            line.bytes()
        }
    }
}

fn wrong_fields(random: &mut Random, line: &Line, fault: LineFault) -> Vec<u8> {
    let mut fields = line.fields().to_vec();
    if fault == LineFault::FieldMissing {
        fields.remove(random.below(4));
    } else {
        let more: &[u8] = random.pick(&[b"", b"", b"00", b"1"]);
        fields.insert(random.pick(&[0, 2, 4]), more);
    }
    [&fields.join(&b'\t')[..], b"\n"].concat()
}

fn break_field(random: &mut Random, line: &mut Line, number: u32, fault: LineFault) {
    match fault {
        LineFault::HostMissing => line.host.clear(),
        LineFault::HostOfTwoDigits => {
            let other = random.pick(b"00019");
            line.host.insert(random.below(2), other);
        }
        LineFault::HostNoDigit => line.host = vec![random.pick(b"/:AFabxO ")],
        LineFault::CommandLowerCase
        | LineFault::CommandOdd
        | LineFault::CommandNoDigit
        | LineFault::ParametersLowerCase
        | LineFault::ParametersOdd
        | LineFault::ParametersNoDigit => wrong_bytes(random, line, fault),
        LineFault::EventUnknown
        | LineFault::EventMissing
        | LineFault::EventOfTwoBytes
        | LineFault::ImportParameters
        | LineFault::ExportParameters
        | LineFault::ResetParameters => *line = wrong_event(random, number, fault),
        _ => line.number = wrong_number(random, number, fault),
    }
}

/// A byte replaced, put in or left out.
fn spoiled_bytes(random: &mut Random, mut bytes: Vec<u8>, fault: LineFault) -> Vec<u8> {
    let end = bytes.len() - 1;
    match fault {
        LineFault::BlankForTab => {
            let tabs: Vec<usize> = (0..end).filter(|&at| bytes[at] == b'\t').collect();
            bytes[random.pick(&tabs)] = b' ';
        }
        LineFault::CarriageReturn => bytes.insert(end, b'\r'),
        LineFault::Nul => {
            let at = random.below(end + 1);
            match random.percent(50) && at < end {
                true => bytes[at] = 0,
                false => bytes.insert(at, 0),
            }
        }
        LineFault::Binary => bytes[random.below(end)] = random.byte() | 0x80,
        // The log is over before the line is: in the middle of it, or before its line feed alone.
        _ => {
            let anywhere = 1 + random.below(end);
            bytes.truncate(random.pick(&[end, end, anywhere]));
        }
    }
    bytes
}

fn wrong_number(random: &mut Random, number: u32, fault: LineFault) -> Vec<u8> {
    match fault {
        LineFault::NumberMissing => Vec::new(),
        LineFault::NumberZero => b"0".to_vec(),
        LineFault::LeadingZero => {
            let zeros = "0".repeat(random.pick(&[1, 1, 2, 20]));
            decimal(format!("{zeros}{number}"))
        }
        LineFault::OneLess => decimal(i64::from(number) - 1),
        LineFault::OneMore => decimal(number + 1),
        LineFault::AnotherNumber => {
            let other = 1 + random.below(LARGEST_NUMBER as usize) as u32;
            decimal(other + u32::from(other == number))
        }
        // They are the right one when cut to four bytes, or to eight.
        LineFault::TenDigits => decimal(u64::from(number) + (1 << 32)),
        LineFault::TwentyDigits => decimal(u128::from(number) + (1 << 64)),
        _ => {
            let mut digits = decimal(number);
            let at = random.below(digits.len() + 1);
            digits.insert(at, random.pick(b"/:A+-. ,_"));
            digits
        }
    }
}

/// The fault in command or parameters, which are made longer where they have no place for it.
fn wrong_bytes(random: &mut Random, line: &mut Line, fault: LineFault) {
    let field = match fault {
        LineFault::CommandLowerCase | LineFault::CommandOdd | LineFault::CommandNoDigit => {
            &mut line.command
        }
        _ => &mut line.parameters,
    };
    match fault {
        LineFault::CommandOdd | LineFault::ParametersOdd => match field.is_empty() {
            true => field.push(random.pick(b"09AF")),
            false => {
                field.remove(random.below(field.len()));
            }
        },
        LineFault::CommandLowerCase | LineFault::ParametersLowerCase => {
            if !field.iter().any(u8::is_ascii_uppercase) {
                field.extend(random.pick(&[b"0A", b"F0", b"CE"]));
            }
            let letters = (0..field.len()).filter(|&at| field[at].is_ascii_uppercase());
            let letters: Vec<usize> = letters.collect();
            field[random.pick(&letters)].make_ascii_lowercase();
        }
        _ => {
            if field.is_empty() {
                field.extend(b"00");
            }
            let at = random.below(field.len());
            field[at] = random.pick(NO_DIGITS);
        }
    }
}

/// "all else is another form"
fn wrong_event(random: &mut Random, number: u32, fault: LineFault) -> Line {
    let mut event = |codes: &[u8], lengths: &[usize]| {
        let code = random.pick(codes);
        let length = random.pick(lengths);
        Line::new(number, 0, &[code], &random.bytes(length))
    };
    match fault {
        LineFault::EventUnknown => event(&[0x00, 0x04, 0x05, 0x10, 0xA5, 0xFF], &[0, 2, 4, 6]),
        LineFault::ImportParameters => event(&[0x01], &[0, 1, 2, 3, 5, 6, 8]),
        LineFault::ExportParameters => event(&[0x02], &[0, 1, 3, 4]),
        LineFault::ResetParameters => event(&[0x03], &[1, 2, 4]),
        LineFault::EventMissing => Line {
            command: Vec::new(),
            ..event(&[0x01, 0x03], &[0, 2, 4])
        },
        _ => {
            let (code, length) = random.pick(&[(1, 4), (2, 2), (3, 0)]);
            let other = random.byte_between(0, 4);
            let bytes = random.pick(&[[code, other], [other, code], [code, 0]]);
            Line::new(number, 0, &bytes, &random.bytes(length))
        }
    }
}
