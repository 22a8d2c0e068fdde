//! What is common to the commands: house numbers 2 to 5 and the steps up to the fourth.

use crate::bytes::{three, two};
use crate::cartridges::Cartridges;
use crate::interface::Request;
use crate::library::{HostNumber, Kind, Labels, Library, Sense};
use crate::refusal::Refusal;
use crate::rules::{Mutation, Rules};
use crate::{element_status, mode_sense, moves, reservations, search, sense, Lent};

#[derive(Clone, Copy, Debug, PartialEq, Eq)]
pub(crate) enum Command {
    TestUnitReady,
    RequestSense,
    Reserve,
    Release,
    PreventAllow,
    MoveMedium,
    ExchangeMedium,
    ReadElementStatus,
    ModeSense,
    SendVolumeTag,
    RequestVolumeElementAddress,
}

impl Command {
    pub(crate) fn of_first_byte(first: u8) -> Option<Command> {
        match first {
            0x00 => Some(Command::TestUnitReady),
            0x03 => Some(Command::RequestSense),
            0x16 => Some(Command::Reserve),
            0x17 => Some(Command::Release),
            0x1E => Some(Command::PreventAllow),
            0xA5 => Some(Command::MoveMedium),
            0xA6 => Some(Command::ExchangeMedium),
            0xB8 => Some(Command::ReadElementStatus),
            0x1A => Some(Command::ModeSense),
            0xB6 => Some(Command::SendVolumeTag),
            0xB5 => Some(Command::RequestVolumeElementAddress),
            _ => None,
        }
    }

    /// For each byte after the first, the bits that may be set. Third party and invert may not.
    fn used_bits(self) -> &'static [u8] {
        match self {
            Command::TestUnitReady => &[0, 0, 0, 0, 0],
            Command::RequestSense => &[0, 0, 0, 0xFF, 0],
            Command::Reserve => &[0x01, 0xFF, 0xFF, 0xFF, 0],
            Command::Release => &[0x01, 0xFF, 0, 0, 0],
            Command::PreventAllow => &[0, 0, 0, 0x01, 0],
            Command::MoveMedium => &[0, 0xFF, 0xFF, 0xFF, 0xFF, 0xFF, 0xFF, 0, 0, 0, 0],
            Command::ExchangeMedium => &[0, 0xFF, 0xFF, 0xFF, 0xFF, 0xFF, 0xFF, 0xFF, 0xFF, 0, 0],
            Command::ReadElementStatus => {
                &[0x1F, 0xFF, 0xFF, 0xFF, 0xFF, 0, 0xFF, 0xFF, 0xFF, 0, 0]
            }
            Command::ModeSense => &[0x08, 0xFF, 0, 0xFF, 0],
            Command::SendVolumeTag => &[0x0F, 0xFF, 0xFF, 0, 0x1F, 0, 0, 0xFF, 0xFF, 0, 0],
            Command::RequestVolumeElementAddress => {
                &[0x1F, 0xFF, 0xFF, 0xFF, 0xFF, 0, 0xFF, 0xFF, 0, 0, 0]
            }
        }
    }
}

/// A command whose host, block length and parameter length are accepted.
pub(crate) struct Call<'a> {
    pub(crate) host: HostNumber,
    pub(crate) block: &'a [u8],
    pub(crate) parameters: &'a [u8],
    pub(crate) labels: Labels<'a>,
    pub(crate) cartridges: Cartridges<'a>,
    pub(crate) rules: Rules,
}

impl Call<'_> {
    pub(crate) fn broken_by(&self, mutation: Mutation) -> bool {
        self.rules.broken_by(mutation)
    }

    pub(crate) fn command(&self) -> Option<Command> {
        Command::of_first_byte(self.block[0])
    }

    /// How many bytes the host makes room for.
    pub(crate) fn allocation(&self) -> usize {
        match self.command() {
            Some(Command::RequestSense | Command::ModeSense) => self.block[4].into(),
            Some(Command::ReadElementStatus) => three(self.block, 7),
            Some(Command::RequestVolumeElementAddress) => search::allocation(self),
            _ => 0,
        }
    }
}

/// A command that does not end GOOD.
#[derive(Clone, Copy, Debug, PartialEq, Eq)]
pub(crate) enum Unsuccessful {
    CheckCondition(Sense),
    ReservationConflict,
}

/// The bytes returned with GOOD, or why it is not GOOD.
pub(crate) type Outcome = Result<Vec<u8>, Unsuccessful>;

const fn illegal(asc: u8, ascq: u8) -> Unsuccessful {
    Unsuccessful::CheckCondition(Sense { key: 5, asc, ascq })
}

pub(crate) const UNKNOWN_COMMAND: Unsuccessful = illegal(0x20, 0x00);
pub(crate) const INVALID_FIELD: Unsuccessful = illegal(0x24, 0x00);
pub(crate) const LIST_LENGTH: Unsuccessful = illegal(0x1A, 0x00);
pub(crate) const LIST_RESERVED: Unsuccessful = illegal(0x26, 0x00);
pub(crate) const WRONG_ADDRESS: Unsuccessful = illegal(0x21, 0x01);
pub(crate) const SOURCE_EMPTY: Unsuccessful = illegal(0x3B, 0x0E);
pub(crate) const DESTINATION_FULL: Unsuccessful = illegal(0x3B, 0x0D);
pub(crate) const WRONG_CARTRIDGE: Unsuccessful = illegal(0x30, 0x12);

/// Numbers 2, 3 and 4.
pub(crate) fn accept<'a>(
    request: &Request<'a>,
    lent: Lent<'a>,
    rules: Rules,
) -> Result<Call<'a>, Refusal> {
    let host = if rules.broken_by(Mutation::HostCutToOneByte) {
        request.host & 0xFF
    } else {
        request.host
    };
    let call = Call {
        host: HostNumber::new(host).ok_or(Refusal::NoSuchHost)?,
        block: request.block,
        parameters: request.parameters,
        labels: lent.labels,
        cartridges: lent.cartridges,
        rules,
    };
    accept_block_length(&call)?;
    accept_parameters(&call)?;
    Ok(call)
}

fn accept_block_length(call: &Call) -> Result<(), Refusal> {
    let &first = call.block.first().ok_or(Refusal::BlockLength)?;
    let known_only = call.broken_by(Mutation::BlockLengthJudgedForKnownCommandsOnly);
    let right = match first >> 5 {
        _ if known_only && Command::of_first_byte(first).is_none() => true,
        0 => call.block.len() == 6,
        1 | 2 => call.block.len() == 10,
        4 => call.block.len() == 16,
        5 => call.block.len() == 12,
        _ => true,
    };
    right.then_some(()).ok_or(Refusal::BlockLength)
}

fn accept_parameters(call: &Call) -> Result<(), Refusal> {
    let judge_unknown = call.broken_by(Mutation::ParametersJudgedForUnknownCommands);
    let expected = match call.command() {
        Some(Command::Reserve) => two(call.block, 3).into(),
        Some(Command::SendVolumeTag) => search::list_length(call),
        None if !judge_unknown => return Ok(()),
        _ => 0,
    };
    let right = call.parameters.len() == expected;
    right.then_some(()).ok_or(Refusal::ParameterBytes)
}

/// Number 5.
pub(crate) fn accept_answer_buffer(
    call: &Call,
    outcome: &Outcome,
    buffer: usize,
) -> Result<(), Refusal> {
    let needed = match outcome {
        Ok(_) if call.broken_by(Mutation::BufferJudgedByAllocation) => call.allocation(),
        Ok(bytes) => bytes.len(),
        Err(_) => 0,
    };
    (needed <= buffer)
        .then_some(())
        .ok_or(Refusal::AnswerBufferTooShort)
}

/// "Every command with house number 0, except REQUEST SENSE, first clears its host's sense; CHECK
/// CONDITION then stores the new one."
pub(crate) fn execute(library: &mut Library, call: &Call) -> Outcome {
    let before = library.host(call.host).sense;
    if call.command() != Some(Command::RequestSense) {
        library.host(call.host).sense = None;
    }
    let outcome = steps(library, call);
    match outcome {
        Err(Unsuccessful::CheckCondition(sense)) => sense::store(library, call, sense),
        Err(Unsuccessful::ReservationConflict) => conflict_mistakes(library, call, before),
        Ok(_) => {}
    }
    search::end_mistakes(library, call, outcome.is_ok());
    outcome
}

/// A conflict leaves the cleared sense as it is; this does nothing but under a mutation.
fn conflict_mistakes(library: &mut Library, call: &Call, before: Option<Sense>) {
    if call.broken_by(Mutation::ConflictKeepsSense) {
        library.host(call.host).sense = before;
    }
    if call.broken_by(Mutation::ConflictStoresSense) {
        let (key, asc, ascq) = (5, 0x2C, 0x00);
        sense::store(library, call, Sense { key, asc, ascq });
    }
}

fn steps(library: &mut Library, call: &Call) -> Outcome {
    if call.broken_by(Mutation::AttentionBeforeFirstByte) {
        sense::tell_attention(library, call)?;
    }
    let command = call.command().ok_or(UNKNOWN_COMMAND)?;
    sense::tell_attention(library, call)?;
    if call.broken_by(Mutation::BitsBeforeUnitHolder) {
        judge_bits(command, call)?;
    }
    refuse_where_unit_held(library, command, call)?;
    let late = call.broken_by(Mutation::OthersHeldAfterBits);
    if !late {
        search::refuse_where_others_hold(library, command, call)?;
    }
    judge_bits(command, call)?;
    if late {
        search::refuse_where_others_hold(library, command, call)?;
    }
    match command {
        Command::TestUnitReady => Ok(Vec::new()),
        Command::RequestSense => Ok(sense::request_sense(library, call)),
        Command::Reserve => reservations::reserve(library, call),
        Command::Release => reservations::release(library, call),
        Command::PreventAllow => prevent_allow(library, call),
        Command::MoveMedium => moves::move_medium(library, call),
        Command::ExchangeMedium => moves::exchange_medium(library, call),
        Command::ReadElementStatus => Ok(element_status::read(library, call)),
        Command::ModeSense => mode_sense::read(library, call),
        Command::SendVolumeTag => search::send(library, call),
        Command::RequestVolumeElementAddress => search::request(library, call),
    }
}

/// "Unit held by another host: 18h (never for RELEASE, REQUEST SENSE)."
fn refuse_where_unit_held(
    library: &Library,
    command: Command,
    call: &Call,
) -> Result<(), Unsuccessful> {
    let held_by_another = library
        .unit_holder
        .is_some_and(|holder| holder != call.host);
    let exempt = match command {
        Command::RequestSense => true,
        Command::Release => !call.broken_by(Mutation::ReleaseMeetsUnitHolder),
        _ => false,
    };
    if held_by_another && !exempt {
        return Err(Unsuccessful::ReservationConflict);
    }
    Ok(())
}

fn judge_bits(command: Command, call: &Call) -> Result<(), Unsuccessful> {
    // "Bits 5 to 7 of byte 1 are ignored."
    let ignored = if call.broken_by(Mutation::IgnoredBitsJudged) {
        0
    } else {
        0xE0
    };
    let mut allowed = command.used_bits().to_vec();
    allowed[0] |= ignored;
    search::stray_mistakes(&mut allowed, command, call);
    let set = &call.block[1..];
    let stray = set.iter().zip(allowed).any(|(set, used)| set & !used != 0);
    let type_code = call.block[1] & 0x0F;
    let unknown_type =
        has_type(command, call) && type_code != 0 && Kind::of_code(type_code).is_none();
    let unknown_action = command == Command::SendVolumeTag && !search::is_known_action(call);
    if stray || unknown_type || unknown_action {
        return Err(INVALID_FIELD);
    }
    Ok(())
}

/// Whether a type code is judged.
fn has_type(command: Command, call: &Call) -> bool {
    match command {
        Command::ReadElementStatus => true,
        Command::SendVolumeTag => !call.broken_by(Mutation::AnyTypeSearched),
        Command::RequestVolumeElementAddress => !call.broken_by(Mutation::AnyTypeRequested),
        _ => false,
    }
}

fn prevent_allow(library: &mut Library, call: &Call) -> Outcome {
    if call.block[4] & 1 == 1 {
        library.preventing.insert(call.host);
    } else {
        library.preventing.remove(&call.host);
    }
    Ok(Vec::new())
}
