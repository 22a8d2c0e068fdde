//! "Any free arm. Twin-arm models must not stall because the first arm is reserved."

use crate::bytes::two;
use crate::command::{Call, Unsuccessful, WRONG_ADDRESS};
use crate::library::{Element, HostNumber, Kind, Library};
use crate::rules::Mutation;

/// The transport that a command uses.
#[derive(Clone, Copy, Debug, PartialEq, Eq)]
pub(crate) enum Arm {
    At(u16),
    /// Any was asked for, and other hosts hold them all.
    NoneFree,
}

/// "Transport 0 now means the lowest-addressed transport not held by another host"; "A transport named by its address is as before": it must be a
/// transport.
pub(crate) fn used(library: &Library, call: &Call) -> Result<Arm, Unsuccessful> {
    let named = two(call.block, 2);
    if named != 0 {
        let is_transport = library.kind_at(named) == Some(Kind::Transport);
        let replaced = is_transport && call.broken_by(Mutation::NamedArmReplaced);
        return match is_transport {
            true if replaced && !is_open(library, call, Arm::At(named)) => Ok(any(library, call)),
            true => Ok(Arm::At(named)),
            false => Err(WRONG_ADDRESS),
        };
    }
    let arm = match call.rules.mutation {
        Some(Mutation::FirstArmAlways) => first(library),
        Some(Mutation::LastArmAlways) => last(library),
        Some(Mutation::FirstArmForExchange) if call.block[0] == 0xA6 => first(library),
        Some(Mutation::FirstArmForMove) if call.block[0] == 0xA5 => first(library),
        _ => any(library, call),
    };
    match (arm, call.rules.mutation) {
        (Arm::NoneFree, Some(Mutation::NoFreeArmBeforeAddresses)) => {
            Err(Unsuccessful::ReservationConflict)
        }
        (Arm::NoneFree, Some(Mutation::NoFreeArmIsAWrongAddress)) => Err(WRONG_ADDRESS),
        _ => Ok(arm),
    }
}

/// "if there is none, 18h at step 6"
pub(crate) fn is_open(library: &Library, call: &Call, arm: Arm) -> bool {
    match arm {
        Arm::At(address) => !library.elements[&address].held_by_another(call.host),
        Arm::NoneFree => call.broken_by(Mutation::NoFreeArmLetThrough),
    }
}

fn transports(library: &Library) -> impl DoubleEndedIterator<Item = (u16, &Element)> {
    let elements = library
        .elements
        .iter()
        .map(|(&address, element)| (address, element));
    elements.filter(|(_, element)| element.kind == Kind::Transport)
}

fn any(library: &Library, call: &Call) -> Arm {
    let looked_at = match call.rules.mutation {
        Some(Mutation::FirstArmsAloneLookedAt) => 2,
        Some(Mutation::LastArmNotLookedAt) => (transports(library).count() - 1).max(1),
        _ => usize::MAX,
    };
    let mut arms = transports(library).take(looked_at).enumerate();
    let free = arms.find(|(place, (_, arm))| {
        let stands = match call.broken_by(Mutation::HoldersFromTheTableStart) {
            true => library.elements.values().nth(*place).unwrap_or(arm),
            false => arm,
        };
        is_free(stands, call.host, call.rules.mutation)
    });
    free.map_or(Arm::NoneFree, |(_, (address, _))| Arm::At(address))
}

fn is_free(arm: &Element, host: HostNumber, mistake: Option<Mutation>) -> bool {
    match mistake {
        Some(Mutation::OwnArmPassedOver) => arm.reservation.is_none(),
        Some(Mutation::UnheldArmPassedOver) => {
            arm.reservation.is_some_and(|held| held.host == host)
        }
        _ => !arm.held_by_another(host),
    }
}

fn first(library: &Library) -> Arm {
    transports(library)
        .next()
        .map_or(Arm::NoneFree, |(address, _)| Arm::At(address))
}

fn last(library: &Library) -> Arm {
    transports(library)
        .next_back()
        .map_or(Arm::NoneFree, |(address, _)| Arm::At(address))
}
