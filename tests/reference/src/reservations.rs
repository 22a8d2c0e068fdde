//! RESERVE and RELEASE.

use std::collections::BTreeSet;

use crate::bytes::two;
use crate::command::{
    Call, Outcome, Unsuccessful, INVALID_FIELD, LIST_LENGTH, LIST_RESERVED, WRONG_ADDRESS,
};
use crate::library::{Element, Library, Reservation};
use crate::rules::Mutation;

const DESCRIPTOR_LENGTH: usize = 6;
const MOST_DESCRIPTORS: usize = 32;

fn names_elements(call: &Call) -> bool {
    call.block[1] & 1 == 1
}

fn reservation(call: &Call) -> Reservation {
    Reservation {
        host: call.host,
        id: call.block[2],
    }
}

pub(crate) fn reserve(library: &mut Library, call: &Call) -> Outcome {
    if names_elements(call) {
        reserve_elements(library, call)
    } else {
        reserve_unit(library, call)
    }
}

fn reserve_unit(library: &mut Library, call: &Call) -> Outcome {
    if !call.parameters.is_empty() {
        return Err(INVALID_FIELD);
    }
    let mut elements = library.elements.values();
    let conflict = elements.any(|element| element.held_by_another(call.host));
    if conflict && !call.broken_by(Mutation::UnitReservedOverHeldElements) {
        return Err(Unsuccessful::ReservationConflict);
    }
    library.unit_holder = Some(call.host);
    Ok(Vec::new())
}

fn reserve_elements(library: &mut Library, call: &Call) -> Outcome {
    let named = elements_named(library, call)?;
    let wanted = reservation(call);
    if call.broken_by(Mutation::FailedReserveFreesOldId) {
        free(library, |held| held == wanted);
    }
    if named
        .iter()
        .any(|address| conflicts(&library.elements[address], call))
    {
        return Err(Unsuccessful::ReservationConflict);
    }
    if !call.broken_by(Mutation::GrantedReserveKeepsOldId) {
        free(library, |held| held == wanted);
    }
    for (address, element) in &mut library.elements {
        if named.contains(address) {
            element.reservation = Some(wanted);
        }
    }
    Ok(Vec::new())
}

/// "An element held by another host, or by this host under another id, gives 18h."
fn conflicts(element: &Element, call: &Call) -> bool {
    let takes_own = call.broken_by(Mutation::OwnElementUnderAnotherIdTaken);
    match element.reservation {
        None => false,
        Some(held) if takes_own => held.host != call.host,
        Some(held) => held != reservation(call),
    }
}

/// "Descriptors are judged in order, reserved bytes before the address; the first fault is told".
fn elements_named(library: &Library, call: &Call) -> Result<BTreeSet<u16>, Unsuccessful> {
    let list = call.parameters;
    let most = MOST_DESCRIPTORS * DESCRIPTOR_LENGTH;
    if list.is_empty() || list.len() > most || !list.len().is_multiple_of(DESCRIPTOR_LENGTH) {
        return Err(LIST_LENGTH);
    }
    let mut named = BTreeSet::new();
    for descriptor in list.chunks_exact(DESCRIPTOR_LENGTH) {
        let run = run_named(library, call, descriptor)?;
        name_once(&mut named, &run, call)?;
        let early = call.broken_by(Mutation::ConflictBeforeLaterFaults);
        if early
            && run
                .iter()
                .any(|address| conflicts(&library.elements[address], call))
        {
            return Err(Unsuccessful::ReservationConflict);
        }
    }
    Ok(named)
}

fn run_named(library: &Library, call: &Call, descriptor: &[u8]) -> Result<Vec<u16>, Unsuccessful> {
    let run = run_from(library, call, two(descriptor, 4), two(descriptor, 2));
    if call.broken_by(Mutation::AddressBeforeReservedBytes) {
        run.as_ref().ok_or(WRONG_ADDRESS)?;
    }
    if two(descriptor, 0) != 0 {
        return Err(LIST_RESERVED);
    }
    run.ok_or(WRONG_ADDRESS)
}

/// "It names n elements in table order from that address, 0 meaning through the last".
fn run_from(library: &Library, call: &Call, first: u16, number: u16) -> Option<Vec<u16>> {
    if !library.elements.contains_key(&first) {
        return None;
    }
    let through_the_last: Vec<u16> = library
        .elements
        .range(first..)
        .map(|(&address, _)| address)
        .collect();
    let wanted = match number {
        0 => through_the_last.len(),
        number => number.into(),
    };
    let spare = usize::from(call.broken_by(Mutation::OneElementTooMany));
    let too_many = wanted > through_the_last.len() + spare;
    (!too_many).then(|| through_the_last.into_iter().take(wanted).collect())
}

/// An element named by an earlier descriptor too is one more wrong address.
fn name_once(named: &mut BTreeSet<u16>, run: &[u16], call: &Call) -> Result<(), Unsuccessful> {
    let twice = run.iter().any(|address| named.contains(address));
    if twice && !call.broken_by(Mutation::ElementNamedTwiceIsHeldOnce) {
        return Err(WRONG_ADDRESS);
    }
    named.extend(run);
    Ok(())
}

/// "Holding nothing is GOOD."
pub(crate) fn release(library: &mut Library, call: &Call) -> Outcome {
    let own = reservation(call);
    let any_id = call.broken_by(Mutation::IdIgnoredInRelease);
    let keeps_elements = call.broken_by(Mutation::ReleaseOfUnitKeepsElements);
    if names_elements(call) {
        free(library, |held| {
            held == own || any_id && held.host == own.host
        });
    } else {
        library.unit_holder = library.unit_holder.filter(|&holder| holder != call.host);
        free(library, |held| held.host == own.host && !keeps_elements);
    }
    Ok(Vec::new())
}

fn free(library: &mut Library, freed: impl Fn(Reservation) -> bool) {
    for element in library.elements.values_mut() {
        element.reservation = element.reservation.filter(|&held| !freed(held));
    }
}
