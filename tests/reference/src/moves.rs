//! MOVE MEDIUM and EXCHANGE MEDIUM.

use crate::arms::{self, Arm};
use crate::bytes::two;
use crate::command::{
    Call, Outcome, Unsuccessful, DESTINATION_FULL, SOURCE_EMPTY, WRONG_ADDRESS, WRONG_CARTRIDGE,
};
use crate::library::{Carried, Element, Kind, Library};
use crate::rules::Mutation;

pub(crate) fn move_medium(library: &mut Library, call: &Call) -> Outcome {
    let arm = arms::used(library, call)?;
    let source = place_named(library, call, 4)?;
    let destination = place_named(library, call, 6)?;
    let is_full = |address: u16| library.elements[&address].is_full();
    let occupancy = || Occupancy {
        missing: !is_full(source),
        occupied: is_full(destination),
        wrong_cartridge: !may_go(library, call, source, destination),
    };
    judge_touched(library, call, arm, &[source, destination], occupancy)?;

    let marked = library.elements[&source].hand_mark;
    let lifted = lift(library, call, source);
    place(library, destination).fill_by_arm(lifted);
    if call.broken_by(Mutation::MarkLeftAfterMove) {
        place(library, source).hand_mark = marked;
    }
    Ok(Vec::new())
}

pub(crate) fn exchange_medium(library: &mut Library, call: &Call) -> Outcome {
    let arm = arms::used(library, call)?;
    let source = place_named(library, call, 4)?;
    let first = place_named(library, call, 6)?;
    let second = place_named(library, call, 8)?;
    if first == source {
        return Err(WRONG_ADDRESS);
    }
    // "The second must be empty or equal to the source."
    let back_to_source = second == source && !call.broken_by(Mutation::SourceAsSecondIsFull);
    let is_full = |address: u16| library.elements[&address].is_full();
    let occupancy = || Occupancy {
        missing: !is_full(source) || !is_full(first),
        occupied: is_full(second) && !back_to_source,
        wrong_cartridge: !legs_may_go(library, call, [source, first, second]),
    };
    let places = [source, first, second];
    judge_touched(library, call, arm, &places, occupancy)?;

    match call.rules.mutation {
        Some(Mutation::SwapWritesSourceBeforeReadingIt) => {
            write_before_reading(library, call, places);
        }
        Some(Mutation::SecondLegReadsAfterWriting) => second_leg_late(library, call, places),
        Some(Mutation::SwapReadsShelfAfterWriting) => first_leg_late(library, call, places),
        _ => exchange(library, call, places),
    }
    if call.broken_by(Mutation::SecondVolumeLost) {
        place(library, second).leave();
    }
    Ok(Vec::new())
}

/// "Source and destination must be elements and no transport."
fn place_named(library: &Library, call: &Call, at: usize) -> Result<u16, Unsuccessful> {
    let address = two(call.block, at);
    match library.kind_at(address) {
        None | Some(Kind::Transport) => Err(WRONG_ADDRESS),
        Some(_) => Ok(address),
    }
}

/// What steps 7 and 8, and the one behind them, look for.
struct Occupancy {
    missing: bool,
    occupied: bool,
    wrong_cartridge: bool,
}

impl Occupancy {
    /// "The new refusal stands after step 8".
    fn judge(&self, call: &Call) -> Result<(), Unsuccessful> {
        let empty = (self.missing, SOURCE_EMPTY);
        let full = (self.occupied, DESTINATION_FULL);
        let unfit = (self.wrong_cartridge, WRONG_CARTRIDGE);
        let order = match call.rules.mutation {
            Some(Mutation::CartridgeBeforeFull) => [empty, unfit, full],
            Some(Mutation::CartridgeBeforeEmpty) => [unfit, empty, full],
            _ => [empty, full, unfit],
        };
        let first = order.into_iter().find(|(applies, _)| *applies);
        first.map_or(Ok(()), |(_, refusal)| Err(refusal))
    }
}

/// Whether what stands at one address may go to the other; nothing may go anywhere.
fn may_go(library: &Library, call: &Call, from: u16, to: u16) -> bool {
    let volume = library.elements[&from].volume;
    volume.is_none_or(|volume| call.cartridges.may_go(library, volume, to, call.rules))
}

/// "for a move or either leg of an exchange that ends in a drive"
fn legs_may_go(library: &Library, call: &Call, [source, first, second]: [u16; 3]) -> bool {
    let (up, down) = match call.broken_by(Mutation::LegsJudgedByTheOtherVolume) {
        true => (first, source),
        false => (source, first),
    };
    let second_judged = match call.rules.mutation {
        Some(Mutation::FirstLegAloneJudged) => false,
        Some(Mutation::SwapBackUnjudged) => second != source,
        Some(Mutation::SwapBackAloneJudged) => second == source,
        _ => true,
    };
    let first_judged = !call.broken_by(Mutation::SecondLegAloneJudged);
    let first_fits = !first_judged || may_go(library, call, up, first);
    first_fits && (!second_judged || may_go(library, call, down, second))
}

/// Step 6, then steps 7 and 8, and the cartridges.
fn judge_touched(
    library: &Library,
    call: &Call,
    arm: Arm,
    touched: &[u16],
    occupancy: impl Fn() -> Occupancy,
) -> Result<(), Unsuccessful> {
    if call.broken_by(Mutation::OccupancyBeforeHolders) {
        occupancy().judge(call)?;
    }
    if call.broken_by(Mutation::CartridgeBeforeHolders) && occupancy().wrong_cartridge {
        return Err(WRONG_CARTRIDGE);
    }
    let prevented =
        call.broken_by(Mutation::PreventionHindersMoves) && !library.preventing.is_empty();
    let held = touched
        .iter()
        .any(|address| library.elements[address].held_by_another(call.host));
    let no_arm = !arms::is_open(library, call, arm);
    if no_arm && call.broken_by(Mutation::NoFreeArmAfterOccupancy) {
        occupancy().judge(call)?;
    }
    if held || no_arm || prevented {
        return Err(Unsuccessful::ReservationConflict);
    }
    occupancy().judge(call)
}

fn place(library: &mut Library, address: u16) -> &mut Element {
    library
        .elements
        .get_mut(&address)
        .expect("an address that was looked up")
}

/// "a volume leaving a storage element takes that address; leaving any other, it keeps the source it had, none included"
fn source_taken(library: &Library, call: &Call, left: u16) -> Option<u16> {
    let element = &library.elements[&left];
    match element.kind {
        Kind::Storage => Some(left),
        Kind::Drive if call.broken_by(Mutation::DriveTakenAsSource) => Some(left),
        Kind::ImportExport if call.broken_by(Mutation::PortTakenAsSource) => Some(left),
        Kind::Drive if call.broken_by(Mutation::SourceLostOnLeavingDrive) => None,
        Kind::ImportExport if call.broken_by(Mutation::SourceLostOnLeavingPort) => None,
        Kind::Drive | Kind::ImportExport | Kind::Transport => element.source,
    }
}

fn lift(library: &mut Library, call: &Call, from: u16) -> Carried {
    let source = source_taken(library, call, from);
    let volume = place(library, from).leave();
    Carried { volume, source }
}

/// "The first destination's volume goes to the second, the source's to the first". Both are lifted
/// before either is put down, for the second may be the source.
fn exchange(library: &mut Library, call: &Call, [source, first, second]: [u16; 3]) {
    let from_source = lift(library, call, source);
    let from_first = lift(library, call, first);
    place(library, second).fill_by_arm(from_first);
    place(library, first).fill_by_arm(from_source);
}

fn write_before_reading(library: &mut Library, call: &Call, [source, first, second]: [u16; 3]) {
    let from_first = lift(library, call, first);
    place(library, second).fill_by_arm(from_first);
    let from_source = Carried {
        volume: library.elements[&source].volume,
        source: source_taken(library, call, source),
    };
    place(library, first).fill_by_arm(from_source);
    if second != source {
        place(library, source).leave();
    }
}

/// Both volumes go where they should. What goes to the second takes the source that was put beside what came to the first.
fn second_leg_late(library: &mut Library, call: &Call, [source, first, second]: [u16; 3]) {
    let from_source = lift(library, call, source);
    let volume = library.elements[&first].volume;
    place(library, first).fill_by_arm(from_source);
    let source = source_taken(library, call, first);
    place(library, second).fill_by_arm(Carried { volume, source });
}

/// The same the other way round, which shows in a swap alone.
fn first_leg_late(library: &mut Library, call: &Call, [source, first, second]: [u16; 3]) {
    let from_first = lift(library, call, first);
    let volume = library.elements[&source].volume;
    place(library, second).fill_by_arm(from_first);
    let shelf = source_taken(library, call, source);
    if second != source {
        place(library, source).leave();
    }
    let from_source = Carried {
        volume,
        source: shelf,
    };
    place(library, first).fill_by_arm(from_source);
}
