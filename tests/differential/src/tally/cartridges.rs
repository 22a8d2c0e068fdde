//! What drives took and what they did not, and the tables that are not sound for it.

use reference::library::Kind;
use reference::{Clause, TableBytes};

use super::shelves::{find, two};
use super::{First, Outcome};
use crate::scene::{bit, MOST_GENERATION};

/// Which volumes a drive did not take.
#[derive(Clone, Copy, Debug, PartialEq, Eq, PartialOrd, Ord)]
pub enum Legs {
    /// That of a MOVE.
    Move,
    /// The source's alone, at the first destination.
    First,
    /// The first destination's alone, at a second that is not the source..
    Second,
    /// ..and at one that is.
    Back,
    /// Both, at a second that is not the source..
    Both,
    /// ..and at one that is.
    BothOfASwap,
}

/// What a command ended with although a drive would not have taken a volume.
#[derive(Clone, Copy, Debug, PartialEq, Eq, PartialOrd, Ord)]
pub enum Earlier {
    Conflict,
    Empty,
    Full,
}

/// How the two tables are not sound.
#[derive(Clone, Copy, Debug, PartialEq, Eq, PartialOrd, Ord)]
pub enum Unfit {
    FewerGenerations,
    MoreGenerations,
    FewerMasks,
    MoreMasks,
    GenerationZero,
    GenerationNine,
    GenerationAboveNine,
    /// A volume that stands nowhere.
    GenerationOfAnAbsentVolume,
    FirstDrive,
    LaterDrive,
    /// A full drive that takes nothing.
    MaskZero,
    /// A full drive that takes the generation above, or the one below.
    MaskOfTheNext,
    MaskOfTheOneBefore,
}

/// A volume on its way to a drive: its generation, and the drive's place among the drives.
#[derive(Clone, Copy)]
struct Way {
    generation: u8,
    drive: usize,
}

impl Way {
    fn is_open(&self, before: &TableBytes) -> bool {
        before.masks[self.drive] & bit(self.generation) != 0
    }
}

fn volume_at(before: &TableBytes, address: u16) -> u16 {
    find(before, address).map_or(0, |(_, place)| two(&before.elements, 8 * place))
}

fn way(before: &TableBytes, from: u16, to: u16) -> Option<Way> {
    find(before, to).filter(|(kind, _)| *kind == Kind::Drive)?;
    let volume = usize::from(volume_at(before, from));
    let generation = *before.generations.get(volume.checked_sub(1)?)?;
    let drive = usize::from(to - two(&before.head, 12));
    Some(Way { generation, drive })
}

/// The legs of the command that end in a drive; none for one that is no move.
fn ways(before: &TableBytes, first: First, block: &[u8]) -> [Option<Way>; 2] {
    let address = |at: usize| two(block, at);
    match first {
        First::Known(0xA5) => [way(before, address(4), address(6)), None],
        First::Known(0xA6) => [
            way(before, address(4), address(6)),
            way(before, address(6), address(8)),
        ],
        _ => [None, None],
    }
}

fn shut(before: &TableBytes, first: First, block: &[u8]) -> [Option<Way>; 2] {
    ways(before, first, block).map(|way| way.filter(|way| !way.is_open(before)))
}

/// GOOD: each volume that came to a drive.
pub(super) fn loaded(before: &TableBytes, first: First, block: &[u8]) -> Vec<Outcome> {
    let ways = ways(before, first, block).into_iter().flatten();
    ways.map(|way| Outcome::Loaded(way.generation)).collect()
}

/// 5/30/12: each volume that its drive does not take, and which they are.
pub(super) fn not_taken(before: &TableBytes, first: First, block: &[u8]) -> Vec<Outcome> {
    let shut = shut(before, first, block);
    let swap = two(block, 4) == two(block, 8);
    let legs = match (first, shut[0].is_some(), shut[1].is_some()) {
        (First::Known(0xA5), ..) => Legs::Move,
        (_, true, true) if swap => Legs::BothOfASwap,
        (_, true, true) => Legs::Both,
        (_, true, false) => Legs::First,
        _ if swap => Legs::Back,
        _ => Legs::Second,
    };
    let mut reached = vec![Outcome::NotTaken(first, legs)];
    for way in shut.into_iter().flatten() {
        reached.push(Outcome::Refused(way.generation));
        if before.masks[way.drive] == 0 {
            reached.push(Outcome::TakesNothing);
        }
        let others = before.masks.iter().enumerate();
        let would =
            |(drive, mask): (usize, &u8)| drive != way.drive && mask & bit(way.generation) != 0;
        if others.clone().any(would) {
            reached.push(Outcome::AnotherWouldTake);
        }
    }
    reached
}

/// The command ended so, and a drive would not have taken a volume either.
pub(super) fn untold(
    before: &TableBytes,
    first: First,
    block: &[u8],
    earlier: Earlier,
) -> Option<Outcome> {
    any_unfit(before, first, block).then_some(Outcome::Untold(first, earlier))
}

/// Whether a drive would not take a volume of a MOVE or an EXCHANGE.
pub(super) fn any_unfit(before: &TableBytes, first: First, block: &[u8]) -> bool {
    shut(before, first, block).iter().any(Option::is_some)
}

/// An import that ended with number 0: whether there are drives, and none that takes the volume.
pub(super) fn imported(before: &TableBytes, volume: u32) -> Option<Outcome> {
    let generation = *before.generations.get(volume as usize - 1)?;
    let mut masks = before.masks.iter();
    let for_none = masks.len() > 0 && masks.all(|mask| mask & bit(generation) == 0);
    for_none.then_some(Outcome::ImportedForNoDrive)
}

/// The tables are known to break no clause that is judged before this one.
pub(super) fn unfit(before: &TableBytes, clause: Clause) -> Vec<Outcome> {
    let found = match clause {
        Clause::GenerationsLength => match before.generations.len() < before.tags.len() / 36 {
            true => vec![Unfit::FewerGenerations],
            false => vec![Unfit::MoreGenerations],
        },
        Clause::MasksLength => match before.masks.len() < two(&before.head, 14).into() {
            true => vec![Unfit::FewerMasks],
            false => vec![Unfit::MoreMasks],
        },
        Clause::GenerationNumber => wrong_generation(before),
        Clause::DriveTakes => wrong_drive(before),
        _ => Vec::new(),
    };
    found.into_iter().map(Outcome::Unfit).collect()
}

fn wrong_generation(before: &TableBytes) -> Vec<Unfit> {
    let wrong = |(_, generation): &(usize, &u8)| !(1..=MOST_GENERATION).contains(*generation);
    let Some((at, generation)) = before.generations.iter().enumerate().find(wrong) else {
        return Vec::new();
    };
    let mut found = vec![match generation {
        0 => Unfit::GenerationZero,
        9 => Unfit::GenerationNine,
        _ => Unfit::GenerationAboveNine,
    }];
    let mut volumes = before
        .elements
        .chunks_exact(8)
        .map(|element| two(element, 0));
    if volumes.all(|volume| usize::from(volume) != at + 1) {
        found.push(Unfit::GenerationOfAnAbsentVolume);
    }
    found
}

fn wrong_drive(before: &TableBytes) -> Vec<Unfit> {
    let first = two(&before.head, 12);
    let mut found = Vec::new();
    for (drive, &mask) in before.masks.iter().enumerate() {
        let volume = volume_at(before, first + drive as u16);
        let own = match volume {
            0 => continue,
            volume => bit(before.generations[usize::from(volume) - 1]),
        };
        if mask & own == 0 {
            found.push(match drive {
                0 => Unfit::FirstDrive,
                _ => Unfit::LaterDrive,
            });
            found.extend(match mask {
                0 => Some(Unfit::MaskZero),
                mask if mask & own << 1 != 0 => Some(Unfit::MaskOfTheNext),
                mask if mask & own >> 1 != 0 => Some(Unfit::MaskOfTheOneBefore),
                _ => None,
            });
        }
    }
    found
}

/// Each generation taken and not taken; each leg; each end that comes before; each way to be not sound.
pub(super) fn required() -> Vec<Outcome> {
    let mut required = vec![
        Outcome::NotTaken(First::Known(0xA5), Legs::Move),
        Outcome::TakesNothing,
        Outcome::AnotherWouldTake,
        Outcome::ImportedForNoDrive,
        Outcome::Untold(First::Known(0xA5), Earlier::Conflict),
        Outcome::Untold(First::Known(0xA5), Earlier::Full),
    ];
    for generation in 1..=MOST_GENERATION {
        required.extend([Outcome::Loaded(generation), Outcome::Refused(generation)]);
    }
    let exchange = First::Known(0xA6);
    let legs = [
        Legs::First,
        Legs::Second,
        Legs::Back,
        Legs::Both,
        Legs::BothOfASwap,
    ];
    required.extend(legs.map(|legs| Outcome::NotTaken(exchange, legs)));
    let earlier = [Earlier::Conflict, Earlier::Empty, Earlier::Full];
    required.extend(earlier.map(|earlier| Outcome::Untold(exchange, earlier)));
    let unfit = [
        Unfit::FewerGenerations,
        Unfit::MoreGenerations,
        Unfit::FewerMasks,
        Unfit::MoreMasks,
        Unfit::GenerationZero,
        Unfit::GenerationNine,
        Unfit::GenerationAboveNine,
        Unfit::GenerationOfAnAbsentVolume,
        Unfit::FirstDrive,
        Unfit::LaterDrive,
        Unfit::MaskZero,
        Unfit::MaskOfTheNext,
        Unfit::MaskOfTheOneBefore,
    ];
    required.extend(unfit.map(Outcome::Unfit));
    required.extend([0xA5, 0xA6].map(|first| Outcome::LineNotTaken(First::Known(first))));
    required
}
