//! "The panel keeps asking how many storage elements are empty."
//!
//! They are counted each time, where the tables are judged and where they are written.

use crate::command::Command;
use crate::library::{Element, Kind, Library};
use crate::rules::{Mutation, Rules};

fn is_empty_shelf(element: &Element) -> bool {
    element.kind == Kind::Storage && !element.is_full()
}

fn empty_shelves(library: &Library) -> u16 {
    let elements = library.elements.values();
    elements.filter(|element| is_empty_shelf(element)).count() as u16
}

/// How many shelves are empty in the one and not in the other.
fn empty_only_in(one: &Library, other: &Library) -> u16 {
    let pairs = one.elements.values().zip(other.elements.values());
    pairs
        .filter(|(here, there)| is_empty_shelf(here) && !is_empty_shelf(there))
        .count() as u16
}

/// The number that is written after a command, or after an event: the true one, but for the deliberate mistakes.
pub(crate) fn shown(
    before: &Library,
    after: &Library,
    command: Option<Command>,
    rules: Rules,
) -> u16 {
    let stands = empty_shelves(after);
    let Some(mistake) = rules.mutation else {
        return stands;
    };
    let stood = empty_shelves(before);
    let (left, filled) = (empty_only_in(after, before), empty_only_in(before, after));
    let full = |library: &Library| library.elements.values().filter(|e| e.is_full()).count();
    match (mistake, command) {
        (Mutation::EmptyShelvesKeptByMoveAlone, Some(Command::ExchangeMedium)) => stood,
        (Mutation::FilledShelfNotCountedByExchange, Some(Command::ExchangeMedium)) => stood + left,
        (Mutation::MoveBetweenShelvesCounted, Some(Command::MoveMedium)) => {
            stands + left.min(filled)
        }
        (Mutation::ImportFillsAShelf, None) if full(after) > full(before) => stands.wrapping_sub(1),
        (Mutation::HighByteOfEmptyShelvesStays, _) => stood & 0xFF00 | stands & 0x00FF,
        _ => stands,
    }
}

/// "Sound tables have it equal to the true count"
pub(crate) fn is_true(number: u16, library: &Library, rules: Rules) -> bool {
    let count = empty_shelves(library);
    match rules.mutation {
        Some(Mutation::FewerEmptyShelvesAreSound) => number <= count,
        Some(Mutation::MoreEmptyShelvesAreSound) => number >= count,
        Some(Mutation::EmptyShelvesJudgedByLowByte) => number as u8 == count as u8,
        _ => number == count,
    }
}
