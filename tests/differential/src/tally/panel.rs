//! What became of the number of empty shelves, and which numbers were refused.

use reference::library::Kind;
use reference::TableBytes;

use super::shelves::{find, two};
use super::{First, Outcome, PLACES};
use crate::compare::Made;
use crate::scene::EMPTY_SHELVES;

/// The number after the call beside the one before it.
#[derive(Clone, Copy, Debug, PartialEq, Eq, PartialOrd, Ord)]
pub enum Change {
    OneFewer,
    AsMany,
    OneMore,
}

/// A number that is not the true one.
#[derive(Clone, Copy, Debug, PartialEq, Eq, PartialOrd, Ord)]
pub enum Wrong {
    OneTooFew,
    OneTooMany,
    InTheLowByte,
    InTheHighByte,
    InBoth,
}

/// An EXCHANGE that ended GOOD: where from and, unless that is the source, where to.
pub(super) fn second(before: &TableBytes, first: First, block: &[u8]) -> Option<Outcome> {
    let [source, second] = [4, 8].map(|at| two(block, at));
    if first != First::Known(0xA6) || source == second {
        return None;
    }
    let ((from, _), (to, _)) = (find(before, source)?, find(before, second)?);
    Some(Outcome::ExchangedTo(from, to))
}

/// A MOVE or an EXCHANGE that ended GOOD.
pub(super) fn changes(before: &TableBytes, first: First, made: &Made) -> Vec<Outcome> {
    let [stood, stands] = [&before.head[..], made.head()].map(|head| two(head, EMPTY_SHELVES));
    let change = match (stands.checked_sub(stood), stood.checked_sub(stands)) {
        (Some(0), _) => Change::AsMany,
        (Some(_), _) => Change::OneMore,
        _ => Change::OneFewer,
    };
    let mut reached = vec![Outcome::EmptyShelves(first, change)];
    if stood >> 8 != stands >> 8 {
        reached.push(Outcome::EmptyShelvesPast255(first, change));
    }
    reached
}

/// How many storage elements are empty in tables that break no other clause.
fn empty_shelves(tables: &TableBytes) -> u16 {
    let (first, count) = (two(&tables.head, 4), two(&tables.head, 6));
    let empty = |shelf: &u16| {
        let found = find(tables, first + *shelf);
        found.is_some_and(|(_, place)| two(&tables.elements, 8 * place) == 0)
    };
    (0..count).filter(empty).count() as u16
}

/// The tables are known to break no other clause.
pub(super) fn wrong(before: &TableBytes) -> Outcome {
    let (shown, right) = (two(&before.head, EMPTY_SHELVES), empty_shelves(before));
    let differs = shown ^ right;
    Outcome::WrongEmptyShelves(match (differs >> 8 != 0, differs & 0xFF != 0) {
        _ if shown == right.wrapping_sub(1) => Wrong::OneTooFew,
        _ if shown == right.wrapping_add(1) => Wrong::OneTooMany,
        (false, _) => Wrong::InTheLowByte,
        (true, false) => Wrong::InTheHighByte,
        (true, true) => Wrong::InBoth,
    })
}

/// Each change, also past 255 and back; each combination of source and second destination; each way to be wrong.
pub(super) fn required() -> Vec<Outcome> {
    let mut required = Vec::new();
    for first in [0xA5, 0xA6].map(First::Known) {
        let changes = [Change::OneFewer, Change::AsMany, Change::OneMore];
        required.extend(changes.map(|change| Outcome::EmptyShelves(first, change)));
        let past = [Change::OneFewer, Change::OneMore];
        required.extend(past.map(|change| Outcome::EmptyShelvesPast255(first, change)));
    }
    for from in PLACES {
        required.extend(PLACES.map(|to: Kind| Outcome::ExchangedTo(from, to)));
    }
    let wrong = [
        Wrong::OneTooFew,
        Wrong::OneTooMany,
        Wrong::InTheLowByte,
        Wrong::InTheHighByte,
        Wrong::InBoth,
    ];
    required.extend(wrong.map(Outcome::WrongEmptyShelves));
    required
}
