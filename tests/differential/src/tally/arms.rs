//! Which arm a move used, and what it met where there was none.

use reference::TableBytes;

use super::cartridges;
use super::shelves::{find, two};
use super::{First, Outcome};

/// The arm that transport 0 came to, by its place among the transports.
#[derive(Clone, Copy, Debug, PartialEq, Eq, PartialOrd, Ord)]
pub enum Which {
    /// The lowest of more than one..
    First,
    /// ..or the only one there is.
    Only,
    Second,
    /// Behind the second, and not the last.
    Later,
    /// The last of more than two.
    Last,
}

/// Who holds it.
#[derive(Clone, Copy, Debug, PartialEq, Eq, PartialOrd, Ord)]
pub enum Holder {
    Nobody,
    ThisHost,
}

/// What is wrong besides, where other hosts hold every arm.
#[derive(Clone, Copy, Debug, PartialEq, Eq, PartialOrd, Ord)]
pub enum Besides {
    Nothing,
    /// Another host holds a place too.
    Held,
    Empty,
    Full,
    Cartridge,
}

/// A transport named by its address.
#[derive(Clone, Copy, Debug, PartialEq, Eq, PartialOrd, Ord)]
pub enum Named {
    /// 18h: another host holds it, and a lower one is free..
    HeldALowerFree,
    /// ..or a higher one.
    HeldAHigherFree,
    /// GOOD: it is free or this host's, and another host holds the lowest.
    OpenTheFirstHeld,
}

/// The holders of the transports, in order of address.
fn holders(before: &TableBytes) -> Vec<u8> {
    let (first, count) = (two(&before.head, 0), two(&before.head, 2));
    let place = find(before, first).map_or(0, |(_, place)| place);
    let records = before.elements.chunks_exact(8).skip(place);
    records.take(count.into()).map(|record| record[4]).collect()
}

fn is_move(first: First) -> bool {
    [0xA5, 0xA6].map(First::Known).contains(&first)
}

/// The holders as far as this host cares: whether it may use each.
fn open(before: &TableBytes, host: u32) -> Vec<bool> {
    let may_use = |holder: u8| holder == 0 || u32::from(holder) == host;
    holders(before).into_iter().map(may_use).collect()
}

/// GOOD.
pub(super) fn used(before: &TableBytes, host: u32, first: First, block: &[u8]) -> Option<Outcome> {
    let open = open(before, host);
    if two(block, 2) != 0 {
        let behind = two(block, 2) != two(&before.head, 0) && !open[0];
        return behind.then_some(Outcome::NamedArm(first, Named::OpenTheFirstHeld));
    }
    let place = open.iter().position(|open| *open)?;
    let which = match place {
        0 if open.len() == 1 => Which::Only,
        0 => Which::First,
        _ if place + 1 == open.len() && place > 1 => Which::Last,
        1 => Which::Second,
        _ => Which::Later,
    };
    let holder = match holders(before)[place] {
        0 => Holder::Nobody,
        _ => Holder::ThisHost,
    };
    Some(Outcome::ArmUsed(first, which, holder))
}

/// 18h of a MOVE or an EXCHANGE that came to step 6.
pub(super) fn conflict(
    before: &TableBytes,
    host: u32,
    first: First,
    block: &[u8],
) -> Option<Outcome> {
    let unit = u32::from(before.head[16]);
    if !is_move(first) || unit != 0 && unit != host {
        return None;
    }
    let open = open(before, host);
    if two(block, 2) != 0 {
        let place = usize::from(two(block, 2) - two(&before.head, 0));
        if open[place] {
            return None;
        }
        let named = match (open[..place].contains(&true), open[place..].contains(&true)) {
            (true, _) => Named::HeldALowerFree,
            (_, true) => Named::HeldAHigherFree,
            _ => return None,
        };
        return Some(Outcome::NamedArm(first, named));
    }
    let none = !open.contains(&true);
    let arms = open.len().min(3) as u8;
    none.then(|| Outcome::NoArm(first, arms, besides(before, host, first, block)))
}

fn besides(before: &TableBytes, host: u32, first: First, block: &[u8]) -> Besides {
    let record = |at: usize| {
        let place = find(before, two(block, at)).map_or(0, |(_, place)| place);
        &before.elements[8 * place..8 * place + 8]
    };
    let places: &[usize] = match first {
        First::Known(0xA5) => &[4, 6],
        _ => &[4, 6, 8],
    };
    let others = |at: &usize| ![0, host].contains(&record(*at)[4].into());
    let is_full = |at: usize| two(record(at), 0) != 0;
    let (missing, full) = match first {
        First::Known(0xA5) => (!is_full(4), is_full(6)),
        _ => {
            let swap = two(block, 4) == two(block, 8);
            (!is_full(4) || !is_full(6), is_full(8) && !swap)
        }
    };
    match () {
        _ if places.iter().any(others) => Besides::Held,
        _ if missing => Besides::Empty,
        _ if full => Besides::Full,
        _ if cartridges::any_unfit(before, first, block) => Besides::Cartridge,
        _ => Besides::Nothing,
    }
}

/// 5/21/01, and other hosts hold every arm.
pub(super) fn untold(
    before: &TableBytes,
    host: u32,
    first: First,
    block: &[u8],
) -> Option<Outcome> {
    let any = is_move(first) && two(block, 2) == 0;
    let none = any && !open(before, host).contains(&true);
    none.then_some(Outcome::NoArmUntold(first))
}

/// By MOVE and by EXCHANGE: each arm that transport 0 may come to, held by this host and by nobody; none, with one arm, two and more, and whatever is
/// wrong besides; arms that are named.
pub(super) fn required() -> Vec<Outcome> {
    let mut required = Vec::new();
    for first in [0xA5, 0xA6].map(First::Known) {
        let which = [
            Which::Only,
            Which::First,
            Which::Second,
            Which::Later,
            Which::Last,
        ];
        for holder in [Holder::Nobody, Holder::ThisHost] {
            required.extend(which.map(|which| Outcome::ArmUsed(first, which, holder)));
        }
        let besides = [
            Besides::Nothing,
            Besides::Held,
            Besides::Empty,
            Besides::Full,
            Besides::Cartridge,
        ];
        for arms in 1..=3 {
            required.extend(besides.map(|besides| Outcome::NoArm(first, arms, besides)));
        }
        let named = [
            Named::HeldALowerFree,
            Named::HeldAHigherFree,
            Named::OpenTheFirstHeld,
        ];
        required.extend(named.map(|named| Outcome::NamedArm(first, named)));
        required.push(Outcome::NoArmUntold(first));
        required.extend([true, false].map(|any| Outcome::LineByALaterArm(first, any)));
    }
    required
}
