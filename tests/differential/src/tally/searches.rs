//! What a search found, what it did not and why, and what became of it.

use reference::library::Kind;
use reference::{Clause, TableBytes};

use super::shelves::two;
use super::{First, Outcome};
use crate::compare::Made;
use crate::scene::{SEARCH_LENGTH, TEMPLATE_LENGTH};

const BEHIND_ALL: usize = 0x1_0000;

/// What of a template goes with the label of an element that was chosen.
#[derive(Clone, Copy, Debug, PartialEq, Eq, PartialOrd, Ord)]
pub enum Matched {
    /// All 32 bytes.
    Whole,
    QuestionMark,
    StarFirst,
    /// What stands behind the star differs from the label.
    Star,
    /// By action 5h, and the sequence number is outside the range.
    AnyNumber,
    /// By action 1h, and the sequence number is the range's least, or its greatest.
    Least,
    Greatest,
}

/// Why an element was not chosen, where nothing else speaks against it.
#[derive(Clone, Copy, Debug, PartialEq, Eq, PartialOrd, Ord)]
pub enum PassedOver {
    /// It is empty, and the blank label goes with the template.
    Empty,
    FirstByte,
    LastByte,
    BelowLeast,
    AboveGreatest,
    SearchType,
    RequestType,
    Start,
    /// It was told before, or lies below where the search began.
    Next,
    /// More than "number".
    Most,
}

/// What of the elements chosen counts as told.
#[derive(Clone, Copy, Debug, PartialEq, Eq, PartialOrd, Ord)]
pub enum Telling {
    NoneChosen,
    /// Some were chosen, and no descriptor was returned whole.
    NoneWhole,
    Some,
    All,
    /// All, and the last has the last address: the next is 10000h.
    LastAddress,
}

/// A SEND VOLUME TAG with GOOD.
#[derive(Clone, Copy, Debug, PartialEq, Eq, PartialOrd, Ord)]
pub enum Begun {
    Fresh,
    InPlaceOfAnother,
}

/// Who holds something where the command was a conflict, or where it was not.
#[derive(Clone, Copy, Debug, PartialEq, Eq, PartialOrd, Ord)]
pub enum Held {
    Unit,
    Element(Kind),
    OwnUnit,
    OwnElement,
}

/// How a list is wrong.
#[derive(Clone, Copy, Debug, PartialEq, Eq, PartialOrd, Ord)]
pub enum WrongList {
    Empty,
    OneLess,
    OneMore,
    AnotherLength,
    Reserved(usize),
}

/// How a search is not sound.
#[derive(Clone, Copy, Debug, PartialEq, Eq, PartialOrd, Ord)]
pub enum NoSearch {
    Shorter,
    Longer,
    ActionZero,
    OtherAction,
    TypeFive,
    OtherType,
    OneTooFar,
    MuchTooFar,
}

struct Search<'a> {
    template: &'a [u8],
    kind: u8,
    action: u8,
    least: u16,
    greatest: u16,
    next: usize,
}

fn three(bytes: &[u8], at: usize) -> usize {
    usize::from(bytes[at]) << 16 | usize::from(two(bytes, at + 1))
}

/// None where there is no search.
fn search(tables: &TableBytes) -> Option<Search<'_>> {
    let bytes = &tables.search;
    (bytes[33] != 0).then(|| Search {
        template: &bytes[..TEMPLATE_LENGTH],
        kind: bytes[32],
        action: bytes[33],
        least: two(bytes, 34),
        greatest: two(bytes, 36),
        next: three(bytes, 38),
    })
}

/// The addresses, kinds and volumes of all elements, in order.
fn elements(tables: &TableBytes) -> Vec<(u16, Kind, u16)> {
    let mut places: Vec<(u16, Kind)> = Vec::new();
    for (at, kind) in Kind::ALL.into_iter().enumerate() {
        let (first, count) = (two(&tables.head, 4 * at), two(&tables.head, 4 * at + 2));
        places.extend((0..count).map(|more| (first + more, kind)));
    }
    places.sort_unstable();
    let volumes = tables.elements.chunks_exact(8).map(|record| two(record, 0));
    places
        .into_iter()
        .zip(volumes)
        .map(|((address, kind), volume)| (address, kind, volume))
        .collect()
}

fn label(tables: &TableBytes, volume: u16) -> &[u8] {
    match volume {
        0 => &tables.blank,
        volume => &tables.tags[36 * (usize::from(volume) - 1)..][..36],
    }
}

/// Where template and label part; none where they go together.
fn parting(template: &[u8], label: &[u8]) -> Option<usize> {
    let compared = template.iter().position(|&byte| byte == b'*');
    let compared = compared.unwrap_or(TEMPLATE_LENGTH);
    (0..compared).find(|&at| template[at] != b'?' && template[at] != label[at])
}

/// What speaks against an element.
fn against(
    tables: &TableBytes,
    search: &Search,
    block: &[u8],
    (address, kind, volume): (u16, Kind, u16),
) -> Vec<PassedOver> {
    let label = label(tables, volume);
    let number = two(label, 34);
    let ranged = search.action == 1;
    let asked = block[1] & 0x0F;
    let of = |wanted: u8| wanted == 0 || wanted == kind.code();
    // Of the bytes that part, those at the ends alone are told apart.
    let parts = parting(search.template, label).map(|at| match at {
        0 => PassedOver::FirstByte,
        _ => PassedOver::LastByte,
    });
    let mut against: Vec<PassedOver> = parts.into_iter().collect();
    let mut note = |holds: bool, why: PassedOver| against.extend((!holds).then_some(why));
    note(volume != 0, PassedOver::Empty);
    note(!ranged || search.least <= number, PassedOver::BelowLeast);
    note(
        !ranged || number <= search.greatest,
        PassedOver::AboveGreatest,
    );
    note(of(search.kind), PassedOver::SearchType);
    note(of(asked), PassedOver::RequestType);
    note(two(block, 2) <= address, PassedOver::Start);
    note(search.next <= address.into(), PassedOver::Next);
    against
}

fn matched(search: &Search, label: &[u8]) -> Vec<Matched> {
    let number = two(label, 34);
    let star = search.template.iter().position(|&byte| byte == b'*');
    let compared = &search.template[..star.unwrap_or(TEMPLATE_LENGTH)];
    let mut matched = Vec::new();
    if *search.template == label[..TEMPLATE_LENGTH] {
        matched.push(Matched::Whole);
    }
    if compared.contains(&b'?') {
        matched.push(Matched::QuestionMark);
    }
    match star {
        Some(0) => matched.push(Matched::StarFirst),
        Some(at) if search.template[at + 1..] != label[at + 1..TEMPLATE_LENGTH] => {
            matched.push(Matched::Star);
        }
        _ => {}
    }
    let within = search.least <= number && number <= search.greatest;
    match (search.action, within) {
        (5, false) => matched.push(Matched::AnyNumber),
        (1, _) => {
            matched.extend((number == search.least).then_some(Matched::Least));
            matched.extend((number == search.greatest).then_some(Matched::Greatest));
        }
        _ => {}
    }
    matched
}

/// A REQUEST VOLUME ELEMENT ADDRESS with GOOD.
pub(super) fn requested(before: &TableBytes, block: &[u8], made: &Made) -> Vec<Outcome> {
    let Some(search) = search(before) else {
        return vec![Outcome::FoundWithoutASearch];
    };
    let mut reached = vec![Outcome::Requested(search.action)];
    let mut chosen = Vec::new();
    for element in elements(before) {
        match against(before, &search, block, element)[..] {
            [] if chosen.len() >= two(block, 4).into() => {
                reached.push(Outcome::PassedOver(PassedOver::Most));
            }
            [] => {
                chosen.push(element.0);
                let ways = matched(&search, label(before, element.2));
                reached.extend(ways.into_iter().map(Outcome::Matched));
                reached.push(Outcome::FoundIn(element.1));
            }
            [alone] => reached.push(Outcome::PassedOver(alone)),
            _ => {}
        }
    }
    let next = three(made.search(), 38);
    let last = chosen.last().map_or(0, |&last| usize::from(last) + 1);
    reached.push(Outcome::Told(match next {
        _ if chosen.is_empty() => Telling::NoneChosen,
        BEHIND_ALL => Telling::LastAddress,
        _ if next == last => Telling::All,
        _ if next == search.next => Telling::NoneWhole,
        _ => Telling::Some,
    }));
    reached
}

/// A SEND VOLUME TAG with GOOD.
pub(super) fn sent(before: &TableBytes, block: &[u8]) -> Outcome {
    let begun = match search(before) {
        None => Begun::Fresh,
        Some(_) => Begun::InPlaceOfAnother,
    };
    Outcome::Sent(block[5], begun)
}

/// A SEND VOLUME TAG that ended with this sense, and what of its list or its action is the reason; and whether an older search is kept.
pub(super) fn refused(
    before: &TableBytes,
    block: &[u8],
    list: &[u8],
    sense: [u8; 3],
) -> Vec<Outcome> {
    let mut reached = Vec::new();
    if search(before).is_some() {
        reached.push(Outcome::SearchKept(sense));
    }
    match sense {
        [5, 0x1A, 0x00] => reached.push(Outcome::WrongList(match list.len() {
            0 => WrongList::Empty,
            39 => WrongList::OneLess,
            41 => WrongList::OneMore,
            _ => WrongList::AnotherLength,
        })),
        [5, 0x26, 0x00] => {
            let set = [32, 33, 36, 37].into_iter().filter(|&at| list[at] != 0);
            let set: Vec<usize> = set.collect();
            if let [at] = set[..] {
                reached.push(Outcome::WrongList(WrongList::Reserved(at)));
            }
        }
        [5, 0x24, 0x00] => {
            let rest = [4, 6, 7, 10, 11].iter().all(|&at| block[at] == 0);
            if rest && block[1] & 0x10 == 0 && block[1] & 0x0F <= 4 && block[5] < 32 {
                reached.push(Outcome::WrongAction(block[5]));
            }
        }
        _ => {}
    }
    reached
}

/// Who holds what, for a command of a search that ended so.
pub(super) fn held(before: &TableBytes, host: u32, first: First, conflict: bool) -> Vec<Outcome> {
    if ![0xB5, 0xB6].map(First::Known).contains(&first) {
        return Vec::new();
    }
    let unit = u32::from(before.head[16]);
    let holders = before.elements.chunks_exact(8).map(|record| record[4]);
    let kinds = elements(before).into_iter().map(|(_, kind, _)| kind);
    let holders: Vec<(Kind, u32)> = kinds.zip(holders.map(u32::from)).collect();
    let reach = |held: Held| Outcome::HeldInASearch(first, held);
    let mut reached = Vec::new();
    match conflict {
        true if unit != 0 && unit != host => reached.push(reach(Held::Unit)),
        true => {
            let others = holders.iter().filter(|(_, by)| ![0, host].contains(by));
            let mut kinds: Vec<Kind> = others.map(|(kind, _)| *kind).collect();
            kinds.dedup();
            if let [kind] = kinds[..] {
                reached.push(reach(Held::Element(kind)));
            }
        }
        false => {
            reached.extend((unit == host).then_some(reach(Held::OwnUnit)));
            let own = holders.iter().any(|(_, by)| *by == host);
            reached.extend(own.then_some(reach(Held::OwnElement)));
        }
    }
    reached
}

/// A reset with number 0.
pub(super) fn reset(before: &TableBytes) -> Option<Outcome> {
    search(before).map(|_| Outcome::ResetEndsSearch)
}

/// The tables are known to break no clause that is judged before this one.
pub(super) fn no_search(before: &TableBytes, clause: Clause) -> Option<Outcome> {
    let bytes = &before.search;
    let how = match clause {
        Clause::SearchLength if bytes.len() < SEARCH_LENGTH => NoSearch::Shorter,
        Clause::SearchLength => NoSearch::Longer,
        Clause::SearchAction if bytes[33] == 0 => NoSearch::ActionZero,
        Clause::SearchAction => NoSearch::OtherAction,
        Clause::SearchType if bytes[32] == 5 => NoSearch::TypeFive,
        Clause::SearchType => NoSearch::OtherType,
        Clause::SearchNext if three(bytes, 38) == BEHIND_ALL + 1 => NoSearch::OneTooFar,
        Clause::SearchNext => NoSearch::MuchTooFar,
        _ => return None,
    };
    Some(Outcome::NoSearch(how))
}

/// Each way to match and not to; each amount told; each action, held element and wrong list; each way to be not sound.
pub(super) fn required() -> Vec<Outcome> {
    let mut required = vec![
        Outcome::FoundWithoutASearch,
        Outcome::ResetEndsSearch,
        Outcome::LineSearches(First::Known(0xB5)),
        Outcome::LineSearches(First::Known(0xB6)),
    ];
    required.extend([1, 5].map(Outcome::Requested));
    required.extend(required_choices());
    required.extend(required_sends());
    let told = [
        Telling::NoneChosen,
        Telling::NoneWhole,
        Telling::Some,
        Telling::All,
        Telling::LastAddress,
    ];
    required.extend(told.map(Outcome::Told));
    let wrong = [
        NoSearch::Shorter,
        NoSearch::Longer,
        NoSearch::ActionZero,
        NoSearch::OtherAction,
        NoSearch::TypeFive,
        NoSearch::OtherType,
        NoSearch::OneTooFar,
        NoSearch::MuchTooFar,
    ];
    required.extend(wrong.map(Outcome::NoSearch));
    required
}

fn required_choices() -> Vec<Outcome> {
    let mut required = Vec::new();
    let found = [Kind::Storage, Kind::ImportExport, Kind::Drive];
    required.extend(found.map(Outcome::FoundIn));
    let matched = [
        Matched::Whole,
        Matched::QuestionMark,
        Matched::StarFirst,
        Matched::Star,
        Matched::AnyNumber,
        Matched::Least,
        Matched::Greatest,
    ];
    required.extend(matched.map(Outcome::Matched));
    let passed_over = [
        PassedOver::Empty,
        PassedOver::FirstByte,
        PassedOver::LastByte,
        PassedOver::BelowLeast,
        PassedOver::AboveGreatest,
        PassedOver::SearchType,
        PassedOver::RequestType,
        PassedOver::Start,
        PassedOver::Next,
        PassedOver::Most,
    ];
    required.extend(passed_over.map(Outcome::PassedOver));
    required
}

fn required_sends() -> Vec<Outcome> {
    let mut required = Vec::new();
    for action in [1, 5] {
        let begun = [Begun::Fresh, Begun::InPlaceOfAnother];
        required.extend(begun.map(|begun| Outcome::Sent(action, begun)));
    }
    let others = (0..32).filter(|action| ![1, 5].contains(action));
    required.extend(others.map(Outcome::WrongAction));
    let lists = [
        WrongList::Empty,
        WrongList::OneLess,
        WrongList::OneMore,
        WrongList::AnotherLength,
    ];
    let reserved = [32, 33, 36, 37].map(WrongList::Reserved);
    required.extend(lists.into_iter().chain(reserved).map(Outcome::WrongList));
    let kept = [[5, 0x1A, 0], [5, 0x24, 0], [5, 0x26, 0], [6, 0x28, 1]];
    required.extend(kept.map(Outcome::SearchKept));
    for first in [0xB5, 0xB6].map(First::Known) {
        let mut held = vec![Held::Unit, Held::OwnUnit, Held::OwnElement];
        held.extend(Kind::ALL.map(Held::Element));
        required.extend(
            held.into_iter()
                .map(|held| Outcome::HeldInASearch(first, held)),
        );
    }
    required
}
