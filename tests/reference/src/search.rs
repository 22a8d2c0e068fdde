//! "Find by label": SEND VOLUME TAG and REQUEST VOLUME ELEMENT ADDRESS.
//!
//! "One search is kept for the unit .. template, type, range and next address. All zeros means no search".

use crate::bytes::{as_three, three, two};
use crate::command::{
    Call, Command, Outcome, Unsuccessful, INVALID_FIELD, LIST_LENGTH, LIST_RESERVED, WRONG_ADDRESS,
};
use crate::element_status::{self, Listing};
use crate::library::{Element, HostNumber, Kind, Library};
use crate::records::SEARCH_LENGTH;
use crate::rules::{Mutation, Rules};

const TEMPLATE: usize = 32;
/// Table 28 of document 001: "VOLUME IDENTIFICATION TEMPLATE" and two sequence numbers, each behind two reserved bytes.
const LIST: usize = 40;
const LEAST: usize = 34;
const GREATEST: usize = 38;
/// Where a label has its sequence number.
const SEQUENCE: usize = 34;
/// Behind the last address there can be.
const BEHIND_ALL: u32 = 0x1_0000;

/// "search only primary volume tags", and the same, "ignore sequence numbers"
const IN_RANGE: u8 = 1;
const OF_ANY_NUMBER: u8 = 5;

/// A search as it was sent, and the lowest address that it may still tell.
#[derive(Clone, Copy, Debug, PartialEq, Eq)]
pub struct Search {
    pub template: [u8; TEMPLATE],
    /// 0 for all types.
    pub kind: u8,
    pub action: u8,
    pub least: u16,
    pub greatest: u16,
    pub next: u32,
}

impl Search {
    /// None where all bytes are zero. Bytes that are missing read as zero, for tables that are not sound.
    pub(crate) fn read(bytes: &[u8]) -> Option<Search> {
        let mut whole = [0; SEARCH_LENGTH];
        for (place, byte) in whole.iter_mut().zip(bytes) {
            *place = *byte;
        }
        let mut template = [0; TEMPLATE];
        template.copy_from_slice(&whole[..TEMPLATE]);
        let search = Search {
            template,
            kind: whole[32],
            action: whole[33],
            least: two(&whole, 34),
            greatest: two(&whole, 36),
            next: three(&whole, 38) as u32,
        };
        bytes.iter().any(|&byte| byte != 0).then_some(search)
    }

    pub(crate) fn bytes(self) -> [u8; SEARCH_LENGTH] {
        let mut bytes = [0; SEARCH_LENGTH];
        bytes[..TEMPLATE].copy_from_slice(&self.template);
        bytes[32] = self.kind;
        bytes[33] = self.action;
        bytes[34..36].copy_from_slice(&self.least.to_be_bytes());
        bytes[36..38].copy_from_slice(&self.greatest.to_be_bytes());
        bytes[38..].copy_from_slice(&as_three(self.next as usize));
        bytes
    }

    /// Whether a search could leave this action, this type and this next address.
    pub(crate) fn fields_left(&self, rules: Rules) -> [bool; 3] {
        let action = match rules.mutation {
            Some(Mutation::ActionZeroIsSound) => {
                [0, IN_RANGE, OF_ANY_NUMBER].contains(&self.action)
            }
            Some(Mutation::LowerActionsAreSound) => (1..=OF_ANY_NUMBER).contains(&self.action),
            Some(Mutation::ActionsOfFourBitsAreSound) => {
                [IN_RANGE, OF_ANY_NUMBER].contains(&(self.action & 0x0F))
            }
            Some(Mutation::WrongRangeIsNotSound) => {
                [IN_RANGE, OF_ANY_NUMBER].contains(&self.action) && self.least <= self.greatest
            }
            Some(Mutation::NoTemplateIsNotSound) => {
                [IN_RANGE, OF_ANY_NUMBER].contains(&self.action) && self.template[0] != 0
            }
            _ => [IN_RANGE, OF_ANY_NUMBER].contains(&self.action),
        };
        let most_kind = match rules.broken_by(Mutation::TypeFiveIsSound) {
            true => 5,
            false => 4,
        };
        let next = match rules.mutation {
            Some(Mutation::NextPastTheEndIsSound) => self.next <= BEHIND_ALL + 1,
            Some(Mutation::NextBehindAllIsNotSound) => self.next < BEHIND_ALL,
            _ => self.next <= BEHIND_ALL,
        };
        [action, self.kind <= most_kind, next]
    }

    /// "only full elements match"; "Matches are judged when reported"
    fn matches(&self, element: &Element, call: &Call) -> bool {
        let counts_empty = call.broken_by(Mutation::EmptyElementsMatch);
        if !element.is_full() && !counts_empty {
            return false;
        }
        let volume = match call.rules.mutation {
            Some(Mutation::LabelOfTheVolumeBeforeMatches) => element.volume.map(|own| own - 1),
            Some(Mutation::LabelOfTheVolumeBehindMatches) => element.volume.map(|own| own + 1),
            _ => element.volume,
        };
        let label = call.labels.shown(volume);
        agrees(&self.template, label, call.rules) && self.has_in_range(label, call)
    }

    /// "the least value in the volume sequence number field .. that will meet the search specification", and the greatest
    fn has_in_range(&self, label: &[u8], call: &Call) -> bool {
        let judged = match call.rules.mutation {
            Some(Mutation::RangeJudgedUnderFive) => true,
            Some(Mutation::RangeIgnored) => false,
            _ => self.action == IN_RANGE,
        };
        let at = match call.broken_by(Mutation::SequenceNumberTooEarly) {
            true => SEQUENCE - 2,
            false => SEQUENCE,
        };
        let number = two(label, at);
        let range = self.least..=self.greatest;
        let within = match call.rules.mutation {
            Some(Mutation::LeastIsOutside) => range.contains(&number) && number != self.least,
            Some(Mutation::GreatestIsOutside) => range.contains(&number) && number != self.greatest,
            Some(Mutation::LeastUnjudged) => number <= self.greatest,
            Some(Mutation::GreatestUnjudged) => number >= self.least,
            Some(Mutation::RangeEitherWay) => {
                range.contains(&number) || (self.greatest..=self.least).contains(&number)
            }
            _ => range.contains(&number),
        };
        !judged || within
    }

    /// Whether the element at this address may be told.
    fn may_tell(&self, address: u16, element: &Element, call: &Call) -> bool {
        let of_type = self.kind == 0 || self.kind == element.kind.code();
        let of_type = of_type || call.broken_by(Mutation::SearchTypeIgnored);
        let not_yet = u32::from(address) >= self.next;
        let not_yet = match call.rules.mutation {
            Some(Mutation::NextIgnored) => true,
            Some(Mutation::NextIsToldAlready) => u32::from(address) > self.next,
            _ => not_yet,
        };
        of_type && not_yet && self.matches(element, call)
    }
}

/// "'?' will match any single character; '*' will match any string of characters. When it appears in a template the remainder of the template
/// at higher offsets in the field is not used."
fn agrees(template: &[u8; TEMPLATE], label: &[u8], rules: Rules) -> bool {
    let compared = match rules.mutation {
        Some(Mutation::LastByteUncompared) => TEMPLATE - 1,
        Some(Mutation::FirstByteAloneCompared) => 1,
        _ => TEMPLATE,
    };
    for (&wanted, &shown) in template.iter().zip(label).take(compared) {
        let goes = match wanted {
            b'*' if rules.broken_by(Mutation::StarIsACharacter) => shown == b'*',
            b'*' if rules.broken_by(Mutation::StarNeedsACharacter) => {
                return ![b' ', 0].contains(&shown)
            }
            b'*' if rules.broken_by(Mutation::TemplateGoesOnBehindStar) => true,
            b'*' => return true,
            b'?' if rules.broken_by(Mutation::QuestionMarkIsACharacter) => shown == b'?',
            b'?' if rules.broken_by(Mutation::QuestionMarkNeedsACharacter) => {
                ![b' ', 0].contains(&shown)
            }
            b'?' if rules.broken_by(Mutation::QuestionMarkEndsTheTemplate) => return true,
            b'?' => true,
            0 if rules.broken_by(Mutation::ZeroEndsTheTemplate) => return true,
            b' ' if rules.broken_by(Mutation::BlankEndsTheTemplate) => return true,
            _ if rules.broken_by(Mutation::CaseIgnored) => wanted.eq_ignore_ascii_case(&shown),
            _ => wanted == shown,
        };
        if !goes {
            return false;
        }
    }
    true
}

/// "Number 4 reads B6h's own list length": how many parameter bytes there must be.
pub(crate) fn list_length(call: &Call) -> usize {
    match call.rules.mutation {
        Some(Mutation::ListLengthWhereReserveHasIt) => two(call.block, 3).into(),
        Some(Mutation::NoListForSendVolumeTag) => 0,
        Some(Mutation::ListAlwaysOfForty) => LIST,
        Some(Mutation::ListLengthOfOneByte) => call.block[9].into(),
        _ => two(call.block, 8).into(),
    }
}

/// Table 20 of document 001: bytes 7-8, and byte 9 is reserved.
pub(crate) fn allocation(call: &Call) -> usize {
    match call.rules.mutation {
        Some(Mutation::AllocationOfThreeBytes) => three(call.block, 7),
        Some(Mutation::AllocationOneByteOn) => two(call.block, 8).into(),
        _ => two(call.block, 7).into(),
    }
}

/// "B5h and B6h give 18h if any other host holds unit or element, at step 3."
pub(crate) fn refuse_where_others_hold(
    library: &Library,
    command: Command,
    call: &Call,
) -> Result<(), Unsuccessful> {
    let ignored = match command {
        Command::SendVolumeTag => Mutation::SendBesideHeldElements,
        Command::RequestVolumeElementAddress => Mutation::RequestBesideHeldElements,
        _ => return Ok(()),
    };
    let mut elements = library.elements.values();
    let host: HostNumber = call.host;
    let hinders = |element: &Element| match call.rules.mutation {
        Some(Mutation::OwnElementsHinderASearch) => element.reservation.is_some(),
        Some(Mutation::HeldShelvesAloneHinderASearch) => {
            element.kind == Kind::Storage && element.held_by_another(host)
        }
        _ => element.held_by_another(host),
    };
    match elements.any(hinders) && !call.broken_by(ignored) {
        true => Err(Unsuccessful::ReservationConflict),
        false => Ok(()),
    }
}

/// Bits of the two blocks that have no use; this does nothing but under a mutation.
pub(crate) fn stray_mistakes(allowed: &mut [u8], command: Command, call: &Call) {
    match (call.rules.mutation, command) {
        (
            Some(Mutation::AllocationOfThreeBytes | Mutation::ByteNineLetThrough),
            Command::RequestVolumeElementAddress,
        ) => allowed[8] = 0xFF,
        (Some(Mutation::TagsBitOfASearchLetThrough), Command::SendVolumeTag) => allowed[0] = 0xFF,
        _ => {}
    }
}

/// What else might end a search; this does nothing but under a mutation.
pub(crate) fn end_mistakes(library: &mut Library, call: &Call, good: bool) {
    let ends = match (call.rules.mutation, call.command()) {
        (Some(Mutation::EarlyRefusalEndsSearch), Some(Command::SendVolumeTag)) => !good,
        (Some(Mutation::MoveEndsSearch), Some(Command::MoveMedium)) => good,
        _ => false,
    };
    if ends {
        library.search = None;
    }
}

/// "actions 1h and 5h (primary tags), others 5/24/00"
pub(crate) fn is_known_action(call: &Call) -> bool {
    match (call.rules.mutation, action(call)) {
        (_, IN_RANGE | OF_ANY_NUMBER) => true,
        (Some(Mutation::ActionZeroLetThrough), 0) => true,
        (Some(Mutation::ActionTwoLetThrough), 2) => true,
        (Some(Mutation::ActionFourLetThrough), 4) => true,
        (Some(Mutation::ActionSixLetThrough), 6) => true,
        (Some(Mutation::AnyActionLetThrough), _) => true,
        (Some(Mutation::HighActionBitIgnored), action) => {
            [IN_RANGE, OF_ANY_NUMBER].contains(&(action & 0x0F))
        }
        _ => false,
    }
}

fn action(call: &Call) -> u8 {
    call.block[5] & 0x1F
}

/// "The SEND VOLUME TAG command .. transfers a volume tag template to be used for a search"
pub(crate) fn send(library: &mut Library, call: &Call) -> Outcome {
    let list = call.parameters;
    let old = library.search;
    if call.broken_by(Mutation::RefusalEndsSearch) {
        library.search = None;
    }
    if call.broken_by(Mutation::ReservedBytesBeforeLength) {
        judge_reserved(call)?;
    }
    let right = match call.rules.mutation {
        Some(Mutation::ShorterListLetThrough) => list.len() <= LIST,
        Some(Mutation::LongerListLetThrough) => list.len() >= LIST,
        _ => list.len() == LIST,
    };
    if !right {
        return Err(match call.broken_by(Mutation::ListLengthIsAWrongField) {
            true => INVALID_FIELD,
            false => LIST_LENGTH,
        });
    }
    judge_reserved(call)?;
    let start = two(call.block, 2);
    let from_an_element = call.broken_by(Mutation::SearchFromAnElementOnly);
    if from_an_element && library.kind_at(start).is_none() {
        return Err(WRONG_ADDRESS);
    }
    if !call.broken_by(Mutation::SearchNotKept) {
        library.search = Some(sent(call, old));
    }
    Ok(Vec::new())
}

fn judge_reserved(call: &Call) -> Result<(), Unsuccessful> {
    let judged: &[usize] = match call.rules.mutation {
        Some(Mutation::FirstReservedBytesUnjudged) => &[36, 37],
        Some(Mutation::SecondReservedBytesUnjudged) => &[32, 33],
        Some(Mutation::HighReservedBytesAloneJudged) => &[32, 36],
        _ => &[32, 33, 36, 37],
    };
    let set = |at: &usize| call.parameters.get(*at).is_some_and(|&byte| byte != 0);
    match judged.iter().any(set) {
        true => Err(LIST_RESERVED),
        false => Ok(()),
    }
}

/// "A new search replaces it".
fn sent(call: &Call, old: Option<Search>) -> Search {
    let mut list = call.parameters.to_vec();
    list.resize(LIST, 0);
    let mut template = [0; TEMPLATE];
    template.copy_from_slice(&list[..TEMPLATE]);
    if call.broken_by(Mutation::TemplateCutAtItsStar) {
        let used = template.iter().position(|&byte| byte == b'*');
        template[used.map_or(TEMPLATE, |star| star + 1)..].fill(0);
    }
    let (least, greatest) = (two(&list, LEAST), two(&list, GREATEST));
    let unused = call.broken_by(Mutation::UnusedRangeNotKept) && action(call) == OF_ANY_NUMBER;
    let start = u32::from(two(call.block, 2));
    let next = match (call.rules.mutation, old) {
        (Some(Mutation::NewSearchGoesOn), Some(old)) => old.next,
        (Some(Mutation::NewSearchFromTheStart), _) => 0,
        _ => start,
    };
    Search {
        template,
        kind: call.block[1] & 0x0F,
        action: action(call),
        least: if unused { 0 } else { least },
        greatest: if unused { 0 } else { greatest },
        next,
    }
}

/// "is used to transfer the results of a SEND VOLUME TAG command"
pub(crate) fn request(library: &mut Library, call: &Call) -> Outcome {
    let search = library.search;
    if search.is_none() && call.broken_by(Mutation::NoSearchIsRefused) {
        return Err(INVALID_FIELD);
    }
    let code = match (search, call.rules.mutation) {
        (_, Some(Mutation::ActionNotTold)) => 0,
        (None, Some(Mutation::ActionToldWithoutASearch)) => IN_RANGE,
        (None, _) => 0,
        (Some(search), _) => search.action,
    };
    let none_finds_all = call.broken_by(Mutation::NoSearchFindsAll);
    let listing = element_status::list(library, call, code, |address, element| match search {
        Some(search) => search.may_tell(address, element, call),
        None => none_finds_all && element.is_full(),
    });
    if let Some(search) = search {
        library.search = told(search, &listing, call);
    }
    Ok(listing.bytes)
}

/// "only descriptors returned whole count as told, and no address is told twice in one search"
fn told(search: Search, listing: &Listing, call: &Call) -> Option<Search> {
    let counted = match call.rules.mutation {
        Some(Mutation::CutCountedAsTold) => listing.chosen.last(),
        Some(Mutation::FirstAloneCountedAsTold) => listing.whole.first(),
        Some(Mutation::FirstChosenCountedAsTold) => listing.whole.last().or(listing.chosen.first()),
        Some(Mutation::ToldTwice) => None,
        _ => listing.whole.last(),
    };
    let all_told = listing.whole.len() == listing.chosen.len();
    let next = match (counted, call.rules.mutation) {
        (Some(&last), Some(Mutation::LastToldAgain)) => last.into(),
        (Some(&last), Some(Mutation::NextCutToTwoBytes)) => last.wrapping_add(1).into(),
        (Some(&last), _) => u32::from(last) + 1,
        (None, Some(Mutation::NothingFoundEndsSearch)) if all_told => BEHIND_ALL,
        (None, Some(Mutation::StartBecomesNext)) => search.next.max(two(call.block, 2).into()),
        (None, _) => search.next,
    };
    let over = call.broken_by(Mutation::AllToldEndsSearch) && all_told;
    (!over).then_some(Search { next, ..search })
}
