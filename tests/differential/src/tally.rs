//! Which outcomes a run has reached, how often, and which it must reach to count.

mod arms;
mod cartridges;
mod mode;
mod panel;
mod replay;
mod searches;
mod shelves;

use std::collections::BTreeMap;
use std::fmt;

use reference::library::Kind;
use reference::{check, Clause, Entry, TableBytes};

use crate::call::Call;
use crate::compare::Made;
use crate::generate::calls::COMMANDS;
use crate::generate::logs::LineFault;

pub use arms::{Besides, Holder, Named, Which};
pub use cartridges::{Earlier, Legs, Unfit};
pub use mode::{ModeCut, ModeFault};
pub use panel::{Change, Wrong};
pub use replay::{line_outcomes, Given, Lines, Stop};
pub use searches::{Begun, Held, Matched, NoSearch, PassedOver, Telling, WrongList};
pub use shelves::{Had, Second, PLACES};

/// "512 elements in four pages, with tags"
const LARGEST_LISTING: u32 = 26_664;

#[derive(Clone, Copy, Debug, PartialEq, Eq, PartialOrd, Ord)]
pub enum Event {
    Import,
    Export,
    Reset,
}

/// A command by its first byte, or an unknown one by the top three bits of it.
#[derive(Clone, Copy, Debug, PartialEq, Eq, PartialOrd, Ord)]
pub enum First {
    Known(u8),
    UnknownOfGroup(u8),
}

impl First {
    fn of(block: &[u8]) -> Option<First> {
        let &first = block.first()?;
        Some(match COMMANDS.contains(&first) {
            true => First::Known(first),
            false => First::UnknownOfGroup(first >> 5),
        })
    }
}

/// How much of a listing was returned.
#[derive(Clone, Copy, Debug, PartialEq, Eq, PartialOrd, Ord)]
pub enum Cut {
    Nothing,
    PartOfHeader,
    NothingChosen,
    HeaderAlone,
    WithinPage,
    BetweenPages,
    RoomForPageHeaderOnly,
    WholeExactly,
    WholeWithRoom,
}

/// What REQUEST SENSE told.
#[derive(Clone, Copy, Debug, PartialEq, Eq, PartialOrd, Ord)]
pub enum Told {
    Sense,
    SenseWhileAttentionWaits,
    Attention,
    Nothing,
}

/// How many of the 18 bytes REQUEST SENSE returned.
#[derive(Clone, Copy, Debug, PartialEq, Eq, PartialOrd, Ord)]
pub enum SenseCut {
    None,
    Part,
    Exactly,
    WithRoom,
}

/// The answer buffer beside the bytes returned.
#[derive(Clone, Copy, Debug, PartialEq, Eq, PartialOrd, Ord)]
pub enum Buffer {
    Equal,
    Longer,
}

/// A lent slice.
#[derive(Clone, Copy, Debug, PartialEq, Eq, PartialOrd, Ord)]
pub enum Slice {
    Head,
    Elements,
    Tags,
    Blank,
    Generations,
    Masks,
    Search,
    Block,
    Parameters,
    Answer,
    Log,
}

/// How many bytes a length needs.
#[derive(Clone, Copy, Debug, PartialEq, Eq, PartialOrd, Ord)]
pub enum Above {
    OneByte,
    TwoBytes,
}

#[derive(Clone, Copy, Debug, PartialEq, Eq, PartialOrd, Ord)]
pub enum Outcome {
    Entered(Entry),
    CommandNumber(u8),
    NumberOf(First, u8),
    EventNumber(Event, u8),
    Good(First),
    Conflict(First),
    Check(First, [u8; 3]),
    Broken(Clause),
    Listing(Cut),
    Sense(Told, SenseCut),
    /// GOOD, by page.
    Mode(u8, ModeCut),
    ModeRefused(ModeFault),
    Buffer(Buffer),
    Preventers(u8),
    Lowest(u8),
    /// The slice's length, which is not the right one when cut to so many bytes, and the house number.
    Long(Slice, Above, u8),
    /// All 512 elements with tags: 26,664 bytes.
    LargestListing,
    /// GOOD: from which kind of place, and to which.
    Moved(Kind, Had, Kind),
    /// GOOD: the kinds of source and first destination, and which place the second is.
    Exchanged((Kind, Had), (Kind, Had), Second),
    /// House number 1: the kind of the element that stands as a source, none for no element's address.
    WrongSource(Option<Kind>),
    /// GOOD: the kind of the source, and of a second destination that is not the source.
    ExchangedTo(Kind, Kind),
    /// GOOD: the number of empty shelves after the call.
    EmptyShelves(First, Change),
    /// The same, where the high byte of the number changed.
    EmptyShelvesPast255(First, Change),
    /// House number 1: how the number of empty shelves is wrong.
    WrongEmptyShelves(Wrong),
    /// GOOD: a volume of this generation came to a drive.
    Loaded(u8),
    /// 5/30/12: a volume of this generation did not.
    Refused(u8),
    NotTaken(First, Legs),
    /// 5/30/12 by a drive that takes nothing.
    TakesNothing,
    /// 5/30/12, and another drive takes the volume.
    AnotherWouldTake,
    /// A drive would not have taken a volume, and the command ended before that was judged.
    Untold(First, Earlier),
    /// House number 0 of an import, and no drive takes the volume.
    ImportedForNoDrive,
    /// House number 1: how generations and masks are not sound.
    Unfit(Unfit),
    /// GOOD by transport 0: the arm that it came to.
    ArmUsed(First, Which, Holder),
    /// 18h at step 6 by transport 0, with so many arms, three standing for more: other hosts hold them all.
    NoArm(First, u8, Besides),
    /// 5/21/01 although other hosts hold them all.
    NoArmUntold(First),
    NamedArm(First, Named),
    /// An applied line with transport 0, where another host holds the lowest: whether another arm was free.
    LineByALaterArm(First, bool),
    /// An applied line that ended in 5/30/12.
    LineNotTaken(First),
    /// How much of what a search found was returned.
    Found(Cut),
    /// GOOD of a request, by the action of the search.
    Requested(u8),
    FoundWithoutASearch,
    /// An element of this kind was chosen of a search, and why.
    FoundIn(Kind),
    Matched(Matched),
    /// One was not, for this alone.
    PassedOver(PassedOver),
    Told(Telling),
    /// GOOD: by this action.
    Sent(u8, Begun),
    /// 5/24/00 for this action alone.
    WrongAction(u8),
    WrongList(WrongList),
    /// The sense of a SEND VOLUME TAG that was refused over a search.
    SearchKept([u8; 3]),
    /// 18h of a command of a search, or GOOD where the host itself holds something.
    HeldInASearch(First, Held),
    ResetEndsSearch,
    /// House number 1: how the search is not sound.
    NoSearch(NoSearch),
    /// An applied line behind which the search is another.
    LineSearches(First),
    /// GOOD, with the last of 127 transports named.
    LastOfMostTransports(First),
    /// Why a replay stopped, and how many lines it had applied.
    Replay(Stop, Lines),
    /// The same by the number that was expected first.
    ReplayFrom(Given, Stop),
    /// Number 1 of a replay that has no line to look at: by its budget, by its log.
    ReplayNotSound {
        budget: bool,
        log: bool,
    },
    /// A replay that goes on where one stopped.
    WentOn(Stop),
    /// Number 10 at a line with this fault.
    LineAtFault(LineFault),
    /// An applied line, by the house number of its call.
    LineNumber(u8),
    /// An applied line, by status: a command with house number 0.
    LineStatus(First, u8),
    /// An applied line whose answer is not kept.
    LineAnswered(First),
    LineEvent(Event, u8),
    /// An applied line of 512 bytes.
    LongestLine,
}

impl fmt::Display for First {
    fn fmt(&self, out: &mut fmt::Formatter) -> fmt::Result {
        match self {
            First::Known(first) => write!(out, "{first:02X}h"),
            First::UnknownOfGroup(group) => write!(out, "unknown, group {group}"),
        }
    }
}

impl fmt::Display for Outcome {
    fn fmt(&self, out: &mut fmt::Formatter) -> fmt::Result {
        let text = match self {
            Outcome::Entered(entry) => format!("entry {entry:?}"),
            Outcome::CommandNumber(number) => format!("command, house number {number}"),
            Outcome::NumberOf(first, number) => format!("{first}: house number {number}"),
            Outcome::EventNumber(event, number) => format!("{event:?}, house number {number}"),
            Outcome::Good(first) => format!("{first}: GOOD"),
            Outcome::Conflict(first) => format!("{first}: RESERVATION CONFLICT"),
            Outcome::Check(first, [key, asc, ascq]) => {
                format!("{first}: {key:X}/{asc:02X}/{ascq:02X}")
            }
            Outcome::Broken(clause) => format!("not sound: {clause}"),
            Outcome::Listing(cut) => format!("listing: {cut:?}"),
            Outcome::Sense(told, cut) => format!("REQUEST SENSE: {told:?}, {cut:?}"),
            Outcome::Mode(page, cut) => format!("MODE SENSE {page:02X}h: {cut:?}"),
            Outcome::ModeRefused(fault) => format!("MODE SENSE, refused: {fault:02X?}"),
            Outcome::Buffer(buffer) => format!("buffer: {buffer:?}"),
            Outcome::Preventers(hosts) => format!("number 7, preventers {hosts}"),
            Outcome::Lowest(host) => format!("number 7, lowest {host}"),
            Outcome::Long(slice, above, number) => {
                format!("{slice:?} above {above:?}, house number {number}")
            }
            Outcome::Moved(from, had, to) => format!("A5h: {from:?} to {to:?}, {had:?}"),
            Outcome::Exchanged((source, of_source), (first, of_first), second) => {
                format!("A6h: {source:?} {of_source:?}, {first:?} {of_first:?}, second {second:?}")
            }
            Outcome::WrongSource(kind) => match kind {
                Some(kind) => format!("not sound: source is of kind {kind:?}"),
                None => "not sound: source is no element".into(),
            },
            Outcome::ExchangedTo(source, second) => format!("A6h: {source:?}, second {second:?}"),
            Outcome::EmptyShelves(first, change) => format!("{first}: empty shelves {change:?}"),
            Outcome::EmptyShelvesPast255(first, change) => {
                format!("{first}: empty shelves {change:?}, in the high byte too")
            }
            Outcome::WrongEmptyShelves(wrong) => format!("not sound: empty shelves {wrong:?}"),
            Outcome::Loaded(generation) => format!("drive takes generation {generation}"),
            Outcome::Refused(generation) => format!("drive refuses generation {generation}"),
            Outcome::NotTaken(first, legs) => format!("{first}: not taken, {legs:?}"),
            Outcome::TakesNothing => "refused by a drive that takes nothing".into(),
            Outcome::AnotherWouldTake => "refused, and another drive takes it".into(),
            Outcome::Untold(first, earlier) => format!("{first}: {earlier:?} before 5/30/12"),
            Outcome::ImportedForNoDrive => "Import of what no drive takes".into(),
            Outcome::Unfit(unfit) => format!("not sound: {unfit:?}"),
            Outcome::ArmUsed(first, which, holder) => {
                format!("{first}: any arm, {which:?}, held by {holder:?}")
            }
            Outcome::NoArm(first, arms, besides) => {
                format!("{first}: none of {arms} arms, besides {besides:?}")
            }
            Outcome::NoArmUntold(first) => format!("{first}: 5/21/01 before no free arm"),
            Outcome::NamedArm(first, named) => format!("{first}: named arm, {named:?}"),
            Outcome::LineByALaterArm(first, free) => {
                format!("line, {first}: first arm held, another free {free}")
            }
            Outcome::LineNotTaken(first) => format!("line, {first}: 5/30/12"),
            Outcome::LargestListing => "listing of 26,664 bytes".into(),
            Outcome::Found(cut) => format!("B5h: {cut:?}"),
            Outcome::Requested(action) => format!("B5h: GOOD, action {action:X}h"),
            Outcome::FoundWithoutASearch => "B5h: GOOD, no search".into(),
            Outcome::FoundIn(kind) => format!("B5h: chosen, {kind:?}"),
            Outcome::Matched(matched) => format!("B5h: matched, {matched:?}"),
            Outcome::PassedOver(why) => format!("B5h: passed over, {why:?}"),
            Outcome::Told(told) => format!("B5h: told, {told:?}"),
            Outcome::Sent(action, begun) => format!("B6h: GOOD, action {action:X}h, {begun:?}"),
            Outcome::WrongAction(action) => format!("B6h: 5/24/00, action {action:02X}h"),
            Outcome::WrongList(wrong) => format!("B6h: wrong list, {wrong:?}"),
            Outcome::SearchKept([key, asc, ascq]) => {
                format!("B6h: {key:X}/{asc:02X}/{ascq:02X} over a search")
            }
            Outcome::HeldInASearch(first, held) => format!("{first}: held {held:?}"),
            Outcome::ResetEndsSearch => "Reset ends a search".into(),
            Outcome::NoSearch(how) => format!("not sound: search {how:?}"),
            Outcome::LineSearches(first) => format!("line, {first}: another search"),
            Outcome::LastOfMostTransports(first) => {
                format!("{first}: GOOD by the last of 127 transports")
            }
            Outcome::Replay(stop, lines) => format!("replay: {stop:?}, lines {lines:?}"),
            Outcome::ReplayFrom(given, stop) => format!("replay from {given:?}: {stop:?}"),
            Outcome::ReplayNotSound { budget, log } => {
                format!("replay, number 1: budget {budget}, log {log}")
            }
            Outcome::WentOn(stop) => format!("replay goes on after {stop:?}"),
            Outcome::LineAtFault(fault) => format!("line, number 10: {fault:?}"),
            Outcome::LineNumber(number) => format!("line, house number {number}"),
            Outcome::LineStatus(first, status) => format!("line, {first}: status {status:02X}h"),
            Outcome::LineAnswered(first) => format!("line, {first}: its answer not kept"),
            Outcome::LineEvent(event, number) => format!("line, {event:?}, house number {number}"),
            Outcome::LongestLine => "line of 512 bytes".into(),
        };
        out.pad(&text)
    }
}

#[derive(Clone, Debug, Default)]
pub struct Tally {
    reached: BTreeMap<Outcome, usize>,
}

impl Tally {
    pub fn count(&mut self, before: &TableBytes, call: &Call, made: &Made) {
        for outcome in outcomes(before, call, made) {
            self.reach(outcome);
        }
    }

    pub fn reach(&mut self, outcome: Outcome) {
        *self.reached.entry(outcome).or_default() += 1;
    }

    pub fn times(&self, outcome: Outcome) -> usize {
        self.reached.get(&outcome).copied().unwrap_or(0)
    }

    /// The required outcomes that were never reached.
    pub fn missing(&self) -> Vec<Outcome> {
        let never = |outcome: &Outcome| self.times(*outcome) == 0;
        required().into_iter().filter(never).collect()
    }
}

impl fmt::Display for Tally {
    fn fmt(&self, out: &mut fmt::Formatter) -> fmt::Result {
        for (outcome, times) in &self.reached {
            writeln!(out, "  {outcome:<60} {times:>8}")?;
        }
        Ok(())
    }
}

fn outcomes(before: &TableBytes, call: &Call, made: &Made) -> Vec<Outcome> {
    let mut reached = Vec::new();
    let reply = made.reply();
    let number = reply.number;
    match call {
        Call::Command {
            entry, host, block, ..
        } => {
            reached.push(Outcome::Entered(*entry));
            reached.push(Outcome::CommandNumber(number));
            if let Some(first) = First::of(block) {
                let list = call.lent().parameters;
                reached.extend(command_outcomes(before, *host, first, (block, list), made));
            }
        }
        Call::Import { volume, .. } => {
            reached.push(Outcome::EventNumber(Event::Import, number));
            if number == 0 {
                reached.extend(cartridges::imported(before, *volume));
            }
        }
        Call::Export { .. } => reached.push(Outcome::EventNumber(Event::Export, number)),
        Call::Reset => {
            reached.push(Outcome::EventNumber(Event::Reset, number));
            if number == 0 {
                reached.extend(searches::reset(before));
            }
        }
        Call::Replay {
            log,
            expected,
            budget,
        } => reached.extend(replay::outcomes(log, (*expected, *budget), made)),
    }
    reached.extend(long_slices(before, call, made));
    if made.ending.number() == 1 {
        let broken = check(&before.clone().lend()).err();
        reached.extend(broken.map(Outcome::Broken));
        if broken == Some(Clause::SourceAddress) {
            reached.extend(shelves::wrong_source(before));
        }
        if let Some(clause) = broken {
            reached.extend(cartridges::unfit(before, clause));
            reached.extend(searches::no_search(before, clause));
        }
        if broken == Some(Clause::EmptyShelves) {
            reached.push(panel::wrong(before));
        }
    }
    if number == 7 {
        reached.push(Outcome::Preventers(reply.preventers));
        reached.push(Outcome::Lowest(reply.lowest));
    }
    reached
}

fn command_outcomes(
    before: &TableBytes,
    host: u32,
    first: First,
    (block, list): (&[u8], &[u8]),
    made: &Made,
) -> Vec<Outcome> {
    let reply = made.reply();
    if reply.number != 0 {
        return vec![Outcome::NumberOf(first, reply.number)];
    }
    let record = 18 + 5 * (host as usize - 1);
    let untold = |earlier: Earlier| {
        let untold = cartridges::untold(before, first, block, earlier);
        Vec::from_iter(untold)
    };
    match (reply.status, first) {
        (0x18, _) => {
            let mut reached = untold(Earlier::Conflict);
            reached.push(Outcome::Conflict(first));
            reached.extend(arms::conflict(before, host, first, block));
            reached.extend(searches::held(before, host, first, true));
            reached
        }
        (0x02, _) => {
            let sense = &made.head()[record..record + 3];
            let mut reached = vec![Outcome::Check(first, [sense[0], sense[1], sense[2]])];
            if first == First::Known(0x1A) && *sense == [5, 0x24, 0x00] {
                reached.extend(mode::fault(before, block));
            }
            if first == First::Known(0xB6) {
                let sense = [sense[0], sense[1], sense[2]];
                reached.extend(searches::refused(before, block, list, sense));
            }
            reached.extend(match *sense {
                [5, 0x21, 0x01] => Vec::from_iter(arms::untold(before, host, first, block)),
                [5, 0x30, 0x12] => cartridges::not_taken(before, first, block),
                [5, 0x3B, 0x0E] => untold(Earlier::Empty),
                [5, 0x3B, 0x0D] => untold(Earlier::Full),
                _ => Vec::new(),
            });
            reached
        }
        (_, First::Known(0x03)) => {
            let told = told(&before.head[record..record + 5]);
            let sense = Outcome::Sense(told, sense_cut(block[4]));
            vec![Outcome::Good(first), sense, buffer(made)]
        }
        (_, First::Known(0xB8)) => {
            let listing = Outcome::Listing(cut(three(&block[7..]), made));
            let mut reached = vec![Outcome::Good(first), listing, buffer(made)];
            if reply.count == LARGEST_LISTING {
                reached.push(Outcome::LargestListing);
            }
            reached
        }
        (_, First::Known(0xB5)) => {
            let found = Outcome::Found(cut(three(&block[7..]) >> 8, made));
            let mut reached = vec![Outcome::Good(first), found, buffer(made)];
            reached.extend(searches::requested(before, block, made));
            reached.extend(searches::held(before, host, first, false));
            reached
        }
        (_, First::Known(0xB6)) => {
            let mut reached = vec![Outcome::Good(first), searches::sent(before, block)];
            reached.extend(searches::held(before, host, first, false));
            reached
        }
        (_, First::Known(0x1A)) => {
            let mut reached = vec![Outcome::Good(first), buffer(made)];
            reached.extend(mode::cut(before, block));
            reached
        }
        (_, First::Known(0xA5 | 0xA6)) => {
            let mut reached = vec![Outcome::Good(first)];
            reached.extend(match first {
                First::Known(0xA5) => shelves::moved(before, block),
                _ => shelves::exchanged(before, block),
            });
            reached.extend(panel::second(before, first, block));
            reached.extend(panel::changes(before, first, made));
            reached.extend(cartridges::loaded(before, first, block));
            reached.extend(arms::used(before, host, first, block));
            if names_last_of_most_transports(before, block) {
                reached.push(Outcome::LastOfMostTransports(first));
            }
            reached
        }
        _ => vec![Outcome::Good(first)],
    }
}

fn names_last_of_most_transports(before: &TableBytes, block: &[u8]) -> bool {
    let two = |bytes: &[u8]| u32::from(u16::from_be_bytes([bytes[0], bytes[1]]));
    let (first, count) = (two(&before.head[..2]), two(&before.head[2..4]));
    count == 127 && two(&block[2..4]) == first + 126
}

/// The answer buffer counts where bytes were returned that would have no room if its length were cut.
fn long_slices(before: &TableBytes, call: &Call, made: &Made) -> Vec<Outcome> {
    let lent = call.lent();
    let answer = call.answer().len();
    let needed = made.reply().count as usize > answer % 65_536;
    let lengths = [
        (Slice::Head, before.head.len()),
        (Slice::Elements, before.elements.len()),
        (Slice::Tags, before.tags.len()),
        (Slice::Blank, before.blank.len()),
        (Slice::Generations, before.generations.len()),
        (Slice::Masks, before.masks.len()),
        (Slice::Search, before.search.len()),
        (Slice::Block, lent.block.len()),
        (Slice::Parameters, lent.parameters.len()),
        (Slice::Log, lent.log.len()),
        (Slice::Answer, if needed { answer } else { 0 }),
    ];
    let long = |(slice, length): (Slice, usize)| {
        let above = match (slice, length) {
            (_, 65_536..) => Above::TwoBytes,
            (Slice::Head | Slice::Blank | Slice::Search | Slice::Block, 256..) => Above::OneByte,
            _ => return None,
        };
        let number = made.ending.number() as u8;
        Some(Outcome::Long(slice, above, number))
    };
    lengths.into_iter().filter_map(long).collect()
}

fn buffer(made: &Made) -> Outcome {
    Outcome::Buffer(match made.answer().len() == made.reply().count as usize {
        true => Buffer::Equal,
        false => Buffer::Longer,
    })
}

fn told(record: &[u8]) -> Told {
    match (record[0] != 0, record[3] != 0) {
        (true, false) => Told::Sense,
        (true, true) => Told::SenseWhileAttentionWaits,
        (false, true) => Told::Attention,
        (false, false) => Told::Nothing,
    }
}

fn sense_cut(allocation: u8) -> SenseCut {
    match allocation {
        0 => SenseCut::None,
        1..=17 => SenseCut::Part,
        18 => SenseCut::Exactly,
        _ => SenseCut::WithRoom,
    }
}

fn three(bytes: &[u8]) -> usize {
    bytes[..3]
        .iter()
        .fold(0, |sum, &byte| sum << 8 | usize::from(byte))
}

fn cut(allocation: usize, made: &Made) -> Cut {
    let returned = &made.answer()[..made.reply().count as usize];
    if returned.len() < 8 {
        return if returned.is_empty() {
            Cut::Nothing
        } else {
            Cut::PartOfHeader
        };
    }
    let whole = 8 + three(&returned[5..]);
    match returned.len() {
        8 if whole == 8 => Cut::NothingChosen,
        8 => Cut::HeaderAlone,
        count if count == whole && allocation == whole => Cut::WholeExactly,
        count if count == whole => Cut::WholeWithRoom,
        _ if !ends_with_a_page(returned) => Cut::WithinPage,
        count if allocation >= count + 8 => Cut::RoomForPageHeaderOnly,
        _ => Cut::BetweenPages,
    }
}

fn ends_with_a_page(returned: &[u8]) -> bool {
    let mut page = 8;
    while page < returned.len() {
        page += 8 + three(&returned[page + 5..]);
    }
    page == returned.len()
}

/// The outcomes without which a run has not tried the rules.
pub fn required() -> Vec<Outcome> {
    let mut required = Vec::new();
    required.extend(Entry::ALL.map(Outcome::Entered));
    required.extend((0..=5).map(Outcome::CommandNumber));
    required.extend(required_numbers());
    for first in COMMANDS {
        required.extend(required_statuses(first));
    }
    for group in 0..8 {
        let unknown = First::UnknownOfGroup(group);
        required.push(Outcome::Check(unknown, [5, 0x20, 0x00]));
    }
    required.extend(Clause::ALL.map(Outcome::Broken));
    required.extend(required_listings());
    required.extend(mode::required());
    required.extend(shelves::required());
    required.extend(panel::required());
    required.extend(cartridges::required());
    required.extend(arms::required());
    required.extend(searches::required());
    required.extend(replay::required());
    required.extend((1..=8).map(Outcome::Preventers));
    required.extend((1..=8).map(Outcome::Lowest));
    required.extend(required_lengths());
    required.push(Outcome::LargestListing);
    required.extend([0xA5, 0xA6].map(|first| Outcome::LastOfMostTransports(First::Known(first))));
    required
}

fn required_lengths() -> Vec<Outcome> {
    let mut required = vec![
        Outcome::Long(Slice::Elements, Above::TwoBytes, 1),
        Outcome::Long(Slice::Tags, Above::TwoBytes, 1),
        Outcome::Long(Slice::Generations, Above::TwoBytes, 1),
        Outcome::Long(Slice::Masks, Above::TwoBytes, 1),
        Outcome::Long(Slice::Parameters, Above::TwoBytes, 0),
        Outcome::Long(Slice::Parameters, Above::TwoBytes, 4),
        Outcome::Long(Slice::Answer, Above::TwoBytes, 0),
        Outcome::Long(Slice::Log, Above::TwoBytes, 0),
        Outcome::Long(Slice::Log, Above::TwoBytes, 10),
    ];
    for above in [Above::OneByte, Above::TwoBytes] {
        required.push(Outcome::Long(Slice::Head, above, 1));
        required.push(Outcome::Long(Slice::Blank, above, 1));
        required.push(Outcome::Long(Slice::Search, above, 1));
        required.push(Outcome::Long(Slice::Block, above, 0));
        required.push(Outcome::Long(Slice::Block, above, 3));
    }
    required
}

fn required_numbers() -> Vec<Outcome> {
    let mut required = Vec::new();
    for number in [1, 2, 3, 4] {
        required.extend(COMMANDS.map(|first| Outcome::NumberOf(First::Known(first), number)));
    }
    for group in [0, 1, 2, 4, 5] {
        required.push(Outcome::NumberOf(First::UnknownOfGroup(group), 3));
    }
    for first in [0x03, 0xB8, 0x1A, 0xB5] {
        required.push(Outcome::NumberOf(First::Known(first), 5));
    }
    for number in [0, 1, 6, 7, 8, 9] {
        required.push(Outcome::EventNumber(Event::Import, number));
    }
    for number in [0, 1, 6, 7, 8] {
        required.push(Outcome::EventNumber(Event::Export, number));
    }
    for number in [0, 1] {
        required.push(Outcome::EventNumber(Event::Reset, number));
    }
    required
}

fn required_statuses(first: u8) -> Vec<Outcome> {
    let known = First::Known(first);
    let senses: &[[u8; 3]] = match first {
        0x16 => &[[5, 0x1A, 0x00], [5, 0x26, 0x00], [5, 0x21, 0x01]],
        0xB6 => &[[5, 0x1A, 0x00], [5, 0x26, 0x00]],
        0xA5 | 0xA6 => &[
            [5, 0x21, 0x01],
            [5, 0x3B, 0x0E],
            [5, 0x3B, 0x0D],
            [5, 0x30, 0x12],
        ],
        _ => &[],
    };
    let check = |sense: &[u8; 3]| Outcome::Check(known, *sense);
    let mut required: Vec<Outcome> = senses.iter().map(check).collect();
    required.push(Outcome::Good(known));
    required.push(check(&[5, 0x24, 0x00]));
    if first != 0x03 {
        required.push(check(&[6, 0x28, 0x01]));
        required.push(check(&[6, 0x29, 0x00]));
    }
    if first != 0x03 && first != 0x17 {
        required.push(Outcome::Conflict(known));
    }
    required
}

fn required_listings() -> Vec<Outcome> {
    let cuts = [
        Cut::Nothing,
        Cut::PartOfHeader,
        Cut::NothingChosen,
        Cut::HeaderAlone,
        Cut::WithinPage,
        Cut::BetweenPages,
        Cut::RoomForPageHeaderOnly,
        Cut::WholeExactly,
        Cut::WholeWithRoom,
    ];
    let mut required = cuts.map(Outcome::Listing).to_vec();
    required.extend(cuts.map(Outcome::Found));
    for told in [
        Told::Sense,
        Told::SenseWhileAttentionWaits,
        Told::Attention,
        Told::Nothing,
    ] {
        for cut in [
            SenseCut::None,
            SenseCut::Part,
            SenseCut::Exactly,
            SenseCut::WithRoom,
        ] {
            required.push(Outcome::Sense(told, cut));
        }
    }
    required.push(Outcome::Buffer(Buffer::Equal));
    required.push(Outcome::Buffer(Buffer::Longer));
    required
}
