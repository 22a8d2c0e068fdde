//! "Sound tables", clause by clause. A later clause is judged only where the earlier ones hold.

use std::fmt;

use crate::cartridges::Cartridges;
use crate::interface::Tables;
use crate::library::{Kind, Labels};
use crate::panel;
use crate::records::{
    read_ranges, AddressRange, ElementRecord, Records, ELEMENT_LENGTH, HEAD_LENGTH, SEARCH_LENGTH,
};
use crate::rules::{Mutation, Rules};
use crate::search::Search;

const MOST_ELEMENTS: u32 = 512;
const MOST_TRANSPORTS: u32 = 127;
const MOST_VOLUMES: usize = 512;
const MOST_GENERATION: u8 = 8;
const MOST_HOSTS: u8 = 8;
const LAST_ADDRESS: u32 = 65_535;

#[derive(Clone, Copy, Debug, PartialEq, Eq, PartialOrd, Ord)]
pub enum Clause {
    HeadLength,
    BlankLength,
    TagsLength,
    TagCount,
    GenerationsLength,
    GenerationNumber,
    SearchLength,
    SearchAction,
    SearchType,
    SearchNext,
    EmptyRangeFirst,
    RangeWithin,
    RangeOverlap,
    ElementCount,
    TransportCount,
    NoShelf,
    ElementsLength,
    MasksLength,
    VolumeNumber,
    VolumeTwice,
    ZeroByte,
    TransportFull,
    SourceAddress,
    SourceWhereEmpty,
    MarkPlace,
    DriveTakes,
    HolderNumber,
    IdWithoutHolder,
    UnitHolder,
    UnitHeldAlone,
    SenseKey,
    CodesWithoutKey,
    AttentionCodes,
    EmptyShelves,
}

impl Clause {
    /// In the order of judging.
    pub const ALL: [Clause; 34] = [
        Clause::HeadLength,
        Clause::BlankLength,
        Clause::TagsLength,
        Clause::TagCount,
        Clause::GenerationsLength,
        Clause::GenerationNumber,
        Clause::SearchLength,
        Clause::SearchAction,
        Clause::SearchType,
        Clause::SearchNext,
        Clause::EmptyRangeFirst,
        Clause::RangeWithin,
        Clause::RangeOverlap,
        Clause::ElementCount,
        Clause::TransportCount,
        Clause::NoShelf,
        Clause::ElementsLength,
        Clause::MasksLength,
        Clause::VolumeNumber,
        Clause::VolumeTwice,
        Clause::ZeroByte,
        Clause::TransportFull,
        Clause::SourceAddress,
        Clause::SourceWhereEmpty,
        Clause::MarkPlace,
        Clause::DriveTakes,
        Clause::HolderNumber,
        Clause::IdWithoutHolder,
        Clause::UnitHolder,
        Clause::UnitHeldAlone,
        Clause::SenseKey,
        Clause::CodesWithoutKey,
        Clause::AttentionCodes,
        Clause::EmptyShelves,
    ];

    /// As `include/smc_explain.h` writes it: HEAD_LENGTH.
    pub fn name(self) -> String {
        let mut name = String::new();
        for letter in format!("{self:?}").chars() {
            if letter.is_uppercase() && !name.is_empty() {
                name.push('_');
            }
            name.push(letter.to_ascii_uppercase());
        }
        name
    }

    /// The table whose length it fixes, whatever the others hold.
    pub fn length_of(self) -> Option<&'static str> {
        match self {
            Clause::HeadLength => Some("head"),
            Clause::ElementsLength => Some("elements"),
            Clause::BlankLength => Some("blank"),
            Clause::SearchLength => Some("search"),
            _ => None,
        }
    }

    fn words(self) -> &'static str {
        match self {
            Clause::HeadLength => "head of 60 bytes",
            Clause::BlankLength => "blank label of 36 bytes",
            Clause::TagsLength => "tags of whole labels",
            Clause::TagCount => "V at most 512",
            Clause::GenerationsLength => "a generation for each volume",
            Clause::GenerationNumber => "each generation 1 to 8",
            Clause::SearchLength => "search of 41 bytes",
            Clause::SearchAction => "no search, or action 1h or 5h",
            Clause::SearchType => "search for a type at most 4",
            Clause::SearchNext => "next address at most 10000h",
            Clause::EmptyRangeFirst => "a count of 0 has first address 0",
            Clause::RangeWithin => "each range within 1 to 65,535",
            Clause::RangeOverlap => "no overlap",
            Clause::ElementCount => "1 to 512 elements",
            Clause::TransportCount => "1 to 127 transports",
            Clause::NoShelf => "a storage or import/export element",
            Clause::ElementsLength => "8 bytes for each element",
            Clause::MasksLength => "a mask for each drive",
            Clause::VolumeNumber => "volume number at most V",
            Clause::VolumeTwice => "a volume stands at most once",
            Clause::ZeroByte => "the zero byte 0",
            Clause::TransportFull => "transports are empty",
            Clause::SourceAddress => "a source is a storage address",
            Clause::SourceWhereEmpty => "source 0 where empty",
            Clause::MarkPlace => "mark only on a full import/export",
            Clause::DriveTakes => "a full drive takes its volume's generation",
            Clause::HolderNumber => "holder at most 8",
            Clause::IdWithoutHolder => "id 0 where there is no holder",
            Clause::UnitHolder => "unit holder at most 8",
            Clause::UnitHeldAlone => "unit held: no other host holds",
            Clause::SenseKey => "sense key at most 15",
            Clause::CodesWithoutKey => "key 0 has codes 0",
            Clause::AttentionCodes => "attention none, 28h/01h or 29h/00h",
            Clause::EmptyShelves => "the true number of empty storage elements",
        }
    }
}

impl fmt::Display for Clause {
    fn fmt(&self, out: &mut fmt::Formatter) -> fmt::Result {
        out.pad(self.words())
    }
}

/// The first broken clause, if there is one.
pub fn check(tables: &Tables) -> Result<(), Clause> {
    judge(tables, Rules::default()).map(|_| ())
}

/// Whether the tables would be sound but for this clause, which is known to be broken. Without the head's length
/// nothing else of the head can be judged.
pub fn fails_alone(tables: &Tables, clause: Clause) -> bool {
    let left_out = Rules::with(Mutation::NotJudged(clause));
    clause == Clause::HeadLength || judge(tables, left_out).is_ok()
}

pub(crate) fn judge(tables: &Tables, rules: Rules) -> Result<Records, Clause> {
    let judge = Judge { rules };
    judge.lengths(tables)?;
    judge.generations(tables)?;
    judge.search(tables)?;
    let ranges = read_ranges(tables.head);
    judge.ranges(&ranges)?;
    judge.counts(&ranges)?;
    let count = total(&ranges) as usize;
    judge.require(
        tables.elements.len() == count * ELEMENT_LENGTH,
        Clause::ElementsLength,
    )?;
    judge.masks(tables, total_of(&ranges, &[Kind::Drive]) as usize)?;
    let records = Records::read(tables, &ranges);
    judge.volumes(&records.elements, tables.tags.len() / Labels::LENGTH)?;
    judge.places(&records.elements, &ranges)?;
    judge.drives(&records.elements, tables)?;
    judge.holders(&records)?;
    judge.hosts(&records)?;
    let shown = panel::is_true(records.empty_shelves, &records.library(), rules);
    judge.require(shown, Clause::EmptyShelves)?;
    Ok(records)
}

fn total(ranges: &[AddressRange]) -> u32 {
    ranges.iter().map(|range| range.count).sum()
}

fn total_of(ranges: &[AddressRange], kinds: &[Kind]) -> u32 {
    let counted = ranges.iter().filter(|range| kinds.contains(&range.kind));
    counted.map(|range| range.count).sum()
}

struct Judge {
    rules: Rules,
}

impl Judge {
    fn require(&self, holds: bool, clause: Clause) -> Result<(), Clause> {
        if holds || self.rules.broken_by(Mutation::NotJudged(clause)) {
            Ok(())
        } else {
            Err(clause)
        }
    }

    fn lengths(&self, tables: &Tables) -> Result<(), Clause> {
        let tags = tables.tags.len();
        self.require(tables.head.len() == HEAD_LENGTH, Clause::HeadLength)?;
        self.require(tables.blank.len() == Labels::LENGTH, Clause::BlankLength)?;
        self.require(tags.is_multiple_of(Labels::LENGTH), Clause::TagsLength)?;
        self.require(tags / Labels::LENGTH <= MOST_VOLUMES, Clause::TagCount)
    }

    /// "Bad lengths or entries are number 1."
    fn generations(&self, tables: &Tables) -> Result<(), Clause> {
        let volumes = tables.tags.len() / Labels::LENGTH;
        let given = tables.generations;
        let right = match self.rules.mutation {
            Some(Mutation::LongerGenerationsAreSound) => given.len() >= volumes,
            _ => given.len() == volumes,
        };
        let known = |&generation: &u8| match self.rules.mutation {
            Some(Mutation::GenerationZeroIsSound) => generation <= MOST_GENERATION,
            Some(Mutation::GenerationNineIsSound) => generation >= 1,
            _ => (1..=MOST_GENERATION).contains(&generation),
        };
        let judged = match self.rules.mutation {
            Some(Mutation::LastGenerationUnjudged) => &given[..given.len().saturating_sub(1)],
            Some(Mutation::GenerationsOf255Volumes) => &given[..given.len().min(255)],
            _ => given,
        };
        self.require(right, Clause::GenerationsLength)?;
        self.require(judged.iter().all(known), Clause::GenerationNumber)
    }

    /// "All zeros means no search; only a wrong length, or a field's value that no search could leave, is number 1"
    fn search(&self, tables: &Tables) -> Result<(), Clause> {
        let right = match self.rules.mutation {
            Some(Mutation::LongerSearchIsSound) => tables.search.len() >= SEARCH_LENGTH,
            _ => tables.search.len() == SEARCH_LENGTH,
        };
        self.require(right, Clause::SearchLength)?;
        let Some(search) = Search::read(tables.search) else {
            return Ok(());
        };
        let [action, kind, next] = search.fields_left(self.rules);
        self.require(action, Clause::SearchAction)?;
        self.require(kind, Clause::SearchType)?;
        self.require(next, Clause::SearchNext)
    }

    /// A mask may have any value.
    fn masks(&self, tables: &Tables, drives: usize) -> Result<(), Clause> {
        let given = tables.masks;
        let right = match self.rules.mutation {
            Some(Mutation::LongerMasksAreSound) => given.len() >= drives,
            Some(Mutation::MaskZeroIsNotSound) => given.len() == drives && !given.contains(&0),
            _ => given.len() == drives,
        };
        self.require(right, Clause::MasksLength)
    }

    /// "A table that already has an ill-fitting volume in a drive is not sound."
    fn drives(&self, elements: &[ElementRecord], tables: &Tables) -> Result<(), Clause> {
        let cartridges = Cartridges {
            generations: tables.generations,
            masks: tables.masks,
        };
        let drives = elements
            .iter()
            .filter(|element| element.kind == Kind::Drive);
        let fits = |(drive, element): (usize, &ElementRecord)| {
            let (drive, volume) = match self.rules.mutation {
                Some(Mutation::SoundByTheFirstMask) => (0, element.volume),
                Some(Mutation::SoundByTheVolumeBehind) => (drive, element.volume.wrapping_add(1)),
                _ => (drive, element.volume),
            };
            element.volume == 0 || cartridges.takes(drive, volume, self.rules)
        };
        self.require(drives.enumerate().all(fits), Clause::DriveTakes)
    }

    fn ranges(&self, ranges: &[AddressRange]) -> Result<(), Clause> {
        let zero_first = |range: &AddressRange| range.count > 0 || range.first == 0;
        let within = |range: &AddressRange| {
            range.count == 0 || range.first >= 1 && range.addresses().end - 1 <= LAST_ADDRESS
        };
        self.require(ranges.iter().all(zero_first), Clause::EmptyRangeFirst)?;
        self.require(ranges.iter().all(within), Clause::RangeWithin)?;
        self.require(!any_overlap(ranges), Clause::RangeOverlap)
    }

    fn counts(&self, ranges: &[AddressRange]) -> Result<(), Clause> {
        let elements = total(ranges);
        let transports = total_of(ranges, &[Kind::Transport]);
        let shelves = total_of(ranges, &[Kind::Storage, Kind::ImportExport]);
        let few_enough = (1..=MOST_ELEMENTS).contains(&elements);
        self.require(few_enough, Clause::ElementCount)?;
        let arms = (1..=MOST_TRANSPORTS).contains(&transports);
        self.require(arms, Clause::TransportCount)?;
        self.require(shelves >= 1, Clause::NoShelf)
    }

    fn volumes(&self, elements: &[ElementRecord], most: usize) -> Result<(), Clause> {
        let mut present: Vec<u16> = elements
            .iter()
            .map(|element| element.volume)
            .filter(|&volume| volume != 0)
            .collect();
        present.sort_unstable();
        let known = |&volume: &u16| usize::from(volume) <= most;
        let different = |pair: &[u16]| pair[0] != pair[1];
        self.require(present.iter().all(known), Clause::VolumeNumber)?;
        self.require(present.windows(2).all(different), Clause::VolumeTwice)
    }

    fn places(&self, elements: &[ElementRecord], ranges: &[AddressRange]) -> Result<(), Clause> {
        let every = |holds: fn(&ElementRecord) -> bool| elements.iter().all(holds);
        let may_be_source = |address: u16| {
            let mut ranges = ranges.iter();
            let holds = |range: &&AddressRange| range.addresses().contains(&address.into());
            let named = ranges.find(holds);
            named.is_some_and(|range| self.is_source_kind(range.kind))
        };
        let sources_stand = elements
            .iter()
            .all(|element| element.source == 0 || may_be_source(element.source));
        self.require(every(zero_byte), Clause::ZeroByte)?;
        self.require(every(transport_empty), Clause::TransportFull)?;
        self.require(sources_stand, Clause::SourceAddress)?;
        self.require(every(no_source_where_empty), Clause::SourceWhereEmpty)?;
        self.require(every(mark_in_place), Clause::MarkPlace)
    }

    /// "Sound tables now allow only a storage address or 0."
    fn is_source_kind(&self, kind: Kind) -> bool {
        let mistake = match kind {
            Kind::Storage => return true,
            Kind::Drive => Mutation::DriveIsSoundAsSource,
            Kind::ImportExport => Mutation::PortIsSoundAsSource,
            Kind::Transport => Mutation::TransportIsSoundAsSource,
        };
        self.rules.broken_by(mistake)
    }

    fn holders(&self, records: &Records) -> Result<(), Clause> {
        let elements = &records.elements;
        let unit = records.unit_holder;
        let known = elements.iter().all(|element| element.holder <= MOST_HOSTS);
        let without_id = |element: &ElementRecord| element.holder != 0 || element.id == 0;
        let by_none_but_unit = |element: &ElementRecord| [0, unit].contains(&element.holder);
        let alone = unit == 0 || elements.iter().all(by_none_but_unit);
        self.require(known, Clause::HolderNumber)?;
        self.require(elements.iter().all(without_id), Clause::IdWithoutHolder)?;
        self.require(unit <= MOST_HOSTS, Clause::UnitHolder)?;
        self.require(alone, Clause::UnitHeldAlone)
    }

    fn hosts(&self, records: &Records) -> Result<(), Clause> {
        let mut senses = records.hosts.iter().map(|host| host.sense);
        let keys = senses.clone().all(|sense| sense.key <= 15);
        let codes = senses.all(|sense| sense.key != 0 || (sense.asc, sense.ascq) == (0, 0));
        let mut attentions = records.hosts.iter().map(|host| host.attention);
        let known = attentions.all(|codes| [(0, 0), (0x28, 0x01), (0x29, 0x00)].contains(&codes));
        self.require(keys, Clause::SenseKey)?;
        self.require(codes, Clause::CodesWithoutKey)?;
        self.require(known, Clause::AttentionCodes)
    }
}

fn any_overlap(ranges: &[AddressRange]) -> bool {
    let mut filled: Vec<&AddressRange> = ranges.iter().filter(|range| range.count > 0).collect();
    filled.sort_by_key(|range| range.first);
    filled
        .windows(2)
        .any(|pair| pair[1].first < pair[0].addresses().end)
}

fn zero_byte(element: &ElementRecord) -> bool {
    element.zero == 0
}

fn transport_empty(element: &ElementRecord) -> bool {
    element.kind != Kind::Transport || element.volume == 0
}

fn no_source_where_empty(element: &ElementRecord) -> bool {
    element.volume != 0 || element.source == 0
}

/// "The mark is 1 only on a full import/export element, else 0."
fn mark_in_place(element: &ElementRecord) -> bool {
    let may_be_marked = element.kind == Kind::ImportExport && element.volume != 0;
    element.mark == 0 || element.mark == 1 && may_be_marked
}
