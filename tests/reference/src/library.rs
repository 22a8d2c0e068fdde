//! The library as records. Nothing here knows where a field stands in the lent bytes.

use std::collections::{BTreeMap, BTreeSet};

use crate::search::Search;

#[derive(Clone, Copy, Debug, PartialEq, Eq, PartialOrd, Ord)]
pub enum Kind {
    Transport,
    Storage,
    ImportExport,
    Drive,
}

impl Kind {
    /// The order of the ranges in the head.
    pub const ALL: [Kind; 4] = [
        Kind::Transport,
        Kind::Storage,
        Kind::ImportExport,
        Kind::Drive,
    ];

    /// The type code of READ ELEMENT STATUS.
    pub fn code(self) -> u8 {
        match self {
            Kind::Transport => 1,
            Kind::Storage => 2,
            Kind::ImportExport => 3,
            Kind::Drive => 4,
        }
    }

    pub fn of_code(code: u8) -> Option<Kind> {
        Kind::ALL.into_iter().find(|kind| kind.code() == code)
    }
}

/// A host from 1 to 8.
#[derive(Clone, Copy, Debug, PartialEq, Eq, PartialOrd, Ord)]
pub struct HostNumber(u8);

impl HostNumber {
    pub fn new(number: u32) -> Option<HostNumber> {
        match number {
            1..=8 => Some(HostNumber(number as u8)),
            _ => None,
        }
    }

    pub fn all() -> impl Iterator<Item = HostNumber> {
        (1..=8).map(HostNumber)
    }

    pub fn number(self) -> u8 {
        self.0
    }
}

#[derive(Clone, Copy, Debug, PartialEq, Eq)]
pub struct Sense {
    pub key: u8,
    pub asc: u8,
    pub ascq: u8,
}

/// Why a host is to be told something before its next command.
#[derive(Clone, Copy, Debug, PartialEq, Eq)]
pub enum Attention {
    ImportOrExport,
    Reset,
}

impl Attention {
    pub fn codes(self) -> (u8, u8) {
        match self {
            Attention::ImportOrExport => (0x28, 0x01),
            Attention::Reset => (0x29, 0x00),
        }
    }

    /// "6 with its codes"
    pub fn sense(self) -> Sense {
        let (asc, ascq) = self.codes();
        Sense { key: 6, asc, ascq }
    }
}

#[derive(Clone, Copy, Debug, Default, PartialEq, Eq)]
pub struct Host {
    pub sense: Option<Sense>,
    pub attention: Option<Attention>,
}

#[derive(Clone, Copy, Debug, PartialEq, Eq)]
pub struct Reservation {
    pub host: HostNumber,
    pub id: u8,
}

#[derive(Clone, Copy, Debug, PartialEq, Eq)]
pub struct Element {
    pub kind: Kind,
    pub volume: Option<u16>,
    pub source: Option<u16>,
    pub reservation: Option<Reservation>,
    pub hand_mark: bool,
}

impl Element {
    pub fn is_full(&self) -> bool {
        self.volume.is_some()
    }

    pub fn held_by_another(&self, host: HostNumber) -> bool {
        self.reservation.is_some_and(|held| held.host != host)
    }

    /// "The place left has volume 0, source 0, mark 0"
    pub fn leave(&mut self) -> Option<u16> {
        self.source = None;
        self.hand_mark = false;
        self.volume.take()
    }

    /// "a place filled by the arm has mark 0"
    pub fn fill_by_arm(&mut self, carried: Carried) {
        self.volume = carried.volume;
        self.source = carried.source;
        self.hand_mark = false;
    }
}

/// What the arm carries from one place to another: a volume, and "the last storage element that held it".
#[derive(Clone, Copy, Debug, PartialEq, Eq)]
pub struct Carried {
    pub volume: Option<u16>,
    pub source: Option<u16>,
}

#[derive(Clone, Debug, PartialEq, Eq)]
pub struct Library {
    pub elements: BTreeMap<u16, Element>,
    pub unit_holder: Option<HostNumber>,
    pub preventing: BTreeSet<HostNumber>,
    pub hosts: BTreeMap<HostNumber, Host>,
    pub search: Option<Search>,
}

impl Library {
    pub fn host(&mut self, host: HostNumber) -> &mut Host {
        self.hosts.entry(host).or_default()
    }

    pub fn kind_at(&self, address: u16) -> Option<Kind> {
        self.elements.get(&address).map(|element| element.kind)
    }

    pub fn contains_volume(&self, volume: u16) -> bool {
        self.elements
            .values()
            .any(|element| element.volume == Some(volume))
    }
}

/// The labels lent beside the tables; the library's records hold volume numbers only.
#[derive(Clone, Copy, Debug)]
pub struct Labels<'a> {
    pub tags: &'a [u8],
    pub blank: &'a [u8],
}

impl<'a> Labels<'a> {
    pub const LENGTH: usize = 36;

    /// V.
    pub fn volumes(&self) -> usize {
        self.tags.len() / Self::LENGTH
    }

    /// "the volume's own record, or the blank label if empty"
    pub fn shown(&self, volume: Option<u16>) -> &'a [u8] {
        let record = |volume: u16| {
            self.tags
                .chunks(Self::LENGTH)
                .nth(usize::from(volume).checked_sub(1)?)
        };
        volume.and_then(record).unwrap_or(self.blank)
    }
}
