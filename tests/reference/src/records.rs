//! The lent bytes read field by field, before anything is known to be sound, and written back.

use std::collections::BTreeMap;
use std::ops::Range;

use crate::bytes::two;
use crate::interface::Tables;
use crate::library::{Attention, Element, Host, HostNumber, Kind, Library, Reservation, Sense};
use crate::search::Search;

pub(crate) const HEAD_LENGTH: usize = 60;
pub(crate) const ELEMENT_LENGTH: usize = 8;
pub(crate) const SEARCH_LENGTH: usize = 41;
const RANGE_LENGTH: usize = 4;
const UNIT_HOLDER: usize = 16;
const PREVENT_MASK: usize = 17;
const HOSTS: usize = 18;
const HOST_LENGTH: usize = 5;
const EMPTY_SHELVES: usize = 58;

/// One of the head's four ranges. Wider than the two-byte fields, so that no sum can wrap.
#[derive(Clone, Copy, Debug)]
pub(crate) struct AddressRange {
    pub(crate) kind: Kind,
    pub(crate) first: u32,
    pub(crate) count: u32,
}

impl AddressRange {
    pub(crate) fn addresses(&self) -> Range<u32> {
        self.first..self.first + self.count
    }
}

/// An element's eight bytes with the address and kind that its place in the table gives it.
#[derive(Clone, Copy, Debug)]
pub(crate) struct ElementRecord {
    pub(crate) address: u16,
    pub(crate) kind: Kind,
    pub(crate) volume: u16,
    pub(crate) source: u16,
    pub(crate) holder: u8,
    pub(crate) id: u8,
    pub(crate) mark: u8,
    pub(crate) zero: u8,
}

#[derive(Clone, Copy, Debug)]
pub(crate) struct HostRecord {
    pub(crate) sense: Sense,
    pub(crate) attention: (u8, u8),
}

#[derive(Clone, Debug)]
pub(crate) struct Records {
    pub(crate) unit_holder: u8,
    pub(crate) prevent_mask: u8,
    pub(crate) hosts: Vec<HostRecord>,
    pub(crate) empty_shelves: u16,
    pub(crate) elements: Vec<ElementRecord>,
    pub(crate) search: Option<Search>,
}

pub(crate) fn read_ranges(head: &[u8]) -> Vec<AddressRange> {
    let range = |(kind, bytes): (Kind, &[u8])| AddressRange {
        kind,
        first: two(bytes, 0).into(),
        count: two(bytes, 2).into(),
    };
    Kind::ALL
        .into_iter()
        .zip(head.chunks_exact(RANGE_LENGTH))
        .map(range)
        .collect()
}

impl Records {
    /// The ranges are known to lie within 1 to 65,535 and the head to have its length.
    pub(crate) fn read(tables: &Tables, ranges: &[AddressRange]) -> Records {
        Records {
            unit_holder: tables.head[UNIT_HOLDER],
            prevent_mask: tables.head[PREVENT_MASK],
            hosts: tables.head[HOSTS..EMPTY_SHELVES]
                .chunks_exact(HOST_LENGTH)
                .map(read_host)
                .collect(),
            empty_shelves: two(tables.head, EMPTY_SHELVES),
            elements: places(ranges)
                .into_iter()
                .zip(tables.elements.chunks_exact(ELEMENT_LENGTH))
                .map(|((address, kind), bytes)| read_element(address, kind, bytes))
                .collect(),
            search: Search::read(tables.search),
        }
    }

    /// The records are known to be sound.
    pub(crate) fn library(&self) -> Library {
        Library {
            elements: self.elements.iter().map(element).collect(),
            unit_holder: HostNumber::new(self.unit_holder.into()),
            preventing: HostNumber::all()
                .filter(|host| self.prevent_mask & mask_bit(*host) != 0)
                .collect(),
            hosts: HostNumber::all()
                .zip(self.hosts.iter().map(host))
                .collect::<BTreeMap<_, _>>(),
            search: self.search,
        }
    }
}

/// "one for each address in the ranges, ascending"
fn places(ranges: &[AddressRange]) -> Vec<(u16, Kind)> {
    let mut ascending = ranges.to_vec();
    ascending.sort_by_key(|range| range.first);
    ascending
        .iter()
        .flat_map(|range| {
            range
                .addresses()
                .map(|address| (address as u16, range.kind))
        })
        .collect()
}

fn read_host(bytes: &[u8]) -> HostRecord {
    HostRecord {
        sense: Sense {
            key: bytes[0],
            asc: bytes[1],
            ascq: bytes[2],
        },
        attention: (bytes[3], bytes[4]),
    }
}

fn read_element(address: u16, kind: Kind, bytes: &[u8]) -> ElementRecord {
    ElementRecord {
        address,
        kind,
        volume: two(bytes, 0),
        source: two(bytes, 2),
        holder: bytes[4],
        id: bytes[5],
        mark: bytes[6],
        zero: bytes[7],
    }
}

fn nonzero(field: u16) -> Option<u16> {
    (field != 0).then_some(field)
}

fn element(record: &ElementRecord) -> (u16, Element) {
    let element = Element {
        kind: record.kind,
        volume: nonzero(record.volume),
        source: nonzero(record.source),
        reservation: HostNumber::new(record.holder.into()).map(|host| Reservation {
            host,
            id: record.id,
        }),
        hand_mark: record.mark == 1,
    };
    (record.address, element)
}

fn host(record: &HostRecord) -> Host {
    Host {
        sense: (record.sense.key != 0).then_some(record.sense),
        attention: [Attention::ImportOrExport, Attention::Reset]
            .into_iter()
            .find(|attention| attention.codes() == record.attention),
    }
}

/// "bit h-1 for host h"
fn mask_bit(host: HostNumber) -> u8 {
    1 << (host.number() - 1)
}

/// The ranges never change, so they are not written.
pub(crate) fn write(library: &Library, empty_shelves: u16, tables: &mut Tables) {
    tables.head[UNIT_HOLDER] = library.unit_holder.map_or(0, HostNumber::number);
    tables.head[PREVENT_MASK] = library.preventing.iter().copied().map(mask_bit).sum();
    tables.head[EMPTY_SHELVES..].copy_from_slice(&empty_shelves.to_be_bytes());
    let hosts = tables.head[HOSTS..EMPTY_SHELVES].chunks_exact_mut(HOST_LENGTH);
    for (bytes, host) in hosts.zip(library.hosts.values()) {
        bytes.copy_from_slice(&host_bytes(host));
    }
    let elements = tables.elements.chunks_exact_mut(ELEMENT_LENGTH);
    for (bytes, element) in elements.zip(library.elements.values()) {
        bytes.copy_from_slice(&element_bytes(element));
    }
    write_search(library, tables);
}

/// The search alone.
pub(crate) fn write_search(library: &Library, tables: &mut Tables) {
    let search = library.search.map_or([0; SEARCH_LENGTH], Search::bytes);
    for (place, byte) in tables.search.iter_mut().zip(search) {
        *place = byte;
    }
}

fn host_bytes(host: &Host) -> [u8; HOST_LENGTH] {
    let (key, asc, ascq) = host
        .sense
        .map_or((0, 0, 0), |sense| (sense.key, sense.asc, sense.ascq));
    let (attention, qualifier) = host.attention.map_or((0, 0), Attention::codes);
    [key, asc, ascq, attention, qualifier]
}

fn element_bytes(element: &Element) -> [u8; ELEMENT_LENGTH] {
    let [volume_high, volume_low] = element.volume.unwrap_or(0).to_be_bytes();
    let [source_high, source_low] = element.source.unwrap_or(0).to_be_bytes();
    let (holder, id) = element
        .reservation
        .map_or((0, 0), |held| (held.host.number(), held.id));
    let mark = u8::from(element.hand_mark);
    [
        volume_high,
        volume_low,
        source_high,
        source_low,
        holder,
        id,
        mark,
        0,
    ]
}
