//! READ ELEMENT STATUS, and the listing that it shares with a search.

use crate::bytes::{as_three, two};
use crate::command::{Call, Command};
use crate::library::{Element, Kind, Labels, Library};
use crate::rules::{Mutation, Rules};

const HEADER_LENGTH: usize = 8;
const PAGE_HEADER_LENGTH: usize = 8;
const PLAIN_LENGTH: usize = 16;

/// What the block asks for.
struct Choice {
    tags: bool,
    kind: Option<Kind>,
    start: u16,
    most: usize,
}

impl Choice {
    fn of(block: &[u8]) -> Choice {
        Choice {
            tags: block[1] & 0x10 != 0,
            kind: Kind::of_code(block[1] & 0x0F),
            start: two(block, 2),
            most: two(block, 4).into(),
        }
    }

    fn descriptor_length(&self) -> usize {
        match self.tags {
            true => PLAIN_LENGTH + Labels::LENGTH,
            false => PLAIN_LENGTH,
        }
    }
}

/// The chosen elements of one type.
struct Page {
    kind: Kind,
    addresses: Vec<u16>,
}

/// The bytes returned, and the addresses whose descriptors are among them.
pub(crate) struct Listing {
    pub(crate) bytes: Vec<u8>,
    pub(crate) chosen: Vec<u16>,
    pub(crate) whole: Vec<u16>,
}

pub(crate) fn read(library: &Library, call: &Call) -> Vec<u8> {
    let told = library.search.map_or(0, |search| search.action);
    let code = match call.broken_by(Mutation::ActionInEveryListing) {
        true => told,
        false => 0,
    };
    list(library, call, code, |_, _| true).bytes
}

/// What the block chooses of the elements that may be listed. The code stands in the header.
pub(crate) fn list(
    library: &Library,
    call: &Call,
    code: u8,
    may_be_listed: impl Fn(u16, &Element) -> bool,
) -> Listing {
    let mut choice = Choice::of(call.block);
    request_mistakes(&mut choice, call);
    let chosen = chosen(library, &choice, call, may_be_listed);
    let mut pages = pages(library, &chosen);
    if call.broken_by(Mutation::PagesInOrderOfType) {
        pages.sort_by_key(|page| page.kind);
    }
    let (returned, descriptors) = returned(&pages, &choice, call);
    let mut bytes = header(&chosen, code, counted_bytes(&pages, &choice, call));
    for page in &pages {
        bytes.extend(page_header(page, &choice));
        for address in &page.addresses {
            bytes.extend(descriptor(library, *address, &choice, call));
        }
    }
    bytes.truncate(returned);
    let listed = pages.iter().flat_map(|page| page.addresses.iter().copied());
    Listing {
        bytes,
        whole: listed.take(descriptors).collect(),
        chosen,
    }
}

/// What a request asks of a search; this does nothing but under a mutation.
fn request_mistakes(choice: &mut Choice, call: &Call) {
    if call.command() == Some(Command::RequestVolumeElementAddress) {
        match call.rules.mutation {
            Some(Mutation::RequestedTypeIgnored) => choice.kind = None,
            Some(Mutation::RequestedStartIgnored) => choice.start = 0,
            Some(Mutation::RequestedMostIgnored) => choice.most = usize::MAX,
            _ => {}
        }
    }
}

/// "elements of the type at or above start, ascending, at most that many"
fn chosen(
    library: &Library,
    choice: &Choice,
    call: &Call,
    may_be_listed: impl Fn(u16, &Element) -> bool,
) -> Vec<u16> {
    let of_type = |element: &Element| choice.kind.is_none_or(|kind| kind == element.kind);
    let suited = library.elements.range(choice.start..);
    let suited = suited.filter(|(_, element)| of_type(element));
    let listed = |(address, element): &(&u16, &Element)| may_be_listed(**address, element);
    let address = |(&address, _): (&u16, &Element)| address;
    match call.broken_by(Mutation::MostBeforeMatching) {
        true => {
            let counted = suited.take(choice.most);
            counted.filter(listed).map(address).collect()
        }
        false => {
            let counted = suited.filter(listed).take(choice.most);
            counted.map(address).collect()
        }
    }
}

/// "Each type chosen, in order of its addresses"
fn pages(library: &Library, chosen: &[u16]) -> Vec<Page> {
    let mut pages: Vec<Page> = Vec::new();
    for &address in chosen {
        let kind = library.elements[&address].kind;
        match pages.iter_mut().find(|page| page.kind == kind) {
            Some(page) => page.addresses.push(address),
            None => pages.push(Page {
                kind,
                addresses: vec![address],
            }),
        }
    }
    pages
}

/// "Counts are never cut to the allocation."
fn counted_bytes(pages: &[Page], choice: &Choice, call: &Call) -> usize {
    let page_bytes =
        |page: &Page| PAGE_HEADER_LENGTH + page.addresses.len() * choice.descriptor_length();
    let all: usize = pages.iter().map(page_bytes).sum();
    match call.broken_by(Mutation::CountsCutToAllocation) {
        true => all.min(call.allocation()),
        false => all,
    }
}

/// "below 8, the first allocation bytes of the header; else the header and as many whole descriptors
/// as fit, a page header only together with its first descriptor": how many bytes, and how many descriptors
fn returned(pages: &[Page], choice: &Choice, call: &Call) -> (usize, usize) {
    let allocation = call.allocation();
    if allocation < HEADER_LENGTH {
        return (allocation, 0);
    }
    let (mut length, mut whole) = (HEADER_LENGTH, 0);
    for page in pages {
        let room = allocation - length;
        if room < PAGE_HEADER_LENGTH + choice.descriptor_length() {
            let alone = match call.broken_by(Mutation::PageHeaderAlone) {
                true => room.min(PAGE_HEADER_LENGTH),
                false => 0,
            };
            return (length + alone, whole);
        }
        let fitting = (room - PAGE_HEADER_LENGTH) / choice.descriptor_length();
        let descriptors = fitting.min(page.addresses.len());
        length += PAGE_HEADER_LENGTH + descriptors * choice.descriptor_length();
        whole += descriptors;
        if descriptors < page.addresses.len() {
            break;
        }
    }
    (length, whole)
}

fn header(chosen: &[u16], code: u8, counted: usize) -> Vec<u8> {
    let first = chosen.first().copied().unwrap_or(0);
    let mut bytes = first.to_be_bytes().to_vec();
    bytes.extend((chosen.len() as u16).to_be_bytes());
    bytes.push(code);
    bytes.extend(as_three(counted));
    bytes
}

fn page_header(page: &Page, choice: &Choice) -> Vec<u8> {
    let length = choice.descriptor_length();
    let mut bytes = vec![page.kind.code(), if choice.tags { 0x80 } else { 0 }];
    bytes.extend((length as u16).to_be_bytes());
    bytes.push(0);
    bytes.extend(as_three(page.addresses.len() * length));
    bytes
}

fn descriptor(library: &Library, address: u16, choice: &Choice, call: &Call) -> Vec<u8> {
    let element = &library.elements[&address];
    let mut bytes = address.to_be_bytes().to_vec();
    bytes.push(flags(element, call.rules));
    bytes.extend([0; 6]);
    bytes.push(if element.source.is_some() { 0x80 } else { 0 });
    bytes.extend(element.source.unwrap_or(0).to_be_bytes());
    if choice.tags {
        bytes.extend(label(element, call));
    }
    bytes.extend([0; 4]);
    bytes
}

fn label<'a>(element: &Element, call: &Call<'a>) -> &'a [u8] {
    let shown = match call.broken_by(Mutation::LabelOfTheVolumeBefore) {
        true => element.volume.map(|volume| volume - 1),
        false => element.volume,
    };
    call.labels.shown(shown)
}

fn flags(element: &Element, rules: Rules) -> u8 {
    let full = if element.is_full() { 0x01 } else { 0 };
    let shows_mark = element.hand_mark && !rules.broken_by(Mutation::MarkNotShown);
    let marked = if shows_mark { 0x02 } else { 0 };
    match element.kind {
        Kind::Transport => 0x00,
        Kind::Storage | Kind::Drive => 0x08 + full,
        Kind::ImportExport => 0x38 + full + marked,
    }
}
