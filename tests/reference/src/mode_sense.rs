//! MODE SENSE: the pages of document 001, as document 02 asks for them.

use crate::command::{Call, Outcome, INVALID_FIELD};
use crate::library::{Kind, Library};
use crate::rules::Mutation;

const ADDRESSES: u8 = 0x1D;
const GEOMETRY: u8 = 0x1E;
const CAPABILITIES: u8 = 0x1F;
const ALL_PAGES: u8 = 0x3F;
const MOST_BYTES: usize = 256;

/// "Answers are cut at the allocation, while inner lengths stay true."
pub(crate) fn read(library: &Library, call: &Call) -> Outcome {
    // "current values only; other page controls and pages give 5/24/00"
    if call.block[2] & 0xC0 != 0 && !call.broken_by(Mutation::PageControlLetThrough) {
        return Err(INVALID_FIELD);
    }
    if call.block[1] & 0x08 != 0 && call.broken_by(Mutation::BlockDescriptorBitJudged) {
        return Err(INVALID_FIELD);
    }
    let codes = page_codes(call).ok_or(INVALID_FIELD)?;
    let pages: Vec<u8> = codes
        .iter()
        .flat_map(|code| page(library, *code, call))
        .collect();
    let mut bytes = header(pages.len(), call);
    bytes.extend(pages);
    // "Over 256 bytes before cutting gives 5/24/00."
    if bytes.len() > MOST_BYTES && !call.broken_by(Mutation::TooLongPagesServed) {
        return Err(INVALID_FIELD);
    }
    bytes.truncate(call.allocation());
    Ok(bytes)
}

/// "3Fh goes by rising page code." None for a page that there is not.
fn page_codes(call: &Call) -> Option<Vec<u8>> {
    match call.block[2] & 0x3F {
        ALL_PAGES if call.broken_by(Mutation::CapabilitiesFirst) => {
            Some(vec![CAPABILITIES, ADDRESSES, GEOMETRY])
        }
        ALL_PAGES => Some(vec![ADDRESSES, GEOMETRY, CAPABILITIES]),
        code @ (ADDRESSES | GEOMETRY | CAPABILITIES) => Some(vec![code]),
        _ => None,
    }
}

/// Mode data length, which does not count itself, medium type, device-specific parameter, and the length of the
/// block descriptors, of which there are none.
fn header(page_bytes: usize, call: &Call) -> Vec<u8> {
    let whole = 4 + page_bytes;
    let told = match call.broken_by(Mutation::ModeLengthCutToAllocation) {
        true => whole.min(call.allocation()),
        false => whole,
    };
    vec![told.saturating_sub(1) as u8, 0, 0, 0]
}

/// "PS is 0", so that the first byte is the page code; then how many bytes follow.
fn page(library: &Library, code: u8, call: &Call) -> Vec<u8> {
    let parameters = match code {
        ADDRESSES => addresses(library),
        GEOMETRY => geometry(library, call),
        _ => capabilities(call),
    };
    let mut page = vec![code, parameters.len() as u8];
    page.extend(parameters);
    page
}

/// The addresses of a type, ascending.
fn addresses_of(library: &Library, kind: Kind) -> Vec<u16> {
    let of_kind = library
        .elements
        .iter()
        .filter(|(_, element)| element.kind == kind);
    of_kind.map(|(address, _)| *address).collect()
}

/// Table 33: first address and number of transports, storage, import/export elements and drives.
fn addresses(library: &Library) -> Vec<u8> {
    let mut parameters = Vec::new();
    for kind in Kind::ALL {
        let addresses = addresses_of(library, kind);
        let first = addresses.first().copied().unwrap_or(0);
        parameters.extend(first.to_be_bytes());
        parameters.extend((addresses.len() as u16).to_be_bytes());
    }
    parameters.extend([0, 0]);
    parameters
}

/// Tables 34 and 35. "There is one robotics set without rotation", and "the first element in a set has a MEMBER
/// NUMBER IN TRANSPORT ELEMENT SET of zero".
fn geometry(library: &Library, call: &Call) -> Vec<u8> {
    let transports = addresses_of(library, Kind::Transport).len();
    let from = usize::from(call.broken_by(Mutation::MemberNumbersFromOne));
    let descriptor = |member: usize| [0, (from + member) as u8];
    (0..transports).flat_map(descriptor).collect()
}

/// Table 32. "shelves, slots and drives store and exchange with each other and their own kind, transports don't"
fn capabilities(call: &Call) -> Vec<u8> {
    let places = [Kind::Drive, Kind::ImportExport, Kind::Storage];
    let all_places: u8 = places.map(capability_bit).iter().sum();
    let stores = match call.broken_by(Mutation::TransportStores) {
        true => all_places | capability_bit(Kind::Transport),
        false => all_places,
    };
    let with = |kind: Kind| match kind {
        Kind::Transport => 0,
        _ => all_places,
    };
    let mut parameters = vec![stores, 0];
    // Moves in bytes 4 to 7, exchanges in bytes 12 to 15, four reserved bytes behind each.
    for _ in 0..2 {
        parameters.extend(Kind::ALL.map(with));
        parameters.extend([0; 4]);
    }
    parameters
}

/// "DT I/E ST MT", from bit 3 down.
fn capability_bit(kind: Kind) -> u8 {
    match kind {
        Kind::Drive => 0x08,
        Kind::ImportExport => 0x04,
        Kind::Storage => 0x02,
        Kind::Transport => 0x01,
    }
}
