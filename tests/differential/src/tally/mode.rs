//! What MODE SENSE came to.

use super::Outcome;
use crate::generate::calls::MODE_PAGES;
use reference::TableBytes;

const HEADER: usize = 4;
const MOST_BYTES: usize = 256;

/// How much of the pages was returned.
#[derive(Clone, Copy, Debug, PartialEq, Eq, PartialOrd, Ord)]
pub enum ModeCut {
    Nothing,
    PartOfHeader,
    HeaderAlone,
    WithinPage,
    BetweenPages,
    WholeExactly,
    WholeWithRoom,
    /// 255 of 256 bytes, more than which no allocation has room for.
    AllButTheLast,
}

/// The one fault of a block that is 5/24/00.
#[derive(Clone, Copy, Debug, PartialEq, Eq, PartialOrd, Ord)]
pub enum ModeFault {
    Bit(usize),
    PageControl(u8),
    UnknownPage,
    TooLong(u8),
}

/// The bytes of each page that is asked for. None for an unknown one.
fn page_lengths(before: &TableBytes, page: u8) -> Option<Vec<usize>> {
    let transports = usize::from(u16::from_be_bytes([before.head[2], before.head[3]]));
    let geometry = 2 + 2 * transports;
    match page {
        0x1D | 0x1F => Some(vec![20]),
        0x1E => Some(vec![geometry]),
        0x3F => Some(vec![20, geometry, 20]),
        _ => None,
    }
}

/// The page and the cut, where the call was GOOD.
pub(super) fn cut(before: &TableBytes, block: &[u8]) -> Option<Outcome> {
    let page = block[2] & 0x3F;
    let allocation = usize::from(block[4]);
    let ends: Vec<usize> = page_lengths(before, page)?
        .iter()
        .scan(HEADER, |end, length| {
            *end += length;
            Some(*end)
        })
        .collect();
    let whole = *ends.last()?;
    let cut = match allocation {
        0 => ModeCut::Nothing,
        1..HEADER => ModeCut::PartOfHeader,
        HEADER => ModeCut::HeaderAlone,
        _ if allocation > whole => ModeCut::WholeWithRoom,
        _ if allocation == whole => ModeCut::WholeExactly,
        _ if allocation == MOST_BYTES - 1 => ModeCut::AllButTheLast,
        _ if ends.contains(&allocation) => ModeCut::BetweenPages,
        _ => ModeCut::WithinPage,
    };
    Some(Outcome::Mode(page, cut))
}

/// The fault of the block, where it has but one; a byte's bits without a use count as one.
pub(super) fn fault(before: &TableBytes, block: &[u8]) -> Option<Outcome> {
    let unused = [(1, 0x17), (3, 0xFF), (5, 0xFF)];
    let stray = unused
        .iter()
        .filter(|(byte, bits)| block[*byte] & bits != 0);
    let mut faults: Vec<ModeFault> = stray.map(|(byte, _)| ModeFault::Bit(*byte)).collect();
    let (control, page) = (block[2] >> 6, block[2] & 0x3F);
    if control != 0 {
        faults.push(ModeFault::PageControl(control));
    }
    match page_lengths(before, page) {
        None => faults.push(ModeFault::UnknownPage),
        Some(pages) if HEADER + pages.iter().sum::<usize>() > MOST_BYTES => {
            faults.push(ModeFault::TooLong(page));
        }
        Some(_) => {}
    }
    match faults[..] {
        [alone] => Some(Outcome::ModeRefused(alone)),
        _ => None,
    }
}

/// Each page at each cut that it can have, and each fault alone.
pub(super) fn required() -> Vec<Outcome> {
    let mut required = Vec::new();
    for page in MODE_PAGES {
        let cuts = [
            ModeCut::Nothing,
            ModeCut::PartOfHeader,
            ModeCut::HeaderAlone,
            ModeCut::WithinPage,
            ModeCut::WholeExactly,
            ModeCut::WholeWithRoom,
        ];
        required.extend(cuts.map(|cut| Outcome::Mode(page, cut)));
    }
    required.push(Outcome::Mode(0x3F, ModeCut::BetweenPages));
    required.extend([0x1E, 0x3F].map(|page| Outcome::Mode(page, ModeCut::AllButTheLast)));
    let mut faults = vec![ModeFault::UnknownPage];
    faults.extend([1, 3, 5].map(ModeFault::Bit));
    faults.extend([1, 2, 3].map(ModeFault::PageControl));
    faults.extend([0x1E, 0x3F].map(ModeFault::TooLong));
    required.extend(faults.into_iter().map(Outcome::ModeRefused));
    required
}
