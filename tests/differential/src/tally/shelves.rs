//! Where volumes were carried from, and which addresses were refused as sources.

use reference::library::Kind;
use reference::TableBytes;

use super::Outcome;

/// The kinds of element that volumes go from and to.
pub const PLACES: [Kind; 3] = [Kind::Storage, Kind::ImportExport, Kind::Drive];

/// Whether a source stood beside the volume before it was carried.
#[derive(Clone, Copy, Debug, PartialEq, Eq, PartialOrd, Ord)]
pub enum Had {
    NoSource,
    Source,
}

#[derive(Clone, Copy, Debug, PartialEq, Eq, PartialOrd, Ord)]
pub enum Second {
    IsSource,
    IsAnother,
}

pub(super) fn two(bytes: &[u8], at: usize) -> u16 {
    u16::from_be_bytes([bytes[at], bytes[at + 1]])
}

/// The kind of an element by its address, and how many elements come before it.
pub(super) fn find(tables: &TableBytes, address: u16) -> Option<(Kind, usize)> {
    let range = |at: usize| {
        let first = usize::from(two(&tables.head, 4 * at));
        first..first + usize::from(two(&tables.head, 4 * at + 2))
    };
    let address = usize::from(address);
    let own = (0..4).find(|&at| range(at).contains(&address))?;
    let before: usize = (0..4)
        .map(|at| (range(at).start..range(at).end.min(address)).len())
        .sum();
    Some((Kind::ALL[own], before))
}

fn left(before: &TableBytes, address: u16) -> Option<(Kind, Had)> {
    let (kind, place) = find(before, address)?;
    let had = match two(&before.elements, 8 * place + 2) {
        0 => Had::NoSource,
        _ => Had::Source,
    };
    Some((kind, had))
}

/// A MOVE that ended GOOD.
pub(super) fn moved(before: &TableBytes, block: &[u8]) -> Option<Outcome> {
    let (kind, had) = left(before, two(block, 4))?;
    let (to, _) = find(before, two(block, 6))?;
    Some(Outcome::Moved(kind, had, to))
}

/// An EXCHANGE that ended GOOD.
pub(super) fn exchanged(before: &TableBytes, block: &[u8]) -> Option<Outcome> {
    let [source, first, second] = [4, 6, 8].map(|at| two(block, at));
    let second = match second == source {
        true => Second::IsSource,
        false => Second::IsAnother,
    };
    Some(Outcome::Exchanged(
        left(before, source)?,
        left(before, first)?,
        second,
    ))
}

/// The kind of the first element that stands as a source and may not, or none where it is no element's address. The
/// tables are known to break no clause that is judged before this one.
pub(super) fn wrong_source(before: &TableBytes) -> Option<Outcome> {
    let mut sources = before.elements.chunks(8).map(|element| two(element, 2));
    let kind = |source: u16| find(before, source).map(|(kind, _)| kind);
    let wrong = sources.find(|&source| source != 0 && kind(source) != Some(Kind::Storage))?;
    Some(Outcome::WrongSource(kind(wrong)))
}

/// Volumes with and without a source, from each kind of place to each; exchanges between each two of them; and each
/// address that is no source.
pub(super) fn required() -> Vec<Outcome> {
    let mut required = Vec::new();
    let mut leaving = Vec::new();
    for kind in PLACES {
        leaving.extend([Had::NoSource, Had::Source].map(|had| (kind, had)));
    }
    for &(kind, had) in &leaving {
        required.extend(PLACES.map(|to| Outcome::Moved(kind, had, to)));
        for &first in &leaving {
            let seconds = [Second::IsSource, Second::IsAnother];
            required.extend(seconds.map(|second| Outcome::Exchanged((kind, had), first, second)));
        }
    }
    let wrong = [
        None,
        Some(Kind::Transport),
        Some(Kind::ImportExport),
        Some(Kind::Drive),
    ];
    required.extend(wrong.map(Outcome::WrongSource));
    required
}
