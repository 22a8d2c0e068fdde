//! "generation 1 to 8 for each volume, and for each drive a mask (bit g-1) of those it takes"

use crate::library::{Kind, Library};
use crate::rules::{Mutation, Rules};

/// The two tables, lent beside the library's records.
#[derive(Clone, Copy, Debug)]
pub struct Cartridges<'a> {
    pub generations: &'a [u8],
    pub masks: &'a [u8],
}

impl Cartridges<'_> {
    /// Whether the volume may go to this address: it is no drive's, or the drive's mask has the volume's generation.
    pub(crate) fn may_go(&self, library: &Library, volume: u16, to: u16, rules: Rules) -> bool {
        let judged = match library.kind_at(to) {
            Some(Kind::Drive) => !rules.broken_by(Mutation::AnyCartridgeTaken),
            Some(Kind::Storage) => rules.broken_by(Mutation::ShelfJudgedAsDrive),
            Some(Kind::ImportExport) => rules.broken_by(Mutation::SlotJudgedAsDrive),
            _ => false,
        };
        let place = match rules.mutation {
            Some(Mutation::MaskByPlaceInTable) => place_among(library, to, None),
            Some(Mutation::MaskOfTheFirstDrive) => 0,
            Some(Mutation::MaskOfTheDriveBehind) => {
                place_among(library, to, library.kind_at(to)) + 1
            }
            _ => place_among(library, to, library.kind_at(to)),
        };
        let counted = match rules.mutation {
            Some(Mutation::GenerationOfTheVolumeBehind) => volume + 1,
            Some(Mutation::GenerationOfTheVolumeBefore) => volume - 1,
            _ => volume,
        };
        !judged || self.takes(place, counted, rules)
    }

    /// Whether the drive at this place among the drives takes the volume. Tables that are sound have a byte for each.
    pub(crate) fn takes(&self, drive: usize, volume: u16, rules: Rules) -> bool {
        let at = usize::from(volume).checked_sub(1);
        let generation = at.and_then(|at| self.generations.get(at));
        let mask = self.masks.get(drive);
        let (Some(&generation), Some(&mask)) = (generation, mask) else {
            return true;
        };
        let bit = match rules.broken_by(Mutation::MaskBitByGeneration) {
            true => u32::from(generation),
            false => u32::from(generation).saturating_sub(1),
        };
        u32::from(mask)
            .checked_shr(bit)
            .is_some_and(|rest| rest & 1 == 1)
    }

    /// Whether any drive takes the volume.
    pub(crate) fn has_drive_for(&self, volume: u16, rules: Rules) -> bool {
        (0..self.masks.len()).any(|drive| self.takes(drive, volume, rules))
    }
}

/// How many elements of this kind, or of any, have a lower address.
fn place_among(library: &Library, address: u16, kind: Option<Kind>) -> usize {
    let lower = library.elements.range(..address);
    lower
        .filter(|(_, element)| kind.is_none_or(|kind| element.kind == kind))
        .count()
}
