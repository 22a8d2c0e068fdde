//! RESERVE lists, right and wrong.

use super::faults::unknown_address;
use crate::random::Random;
use crate::scene::Scene;

pub type Descriptor = [u8; 6];

pub fn descriptor(number: u16, address: u16) -> Descriptor {
    let [n, m] = number.to_be_bytes();
    let [a, b] = address.to_be_bytes();
    [0, 0, n, m, a, b]
}

/// What can be wrong with one descriptor.
#[derive(Clone, Copy, Debug, PartialEq, Eq)]
pub enum ListFault {
    Reserved,
    UnknownAddress,
    TooMany,
    NamedBefore,
    ReservedAndUnknownAddress,
}

impl ListFault {
    pub const ALL: [ListFault; 5] = [
        ListFault::Reserved,
        ListFault::UnknownAddress,
        ListFault::TooMany,
        ListFault::NamedBefore,
        ListFault::ReservedAndUnknownAddress,
    ];
}

/// Runs that share no element, in any order. Where the tables have fewer elements than descriptors are
/// wanted, the last ones name an element again.
pub fn runs(random: &mut Random, scene: &Scene, descriptors: usize) -> Vec<Descriptor> {
    let elements = scene.places.len();
    let mut starts: Vec<usize> = (0..elements).collect();
    random.shuffle(&mut starts);
    starts.truncate(descriptors);
    starts.sort_unstable();
    let mut list: Vec<Descriptor> = (0..starts.len())
        .map(|at| {
            let end = starts.get(at + 1).copied().unwrap_or(elements);
            run(random, scene, starts[at], end)
        })
        .collect();
    random.shuffle(&mut list);
    while list.len() < descriptors {
        let again = random.pick(&list);
        list.push(again);
    }
    list
}

/// A run from `start` that ends at or before `end`.
fn run(random: &mut Random, scene: &Scene, start: usize, end: usize) -> Descriptor {
    let room = end - start;
    let number = match random.below(4) {
        0 => room,
        1 => random.between(1, room),
        _ => 1,
    };
    let through_the_last = end == scene.places.len() && number == room && random.percent(70);
    let number = if through_the_last { 0 } else { number };
    descriptor(number as u16, scene.places[start].address)
}

/// Puts the fault at this place of the list. None where it does not fit.
pub fn spoil(
    random: &mut Random,
    scene: &Scene,
    list: &mut [Descriptor],
    at: usize,
    fault: ListFault,
) -> Option<()> {
    match fault {
        ListFault::Reserved => list[at][random.below(2)] = 1 << random.below(8),
        ListFault::UnknownAddress => {
            let address = unknown_address(random, scene)? as u16;
            list[at][4..6].copy_from_slice(&address.to_be_bytes());
        }
        ListFault::TooMany => {
            let rest = scene.places.len() - place_named(scene, list[at])?;
            let number = random.pick(&[rest + 1, rest + 1, rest + 256, 65_535]) as u16;
            list[at][2..4].copy_from_slice(&number.to_be_bytes());
        }
        ListFault::NamedBefore => {
            let earlier = &list[..at];
            let earlier = (!earlier.is_empty()).then(|| random.pick(earlier))?;
            list[at] = overlapping(random, scene, earlier)?;
        }
        ListFault::ReservedAndUnknownAddress => {
            spoil(random, scene, list, at, ListFault::UnknownAddress)?;
            spoil(random, scene, list, at, ListFault::Reserved)?;
        }
    }
    Some(())
}

fn place_named(scene: &Scene, descriptor: Descriptor) -> Option<usize> {
    let address = u16::from_be_bytes([descriptor[4], descriptor[5]]);
    scene
        .places
        .iter()
        .position(|place| place.address == address)
}

/// A run that names an element of the earlier one: the same, its first, its last, or one that runs into it.
fn overlapping(random: &mut Random, scene: &Scene, earlier: Descriptor) -> Option<Descriptor> {
    let first = place_named(scene, earlier)?;
    let number = usize::from(u16::from_be_bytes([earlier[2], earlier[3]]));
    let last = match number {
        0 => scene.places.len() - 1,
        number => (first + number).min(scene.places.len()) - 1,
    };
    let (start, number) = match random.below(4) {
        0 => return Some(earlier),
        1 => (first, 1),
        2 => (last, random.below(2)),
        _ => {
            let before = random.between(0, first);
            (before, first - before + 1)
        }
    };
    Some(descriptor(number as u16, scene.places[start].address))
}
