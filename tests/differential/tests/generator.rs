//! The generated tables are what they are meant to be.

use std::collections::BTreeSet;

use differential::generate::{faults, sound};
use differential::random::Random;
use differential::scene::{bit, Scene, MOST_GENERATION};
use reference::library::Kind;
use reference::{check, Clause};

fn scenes(number: usize) -> Vec<Scene> {
    let mut random = Random::new(1);
    (0..number).map(|_| sound::scene(&mut random)).collect()
}

#[test]
fn generated_tables_are_sound() {
    for mut scene in scenes(4_000) {
        assert_eq!(check(&scene.tables.lend()), Ok(()), "{scene:?}");
    }
}

#[test]
fn generated_tables_reach_the_edges_of_soundness() {
    let scenes = scenes(4_000);
    let kinds = |scene: &Scene, kind: Kind| scene.places_where(|found, _| found == kind).len();
    let some = |suits: &dyn Fn(&Scene) -> bool| scenes.iter().any(suits);
    assert!(some(&|scene| scene.places.len() == 2));
    assert!(some(&|scene| scene.places.len() == 512));
    assert!(some(&|scene| kinds(scene, Kind::Transport) == 127));
    assert!(some(&|scene| kinds(scene, Kind::Storage) == 0));
    assert!(some(&|scene| kinds(scene, Kind::ImportExport) == 0));
    assert!(some(&|scene| scene.places[0].address == 1));
    assert!(some(&|scene| scene.is_element(65_535)));
    assert!(some(
        &|scene| scene.is_element(1) && scene.is_element(65_535)
    ));
    assert!(some(&|scene| scene.shown_empty_shelves() == 0));
    assert!(some(&|scene| scene.shown_empty_shelves() > 255));
    assert!(some(&|scene| scene.volumes() == 0));
    assert!(some(&|scene| scene.volumes() == 512));
    assert!(some(
        &|scene| scene.absent_volume().is_none() && scene.volumes() > 5
    ));
}

/// Each generation, each mask of one bit, none and all; drives that are full and take that alone, or more, or not all.
#[test]
fn generated_cartridges_are_of_each_generation_and_drives_take_what_they_hold() {
    let mut generations: BTreeSet<u8> = BTreeSet::new();
    let mut masks: BTreeSet<u8> = BTreeSet::new();
    let mut full: BTreeSet<u8> = BTreeSet::new();
    for mut scene in scenes(4_000) {
        generations.extend(&scene.tables.generations);
        masks.extend(&scene.tables.masks);
        for drive in scene.drives() {
            let held = bit(scene.generation(scene.volume(drive)));
            let mask = *scene.mask(drive);
            assert_eq!(mask & held, held, "{scene:?}");
            if held != 0 {
                full.insert(mask);
            }
        }
    }
    assert_eq!(generations, (1..=MOST_GENERATION).collect());
    let one_bit = (1..=MOST_GENERATION).map(bit);
    let wanted: BTreeSet<u8> = one_bit.clone().chain([0x00, 0xFF]).collect();
    assert!(masks.is_superset(&wanted), "{masks:?}");
    assert!(
        full.is_superset(&one_bit.chain([0xFF]).collect()),
        "{full:?}"
    );
}

/// The kinds of the places with a source, and of those that are full and have none; sources that are full shelves and empty ones.
#[test]
fn generated_sources_are_shelves_and_stand_at_each_kind() {
    let mut at: BTreeSet<(Kind, bool)> = BTreeSet::new();
    let mut named: BTreeSet<bool> = BTreeSet::new();
    for scene in scenes(1_000) {
        for place in scene.places_where(|_, volume| volume != 0) {
            let source = scene.source(place);
            at.insert((scene.places[place].kind, source != 0));
            let shelf = scene
                .places
                .iter()
                .position(|other| other.address == source);
            if let Some(shelf) = shelf {
                assert_eq!(scene.places[shelf].kind, Kind::Storage);
                named.insert(scene.volume(shelf) != 0);
            }
        }
    }
    assert_eq!((at.len(), named.len()), (6, 2), "{at:?} {named:?}");
}

#[test]
fn wrong_sources_are_of_each_kind_but_storage() {
    let mut random = Random::new(4);
    let mut kinds: BTreeSet<Option<Kind>> = BTreeSet::new();
    for _ in 0..400 {
        let scene = faults::broken_scene(&mut random, Clause::SourceAddress);
        for place in scene.places_where(|_, volume| volume != 0) {
            let source = scene.source(place);
            let named = scene.places.iter().find(|other| other.address == source);
            if source != 0 {
                kinds.insert(named.map(|place| place.kind));
            }
        }
    }
    // None stands for no element's address; storage is that of the sources that were not broken.
    let expected = Kind::ALL.into_iter().map(Some).chain([None]);
    assert_eq!(kinds, expected.collect());
}

#[test]
fn the_kinds_come_in_every_address_order() {
    let order = |scene: &Scene| -> Vec<Kind> {
        let mut kinds: Vec<Kind> = scene.places.iter().map(|place| place.kind).collect();
        kinds.dedup();
        kinds
    };
    let orders: BTreeSet<Vec<Kind>> = scenes(4_000).iter().map(order).collect();
    let of_length = |length: usize| orders.iter().filter(|order| order.len() == length).count();
    // Transport with storage or import/export; those two or drives besides; all four.
    assert_eq!([of_length(2), of_length(3), of_length(4)], [4, 18, 24]);
}

#[test]
fn each_clause_is_broken_as_asked_and_none_before_it() {
    let mut random = Random::new(2);
    for clause in Clause::ALL {
        for _ in 0..200 {
            let mut scene = faults::broken_scene(&mut random, clause);
            assert_eq!(check(&scene.tables.lend()), Err(clause), "{scene:?}");
        }
    }
}

#[test]
fn two_clauses_broken_are_not_sound() {
    let mut random = Random::new(3);
    for _ in 0..20_000 {
        let mut scene = faults::doubly_broken_scene(&mut random);
        assert!(check(&scene.tables.lend()).is_err(), "{scene:?}");
    }
}

#[test]
fn the_same_seed_gives_the_same_numbers() {
    // The first outputs of splitmix64 from state 0, as its authors publish them.
    let mut random = Random::new(0);
    assert_eq!(random.word(), 0xE220_A839_7B1D_CDAF);
    assert_eq!(random.word(), 0x6E78_9E6A_A1B9_65F4);
}
