//! Import and export.

use reference::library::Kind;

use crate::call::Call;
use crate::generate::{calls, sound};
use crate::harness::Harness;
use crate::random::Random;
use crate::scene::Scene;

pub(super) fn events_at_the_edges(harness: &mut Harness, random: &mut Random, _: usize) {
    let scene = sound::small_scene(random);
    for place in &scene.places {
        for address in calls::edge_addresses(place.address.into()) {
            let volume = random.pick(&calls::edge_volumes(&scene));
            let import = Call::Import { address, volume };
            harness.call(&mut scene.tables.clone(), &import);
            let export = Call::Export { address };
            harness.call(&mut scene.tables.clone(), &export);
        }
    }
    for place in scene.places_where(|kind, _| kind == Kind::ImportExport) {
        let address = scene.places[place].address.into();
        for volume in calls::edge_volumes(&scene) {
            let mut emptied = scene.clone();
            emptied.element(place).fill(0);
            let import = Call::Import { address, volume };
            harness.call(&mut emptied.tables, &import);
        }
    }
}

/// Every number of preventing hosts and every lowest one, on full and empty elements; then none.
pub(super) fn preventers(harness: &mut Harness, random: &mut Random, _: usize) {
    let mut scene = sound::small_scene(random);
    for lowest in 0..=8 {
        for upper in [0x00, 0xFF, random.byte()] {
            scene.set_prevent_mask(u16::from(upper << 1 | 1).wrapping_shl(lowest) as u8);
            let import = calls::import(random, &scene);
            harness.call(&mut scene.tables, &import);
            let export = calls::export(random, &scene);
            harness.call(&mut scene.tables, &export);
            for place in scene.places_where(|kind, _| kind == Kind::ImportExport) {
                full_and_empty(harness, &scene, place);
            }
        }
    }
}

/// Import and export at this place, when it is empty and, where there is a volume for it, when it is full.
fn full_and_empty(harness: &mut Harness, scene: &Scene, place: usize) {
    let address = scene.places[place].address.into();
    let mut emptied = scene.clone();
    emptied.element(place).fill(0);
    let mut filled = emptied.clone();
    let absent = emptied.absent_volume();
    if let Some(volume) = absent {
        filled.set_volume(place, volume);
    }
    let volume = absent.unwrap_or(1).into();
    for call in [Call::Import { address, volume }, Call::Export { address }] {
        harness.call(&mut emptied.tables.clone(), &call);
        harness.call(&mut filled.tables.clone(), &call);
    }
}
