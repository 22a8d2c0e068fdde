//! RESERVE lists.

use super::pairs;
use crate::call::Call;
use crate::generate::lists::{self, Descriptor, ListFault};
use crate::generate::{calls, sound};
use crate::harness::Harness;
use crate::random::Random;
use crate::scene::Scene;

/// Tables with more elements than a list has descriptors.
fn scene_for_lists(random: &mut Random) -> Scene {
    let counts = [3, 25, 5, 3].map(|least| least + random.below(4));
    sound::quiet_scene_with(random, counts)
}

fn reserve_call(random: &mut Random, host: u32, list: &[Descriptor]) -> Call {
    let parameters = list.concat();
    let [high, low] = (parameters.len() as u16).to_be_bytes();
    let id = sound::reservation_id(random);
    let block = vec![0x16, 1, id, high, low, 0];
    calls::command(random, host, block, parameters)
}

/// Lists of 0 to 33 descriptors: right, and with each fault at the first, the last and any other place.
pub(super) fn reserve_lists(harness: &mut Harness, random: &mut Random, _: usize) {
    let scene = scene_for_lists(random);
    for descriptors in 0..=33 {
        let right = lists::runs(random, &scene, descriptors);
        let call = reserve_call(random, 3, &right);
        harness.call(&mut scene.tables.clone(), &call);
        if descriptors == 0 {
            continue;
        }
        let places = [0, descriptors - 1, random.below(descriptors)];
        for (fault, place) in pairs(&ListFault::ALL, &places) {
            spoiled_list(harness, random, &scene, &right, (fault, place));
        }
    }
    let descriptors = random.between(2, 32);
    let right = lists::runs(random, &scene, descriptors);
    let everywhere: Vec<usize> = (0..descriptors).collect();
    for (fault, place) in pairs(&ListFault::ALL, &everywhere) {
        spoiled_list(harness, random, &scene, &right, (fault, place));
    }
}

fn spoiled_list(
    harness: &mut Harness,
    random: &mut Random,
    scene: &Scene,
    right: &[Descriptor],
    (fault, place): (ListFault, usize),
) {
    let mut list = right.to_vec();
    if lists::spoil(random, scene, &mut list, place, fault).is_some() {
        let call = reserve_call(random, 3, &list);
        harness.call(&mut scene.tables.clone(), &call);
    }
}

/// Lists over elements that are held, by another host or under another id, with up to two faults.
pub(super) fn reserve_conflicts(harness: &mut Harness, random: &mut Random, _: usize) {
    for _ in 0..60 {
        let mut scene = scene_for_lists(random);
        for place in 0..scene.places.len() {
            if random.percent(15) {
                let id = sound::reservation_id(random);
                let holder = random.pick(&[3, 3, 3, 4]);
                scene.hold(place, holder, id);
            }
        }
        let descriptors = random.between(1, 6);
        let mut list = lists::runs(random, &scene, descriptors);
        for _ in 0..random.below(3) {
            let fault = random.pick(&ListFault::ALL);
            let place = random.below(descriptors);
            lists::spoil(random, &scene, &mut list, place, fault);
        }
        let call = reserve_call(random, 3, &list);
        harness.call(&mut scene.tables, &call);
        let (release, _) = calls::block(random, &scene, 0x17);
        let call = calls::command(random, 3, release, Vec::new());
        harness.call(&mut scene.tables, &call);
    }
}
