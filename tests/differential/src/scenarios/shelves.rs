//! Sources: a volume with one and without one taken from each kind of place to each, and each address as a source.

use reference::library::Kind;

use super::pairs;
use crate::call::Call;
use crate::generate::{calls, sound};
use crate::harness::Harness;
use crate::random::Random;
use crate::scene::Scene;
use crate::tally::PLACES;

/// Quiet and empty: one or two transports, three or four places of each other kind, and volumes enough.
fn empty_scene(random: &mut Random) -> Scene {
    let counts = [1, 3, 3, 3].map(|least| least + random.below(2));
    let mut scene = sound::quiet_scene_with(random, counts);
    scene.tables.elements.fill(0);
    scene.recount();
    scene.relabel(random.bytes(36 * 8));
    scene.take_all();
    scene
}

/// An empty place of this kind; at most two of at least three are ever full.
fn empty_place(random: &mut Random, scene: &Scene, kind: Kind) -> usize {
    let places = scene.places_where(|found, volume| found == kind && volume == 0);
    random.pick(&places)
}

/// A volume that is not there yet, with any shelf as its source or with none.
fn put(random: &mut Random, scene: &mut Scene, place: usize, has_source: bool) {
    let absent = scene.absent_volume();
    scene.set_volume(place, absent.unwrap_or(0));
    if has_source {
        let shelves = scene.places_where(|kind, _| kind == Kind::Storage);
        let source = scene.places[random.pick(&shelves)].address;
        scene.set_source(place, source);
    } else if scene.places[place].kind == Kind::ImportExport {
        scene.set_mark(place, random.byte_between(0, 1));
    }
    scene.recount();
}

fn block(first: u8, scene: &Scene, places: [usize; 3]) -> Vec<u8> {
    let mut block = vec![first, 0, 0, 0];
    for place in places {
        block.extend(scene.places[place].address.to_be_bytes());
    }
    block.extend([0, 0]);
    if first == 0xA5 {
        block[8..10].fill(0);
    }
    block
}

/// The call, and the listing of all that is then there.
fn carry_and_list(harness: &mut Harness, random: &mut Random, scene: &mut Scene, block: Vec<u8>) {
    let call = calls::command(random, 1, block, Vec::new());
    harness.call(&mut scene.tables, &call);
    let listing = Call::Command {
        entry: calls::named_entry(0xB8),
        host: 1,
        block: calls::read_block(0, 0, 0xFFFF, 600),
        parameters: Vec::new(),
        answer: random.bytes(600),
    };
    harness.call(&mut scene.tables, &listing);
}

/// From each kind of place to each, and from there on: what is kept over two moves shows then.
pub(super) fn moves_of_each_kind(harness: &mut Harness, random: &mut Random, _: usize) {
    for (from, to) in pairs(&PLACES, &PLACES) {
        for has_source in [false, true] {
            let mut scene = empty_scene(random);
            let start = empty_place(random, &scene, from);
            put(random, &mut scene, start, has_source);
            let mut left = start;
            for kind in [to, Kind::ImportExport, Kind::Storage] {
                let next = empty_place(random, &scene, kind);
                let block = block(0xA5, &scene, [left, next, next]);
                carry_and_list(harness, random, &mut scene, block);
                left = next;
            }
        }
    }
}

/// Between each two kinds of places, each volume with a source and without; to a third place, and as a swap that is made twice.
pub(super) fn exchanges_of_each_kind(harness: &mut Harness, random: &mut Random, _: usize) {
    let leaving = pairs(&PLACES, &[false, true]);
    for (of_source, of_first) in pairs(&leaving, &leaving) {
        let mut scene = empty_scene(random);
        let [source, first] = [of_source, of_first].map(|(kind, has_source)| {
            let place = empty_place(random, &scene, kind);
            put(random, &mut scene, place, has_source);
            place
        });
        let third = random.pick(&PLACES);
        let third = empty_place(random, &scene, third);
        let elsewhere = block(0xA6, &scene, [source, first, third]);
        carry_and_list(harness, random, &mut scene.clone(), elsewhere);
        let swap = block(0xA6, &scene, [source, first, source]);
        carry_and_list(harness, random, &mut scene, swap.clone());
        carry_and_list(harness, random, &mut scene, swap);
    }
}

/// Every element's address, those beside them and 0, as the source of a volume on a shelf, in a drive and in a mail slot, and of an empty place.
pub(super) fn sources_of_each_kind(harness: &mut Harness, random: &mut Random, _: usize) {
    let scene = empty_scene(random);
    let mut sources = vec![0, 65_535];
    for place in &scene.places {
        sources.extend([
            place.address - 1,
            place.address,
            place.address.wrapping_add(1),
        ]);
    }
    for (kind, source) in pairs(&PLACES, &sources) {
        let mut given = scene.clone();
        let place = empty_place(random, &given, kind);
        if random.percent(90) {
            put(random, &mut given, place, false);
        }
        given.set_source(place, source);
        let call = calls::plausible(random, &given);
        harness.call(&mut given.tables, &call);
    }
}
