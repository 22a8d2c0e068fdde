//! The number of empty shelves: where it takes two bytes, and where it is not the true one.

use reference::library::Kind;

use crate::call::Call;
use crate::generate::{calls, sound};
use crate::harness::Harness;
use crate::random::Random;
use crate::scene::Scene;

/// Quiet tables with so many empty shelves; two other shelves, a drive and a mail slot are full, and one of each is empty.
fn scene_with(random: &mut Random, empty: usize) -> (Scene, [usize; 4]) {
    let mut scene = sound::quiet_scene_with(random, [1, empty + 2, 2, 2]);
    scene.tables.elements.fill(0);
    scene.relabel(random.bytes(36 * 8));
    scene.take_all();
    let mut shelves = scene.places_where(|kind, _| kind == Kind::Storage);
    random.shuffle(&mut shelves);
    let of = |kind: Kind| scene.places_where(|found, _| found == kind)[0];
    let (drive, port) = (of(Kind::Drive), of(Kind::ImportExport));
    let full = [shelves[0], shelves[1], drive, port];
    for (volume, place) in (1..).zip(full) {
        scene.set_volume(place, volume);
    }
    scene.recount();
    (scene, full)
}

fn empty(random: &mut Random, scene: &Scene, kind: Kind) -> usize {
    let places = scene.places_where(|found, volume| found == kind && volume == 0);
    random.pick_with_ends(&places)
}

fn block(first: u8, scene: &Scene, places: &[usize]) -> Vec<u8> {
    let mut block = vec![first, 0, 0, 0];
    for &place in places {
        block.extend(scene.places[place].address.to_be_bytes());
    }
    block.resize(12, 0);
    block
}

/// The call, and the one that undoes it.
fn there_and_back(
    harness: &mut Harness,
    random: &mut Random,
    scene: &Scene,
    ways: [(u8, Vec<usize>); 2],
) {
    let mut scene = scene.clone();
    for (first, places) in ways {
        let block = block(first, &scene, &places);
        let call = calls::command(random, 1, block, Vec::new());
        harness.call(&mut scene.tables, &call);
    }
}

/// 255, 256 and 257 empty shelves, and those about 0: one more, one fewer, as many, by MOVE and by EXCHANGE, and the way back.
pub(super) fn past_255_and_back(harness: &mut Harness, random: &mut Random, _: usize) {
    for shelves in [1, 2, 254, 255, 256, 257] {
        let (scene, [shelf, other, drive, port]) = scene_with(random, shelves);
        let free = empty(random, &scene, Kind::Storage);
        let free_drive = empty(random, &scene, Kind::Drive);
        let free_port = empty(random, &scene, Kind::ImportExport);
        for (from, to) in [
            (shelf, free_drive),
            (shelf, free_port),
            (drive, free),
            (port, free),
            (other, free),
            (drive, free_port),
        ] {
            let ways = [(0xA5, vec![from, to]), (0xA5, vec![to, from])];
            there_and_back(harness, random, &scene, ways);
        }
        for (source, first, second) in [
            (shelf, drive, free_port),
            (shelf, other, free_drive),
            (drive, shelf, free),
            (port, drive, free),
            (shelf, other, free),
            (drive, port, free_drive),
            (shelf, drive, shelf),
            (drive, shelf, drive),
            (shelf, other, shelf),
        ] {
            let back = match source == second {
                true => vec![source, first, source],
                false => vec![second, first, source],
            };
            let ways = [(0xA6, vec![source, first, second]), (0xA6, back)];
            there_and_back(harness, random, &scene, ways);
        }
    }
}

/// One too many and too few, in the low byte and in the high one, on small tables and on those with about 256 empty shelves; any call is refused.
pub(super) fn wrong_numbers(harness: &mut Harness, random: &mut Random, _: usize) {
    for shelves in [0, 1, 3, 255, 256, 400] {
        let (scene, _) = scene_with(random, shelves);
        let right = scene.shown_empty_shelves();
        let wrong = [
            right.wrapping_add(1),
            right.wrapping_sub(1),
            right ^ 0x0080,
            right ^ 0x0100,
            right ^ 0x8000,
            right.swap_bytes(),
        ];
        for number in wrong {
            let mut scene = scene.clone();
            scene.show_empty_shelves(number);
            for call in [calls::plausible(random, &scene), Call::Reset] {
                harness.call(&mut scene.tables, &call);
            }
        }
    }
}
