//! Transport 0: who holds which arm, and what is wrong besides.

use reference::library::Kind;

use super::pairs;
use crate::call::Call;
use crate::generate::logs;
use crate::generate::{calls, sound};
use crate::harness::Harness;
use crate::random::Random;
use crate::scene::{bit, Scene, MOST_GENERATION};
use crate::tally::{First, Outcome};

/// The calling host, which every call here is from.
const HOST: u8 = 1;

/// What is wrong with the command but for its arm.
#[derive(Clone, Copy, PartialEq, Eq)]
enum Wrong {
    Nothing,
    Address,
    Held,
    Empty,
    Full,
    Cartridge,
}

const WRONG: [Wrong; 6] = [
    Wrong::Nothing,
    Wrong::Address,
    Wrong::Held,
    Wrong::Empty,
    Wrong::Full,
    Wrong::Cartridge,
];

/// Quiet tables with so many arms: two full shelves and an empty one, an empty drive that takes everything.
fn scene_with(random: &mut Random, arms: usize) -> Scene {
    let shelves = 3 + random.below(2);
    let mut scene = sound::quiet_scene_with(random, [arms, shelves, 2, 1]);
    scene.tables.elements.fill(0);
    scene.relabel(random.bytes(36 * 4));
    scene.take_all();
    for (volume, shelf) in (1..=2).zip(shelves_of(&scene)) {
        scene.set_volume(shelf, volume);
    }
    scene.recount();
    scene
}

fn arms(scene: &Scene) -> Vec<usize> {
    scene.places_where(|kind, _| kind == Kind::Transport)
}

fn shelves_of(scene: &Scene) -> Vec<usize> {
    scene.places_where(|kind, _| kind == Kind::Storage)
}

/// Holders of so many arms by the digits of a number: nobody, this host, another host.
fn hold_arms(random: &mut Random, scene: &mut Scene, pattern: usize) {
    let mut rest = pattern;
    for arm in arms(scene) {
        let another = random.byte_between(HOST + 1, 8);
        let holder = [0, HOST, another][rest % 3];
        let id = match holder {
            0 => 0,
            _ => sound::reservation_id(random),
        };
        scene.hold(arm, holder, id);
        rest /= 3;
    }
}

/// Every arm is another host's.
fn hold_all(random: &mut Random, scene: &mut Scene) {
    for arm in arms(scene) {
        let another = random.byte_between(HOST + 1, 8);
        scene.hold(arm, another, 0);
    }
}

/// From a full shelf to the empty drive, or to the empty shelf by way of the other full one; with something wrong.
fn block(random: &mut Random, scene: &mut Scene, first: u8, arm: u16, wrong: Wrong) -> Vec<u8> {
    let shelves = shelves_of(scene);
    let drive = scene.drives()[0];
    let mut places = match first {
        0xA5 => vec![shelves[0], drive],
        _ => vec![shelves[0], shelves[1], drive],
    };
    match wrong {
        Wrong::Nothing | Wrong::Address => {}
        Wrong::Held => scene.hold(random.pick(&places), HOST + 1, 0),
        Wrong::Empty => places[0] = shelves[2],
        Wrong::Full => *last(&mut places) = shelves[1],
        Wrong::Cartridge => {
            let volume = if first == 0xA5 { 1 } else { 2 };
            let generation = random.byte_between(1, MOST_GENERATION);
            scene.set_generation(volume, generation);
            *scene.mask(drive) = !bit(generation);
        }
    }
    let mut addresses: Vec<u16> = places.iter().map(|&at| scene.places[at].address).collect();
    if wrong == Wrong::Address {
        let at = random.below(addresses.len());
        addresses[at] = random.pick(&[0, scene.places[arms(scene)[0]].address]);
    }
    let mut block = vec![first, 0];
    for address in [arm].into_iter().chain(addresses) {
        block.extend(address.to_be_bytes());
    }
    block.resize(12, 0);
    block
}

fn last(places: &mut [usize]) -> &mut usize {
    places.last_mut().expect("there are two places or three")
}

fn send(harness: &mut Harness, random: &mut Random, scene: &mut Scene, block: Vec<u8>) {
    let call = calls::command(random, HOST.into(), block, Vec::new());
    harness.call(&mut scene.tables, &call);
}

/// One arm, two, three and four: nobody's, this host's or another's, each in every combination; any arm is asked for, and each by its address.
pub(super) fn each_holder(harness: &mut Harness, random: &mut Random, round: usize) {
    for (many, first) in pairs(&[1, 2, 3, 4], &[0xA5, 0xA6]) {
        for pattern in 0..3_usize.pow(many) {
            // Those of four arms take turns.
            if many == 4 && pattern % 5 != round % 5 {
                continue;
            }
            let mut scene = scene_with(random, many as usize);
            hold_arms(random, &mut scene, pattern);
            let any = block(random, &mut scene, first, 0, Wrong::Nothing);
            send(harness, random, &mut scene.clone(), any);
            let named = scene.places[random.pick(&arms(&scene))].address;
            let named = block(random, &mut scene, first, named, Wrong::Nothing);
            send(harness, random, &mut scene, named);
        }
    }
}

/// Any arm, where none is free, the first is, or the last; and one thing wrong besides.
pub(super) fn whatever_is_wrong_besides(harness: &mut Harness, random: &mut Random, _: usize) {
    for (many, first) in pairs(&[1, 2, 3, 5], &[0xA5, 0xA6]) {
        for (free, wrong) in pairs(&[None, Some(0), Some(many - 1)], &WRONG) {
            let mut scene = scene_with(random, many);
            hold_all(random, &mut scene);
            if let Some(free) = free {
                let arm = arms(&scene)[free];
                let holder = random.pick(&[0, HOST]);
                scene.hold(arm, holder, 0);
            }
            let block = block(random, &mut scene, first, 0, wrong);
            send(harness, random, &mut scene, block);
        }
    }
}

/// A recorded MOVE or EXCHANGE with transport 0, where another host holds the first of two arms, or both.
pub(super) fn replayed(harness: &mut Harness, random: &mut Random, _: usize) {
    for (first, free) in pairs(&[0xA5, 0xA6], &[true, false]) {
        let mut scene = scene_with(random, 2);
        hold_all(random, &mut scene);
        if free {
            let arm = arms(&scene)[1];
            scene.hold(arm, 0, 0);
        }
        let block = block(random, &mut scene, first, 0, Wrong::Nothing);
        let call = Call::Command {
            entry: calls::named_entry(first),
            host: HOST.into(),
            block,
            parameters: Vec::new(),
            answer: Vec::new(),
        };
        let line = logs::record(&mut scene.clone(), 1, call);
        let log = Call::Replay {
            log: logs::text(&[line]),
            expected: 1,
            budget: 1,
        };
        if harness.call(&mut scene.tables, &log).is_some() {
            harness.reach(Outcome::LineByALaterArm(First::Known(first), free));
        }
    }
}
