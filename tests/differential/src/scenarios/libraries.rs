//! Calls on sound tables, many of them carried on from call to call.

use reference::library::Kind;

use crate::call::Call;
use crate::generate::{calls, sound};
use crate::harness::Harness;
use crate::random::Random;
use crate::scene::Scene;

/// The calls of P1 to P12 and the events, each on the small library as loaded and with 1002h held by
/// host 2. What is expected of P1 to P12 is written out in the reference's own tests.
pub(super) fn small_library(harness: &mut Harness, random: &mut Random, _: usize) {
    let (address, volume) = (0x0010, 3);
    let mut calls = vec![
        Call::Import { address, volume },
        Call::Export { address },
        Call::Reset,
    ];
    for block in blocks_of_document_01() {
        calls.push(calls::command(random, 1, block, Vec::new()));
    }
    for call in calls {
        harness.call(&mut Scene::small_library().tables, &call);
        let mut held = Scene::small_library();
        held.hold(5, 2, 0);
        harness.call(&mut held.tables, &call);
    }
}

fn blocks_of_document_01() -> Vec<Vec<u8>> {
    let block = |first: u8, addresses: [u16; 3]| {
        let mut block = vec![first, 0, 0, 0];
        block.extend(addresses.iter().flat_map(|address| address.to_be_bytes()));
        block.extend([0, 0]);
        block
    };
    let moves = [
        [0x1000, 0x0100],
        [0x1001, 0x0100],
        [0x1000, 0x1002],
        [0x1000, 0x1000],
        [0x1001, 0x1001],
        [0x1000, 0x1004],
        [0x1000, 0x0001],
    ];
    let exchanges = [
        [0x1000, 0x1002, 0x1000],
        [0x1000, 0x1000, 0x1001],
        [0x1000, 0x1002, 0x1002],
        [0x1000, 0x1001, 0x1003],
    ];
    let mut blocks = vec![calls::read_block(0x10, 0, 0xFFFF, 0xFF_FFFF)];
    blocks.extend(moves.map(|[from, to]| block(0xA5, [from, to, 0])));
    blocks.extend(exchanges.map(|addresses| block(0xA6, addresses)));
    blocks.extend([48, 47, 32, 31, 8, 7].map(|room| calls::read_block(2, 0, 2, room)));
    blocks
}

pub(super) fn plausible_calls(harness: &mut Harness, random: &mut Random, _: usize) {
    for _ in 0..40 {
        let mut scene = sound::scene(random);
        for _ in 0..5 {
            let call = calls::plausible(random, &scene);
            harness.call(&mut scene.tables, &call);
        }
    }
    let mut full = sound::full_scene(random);
    for first in calls::COMMANDS {
        let call = calls::plausible_command(random, &full, first);
        harness.call(&mut full.tables, &call);
    }
}

/// Tables carried on from call to call.
pub(super) fn history(harness: &mut Harness, random: &mut Random, _: usize) {
    for small in [true, false] {
        let mut scene = match small {
            true => sound::small_scene(random),
            false => sound::scene(random),
        };
        for _ in 0..250 {
            let call = calls::plausible(random, &scene);
            harness.call(&mut scene.tables, &call);
        }
    }
}

/// Moves and exchanges carried on among few elements, some of them held.
pub(super) fn moves(harness: &mut Harness, random: &mut Random, _: usize) {
    for _ in 0..8 {
        let mut scene = sound::small_scene(random);
        for place in 0..scene.places.len() {
            if random.percent(8) {
                let holder = random.byte_between(1, 3);
                scene.hold(place, holder, 0);
            }
        }
        for _ in 0..20 {
            let first = random.pick(&[0xA5, 0xA5, 0xA6]);
            let (block, _) = calls::block(random, &scene, first);
            let host = random.between(1, 3) as u32;
            let call = calls::command(random, host, block, Vec::new());
            harness.call(&mut scene.tables, &call);
        }
    }
}

/// Moves and exchanges by the transports at both ends of 127, and by the addresses beside them.
pub(super) fn most_transports(harness: &mut Harness, random: &mut Random, _: usize) {
    let (scene, full, empty) = scene_with_most_transports(random);
    let transports = scene.places_where(|kind, _| kind == Kind::Transport);
    let address = |place: usize| scene.places[place].address;
    let (first, last) = (address(transports[0]), address(transports[126]));
    for transport in [
        0,
        first - 1,
        first,
        first + 1,
        last - 1,
        last,
        last.wrapping_add(1),
    ] {
        for (byte_0, second) in [(0xA5, 0), (0xA6, address(empty))] {
            let to = match byte_0 {
                0xA5 => address(empty),
                _ => address(full[1]),
            };
            let mut block = vec![byte_0, 0];
            for field in [transport, address(full[0]), to, second] {
                block.extend(field.to_be_bytes());
            }
            block.extend([0, 0]);
            let call = calls::command(random, 1, block, Vec::new());
            harness.call(&mut scene.tables.clone(), &call);
            let mut held = scene.clone();
            held.hold(random.pick_with_ends(&transports), 2, 0);
            harness.call(&mut held.tables, &call);
        }
    }
}

/// Two full places and an empty one beside 127 transports.
fn scene_with_most_transports(random: &mut Random) -> (Scene, [usize; 2], usize) {
    loop {
        let others = [3, 2, 1].map(|least| least + random.below(4));
        let scene = sound::quiet_scene_with(random, [127, others[0], others[1], others[2]]);
        let is_place = |kind: Kind| kind != Kind::Transport;
        let full = scene.places_where(|kind, volume| is_place(kind) && volume != 0);
        let empty = scene.places_where(|kind, volume| is_place(kind) && volume == 0);
        if let ([one, two, ..], [place, ..]) = (&full[..], &empty[..]) {
            let (full, empty) = ([*one, *two], *place);
            return (scene, full, empty);
        }
    }
}
