//! Answers of every length beside allocations and buffers of every length.

use super::pairs;
use crate::call::Call;
use crate::generate::{calls, sound};
use crate::harness::Harness;
use crate::random::Random;
use crate::scene::Scene;

/// Every allocation of one small listing, and those about the pages of a large one.
pub(super) fn listing_cuts(harness: &mut Harness, random: &mut Random, round: usize) {
    let byte_1 = [0x00, 0x10, 0x02, 0x12, 0x13, 0x00, 0x10, 0x04][round % 8];
    let small = sound::small_scene(random);
    let whole = whole_length(harness, &small, byte_1);
    for allocation in 0..=whole + 9 {
        cut_listing(harness, random, &small, (byte_1, allocation));
    }
    let large = match round % 4 {
        0 => sound::full_scene(random),
        _ => sound::quiet_scene(random),
    };
    let whole = whole_length(harness, &large, byte_1);
    for _ in 0..8 {
        let near_the_end = whole.saturating_sub(random.below(70)) + random.below(3);
        let anywhere = random.between(0, whole + 70);
        let allocation = random.pick(&[whole, near_the_end, anywhere]);
        cut_listing(harness, random, &large, (byte_1, allocation));
    }
}

fn listing_call(byte_1: u8, allocation: usize, answer: Vec<u8>) -> Call {
    let block = calls::read_block(byte_1, 0, 0xFFFF, allocation);
    Call::Command {
        entry: calls::named_entry(0xB8),
        host: 1,
        block,
        parameters: Vec::new(),
        answer,
    }
}

fn whole_length(harness: &mut Harness, scene: &Scene, byte_1: u8) -> usize {
    let call = listing_call(byte_1, 0xFF_FFFF, vec![0; 26_664]);
    harness.expect(&scene.tables, &call).count as usize
}

fn cut_listing(
    harness: &mut Harness,
    random: &mut Random,
    scene: &Scene,
    (byte_1, allocation): (u8, usize),
) {
    let roomy = listing_call(byte_1, allocation, vec![0; allocation]);
    let returned = harness.expect(&scene.tables, &roomy).count as usize;
    let buffer = buffer_about(random, returned);
    let call = listing_call(byte_1, allocation, buffer);
    harness.call(&mut scene.tables.clone(), &call);
}

/// Shorter than the bytes returned, as long, or longer.
pub(super) fn buffer_about(random: &mut Random, returned: usize) -> Vec<u8> {
    let length = match random.below(5) {
        0 => returned.saturating_sub(1),
        1 => random.below(returned + 1),
        2 => returned + random.between(1, 20),
        _ => returned,
    };
    random.bytes(length)
}

/// The largest answer there is, whole and short of one byte, with buffers about its length and beyond 65,536 bytes.
pub(super) fn largest_listing(harness: &mut Harness, random: &mut Random, _: usize) {
    let [transports, ports, drives] = [127, 200, 100].map(|most| random.between(1, most));
    let counts = [transports, 512 - transports - ports - drives, ports, drives];
    let scene = sound::quiet_scene_with(random, counts);
    let whole = whole_length(harness, &scene, 0x10);
    for allocation in [whole, whole + 1, whole - 1, 0xFF_FFFF] {
        for buffer in [whole, whole + 1, whole - 1, 65_536, 65_536 + whole - 1] {
            let call = listing_call(0x10, allocation, random.bytes(buffer));
            harness.call(&mut scene.tables.clone(), &call);
        }
    }
}

/// REQUEST SENSE with and without sense and attention, for every length of interest.
pub(super) fn sense_cuts(harness: &mut Harness, random: &mut Random, _: usize) {
    for allocation in (0..=20).chain([128, 254, 255]) {
        for (stored, attention) in pairs(&[false, true], &[false, true]) {
            let mut scene = sound::small_scene(random);
            let host = random.byte_between(1, 8);
            let sense = match stored {
                true => sound::stored_sense(random),
                false => [0, 0, 0],
            };
            scene.host_record(host)[..3].copy_from_slice(&sense);
            if attention {
                let codes = random.pick(&[[0x28, 0x01], [0x29, 0x00]]);
                scene.host_record(host)[3..].copy_from_slice(&codes);
            }
            let returned = usize::from(allocation).min(18);
            for answer in [buffer_about(random, returned), random.bytes(returned)] {
                let call = Call::Command {
                    entry: calls::named_entry(0x03),
                    host: host.into(),
                    block: vec![0x03, 0, 0, 0, allocation, 0],
                    parameters: Vec::new(),
                    answer,
                };
                harness.call(&mut scene.tables.clone(), &call);
            }
        }
    }
}
