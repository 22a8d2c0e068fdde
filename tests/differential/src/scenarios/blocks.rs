//! Command blocks, parameters and hosts, right and wrong.

use crate::generate::{calls, sound};
use crate::harness::Harness;
use crate::random::Random;

/// Each command with attention, with another host's unit, with both, and a stray bit besides.
pub(super) fn early_steps(harness: &mut Harness, random: &mut Random, _: usize) {
    for first in calls::COMMANDS
        .into_iter()
        .chain([0x12, 0x5E, 0x7F, 0x88, 0xB4, 0xC0])
    {
        for case in 0..8 {
            let mut scene = sound::quiet_scene(random);
            let (mut block, parameters) = calls::block(random, &scene, first);
            block.resize(calls::block_length(first), 0);
            let host = random.byte_between(1, 8);
            if case & 1 != 0 {
                let codes = random.pick(&[[0x28, 0x01], [0x29, 0x00]]);
                scene.host_record(host)[3..].copy_from_slice(&codes);
            }
            if case & 2 != 0 {
                scene.hold_unit(host % 8 + 1);
            }
            if case & 4 != 0 {
                *block.last_mut().expect("no block is empty") |= 1;
            }
            let call = calls::command(random, host.into(), block, parameters);
            harness.call(&mut scene.tables, &call);
            harness.call(&mut scene.tables, &call);
        }
    }
}

/// Every bit of every block, the first byte's too.
pub(super) fn bits_of_blocks_flipped(harness: &mut Harness, random: &mut Random, _: usize) {
    for first in calls::COMMANDS {
        let scene = sound::quiet_scene(random);
        let (block, parameters) = calls::block(random, &scene, first);
        let host = random.between(1, 8) as u32;
        for bit in 0..8 * block.len() {
            let mut flipped = block.clone();
            flipped[bit / 8] ^= 1 << (bit % 8);
            let list = match flipped[0] {
                0x16 => list_as_long_as_said(&flipped[3..5], &parameters),
                0xB6 => list_as_long_as_said(&flipped[8..10], &parameters),
                _ => Vec::new(),
            };
            let call = calls::command(random, host, flipped, list);
            harness.call(&mut scene.tables.clone(), &call);
        }
    }
}

fn list_as_long_as_said(said: &[u8], list: &[u8]) -> Vec<u8> {
    let mut list = list.to_vec();
    list.resize(u16::from_be_bytes([said[0], said[1]]).into(), 0);
    list
}

/// Lengths 0 to 17 of every known first byte, and of sixteen more from all groups; after sixteen rounds
/// every first byte was there.
pub(super) fn block_lengths(harness: &mut Harness, random: &mut Random, round: usize) {
    let others = (0..16).map(|at| (16 * at + round % 16) as u8);
    for first in calls::COMMANDS.into_iter().chain(others) {
        let mut scene = sound::small_scene(random);
        let (block, parameters) = calls::block(random, &scene, first);
        for length in 0..=17 {
            let mut block = block.clone();
            block.resize(length, 0);
            let call = calls::command(random, 1, block, parameters.clone());
            harness.call(&mut scene.tables, &call);
        }
    }
}

/// Right and wrong numbers of parameter bytes, for known and unknown first bytes.
pub(super) fn parameter_lengths(harness: &mut Harness, random: &mut Random, _: usize) {
    for first in calls::COMMANDS.into_iter().chain([0x12, 0x5E, 0xB4, 0xC1]) {
        for length in [0, 1, 5, 6, 7, 12, 39, 40, 41, 255, 262, 296] {
            let mut scene = sound::small_scene(random);
            let (mut block, _) = calls::block(random, &scene, first);
            block.resize(calls::block_length(first), 0);
            let (at, usual) = match first {
                0x16 => (3, 6),
                _ => (8, 40),
            };
            if [0x16, 0xB6].contains(&first) {
                let said = random.pick(&[length, length, length + 1, length ^ 0x0100, usual]);
                block[at..at + 2].copy_from_slice(&(said as u16).to_be_bytes());
            }
            let parameters = match random.percent(50) {
                true => vec![0; length],
                false => random.bytes(length),
            };
            let call = calls::command(random, 2, block, parameters);
            harness.call(&mut scene.tables, &call);
        }
    }
}

pub(super) fn hosts(harness: &mut Harness, random: &mut Random, _: usize) {
    let edges = [256, 257, 264, 65_537, 0x0100_0001, 0x8000_0001, u32::MAX];
    for host in (0..=9).chain(edges) {
        for first in calls::COMMANDS {
            let mut scene = sound::small_scene(random);
            let (block, parameters) = calls::block(random, &scene, first);
            let call = calls::command(random, host, block, parameters);
            harness.call(&mut scene.tables, &call);
        }
    }
}
