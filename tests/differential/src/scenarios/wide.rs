//! Slices longer than one or two bytes can say. Each would be of the right length if that were cut.

use super::pairs;
use crate::call::Call;
use crate::generate::{calls, sound};
use crate::harness::Harness;
use crate::random::Random;
use crate::scene::Scene;

const TWO_BYTES: usize = 65_536;
const BEYOND: [usize; 2] = [256, TWO_BYTES];

/// Each table in turn.
pub(super) fn tables(harness: &mut Harness, random: &mut Random, _: usize) {
    let tables = Scene::small_library().tables.each().len();
    for (more, table) in pairs(&BEYOND, &(0..tables).collect::<Vec<_>>()) {
        let mut scene = sound::quiet_scene(random);
        let call = calls::plausible(random, &scene);
        let bytes = &mut *scene.tables.each()[table];
        bytes.resize(bytes.len() + more, 0);
        harness.call(&mut scene.tables, &call);
    }
}

/// Block, parameters and answer buffer, for known and unknown first bytes.
pub(super) fn requests(harness: &mut Harness, random: &mut Random, _: usize) {
    for first in calls::COMMANDS
        .into_iter()
        .chain([0x12, 0x5E, 0x7F, 0x88, 0xB4, 0xC0, 0xE1])
    {
        for slice in 0..3 {
            for more in BEYOND {
                let scene = sound::small_scene(random);
                let (mut block, mut parameters) = calls::block(random, &scene, first);
                block.resize(calls::block_length(first), 0);
                let mut answer = random.bytes(600);
                match slice {
                    0 => block.resize(block.len() + more, 0),
                    1 => parameters.resize(parameters.len() + more, 0),
                    // Cut, it has no room for anything.
                    _ => answer = random.bytes(TWO_BYTES),
                }
                let call = Call::Command {
                    entry: calls::entry(random, &block),
                    host: 1,
                    block,
                    parameters,
                    answer,
                };
                harness.call(&mut scene.tables.clone(), &call);
            }
        }
    }
}
