//! Tables that are not sound, or may not be.

use reference::Clause;

use crate::call::Call;
use crate::generate::{calls, faults, sound};
use crate::harness::Harness;
use crate::random::Random;

pub(super) fn each_clause_broken(harness: &mut Harness, random: &mut Random, round: usize) {
    for (at, clause) in Clause::ALL.into_iter().enumerate() {
        let mut scene = faults::broken_scene(random, clause);
        let first = calls::COMMANDS[(at + round) % calls::COMMANDS.len()];
        let command = calls::plausible_command(random, &scene, first);
        harness.call(&mut scene.tables, &command);
        let event = match (at + round) % 3 {
            0 => calls::import(random, &scene),
            1 => calls::export(random, &scene),
            _ => Call::Reset,
        };
        harness.call(&mut scene.tables, &event);
    }
}

pub(super) fn pairs_of_clauses_broken(harness: &mut Harness, random: &mut Random, _: usize) {
    for _ in 0..40 {
        let mut scene = faults::doubly_broken_scene(random);
        let call = calls::plausible(random, &scene);
        harness.call(&mut scene.tables, &call);
    }
}

/// Sound or not, depending on the bit; the number of empty shelves is counted again for half of them.
pub(super) fn one_bit_of_the_tables_flipped(harness: &mut Harness, random: &mut Random, _: usize) {
    for _ in 0..60 {
        let mut scene = sound::scene(random);
        let call = calls::plausible(random, &scene);
        let table = match random.below(9) {
            0..=2 => &mut scene.tables.head,
            3..=5 => &mut scene.tables.elements,
            6 => &mut scene.tables.generations,
            7 => &mut scene.tables.masks,
            _ => &mut scene.tables.search,
        };
        let at = random.below(table.len());
        if let Some(byte) = table.get_mut(at) {
            *byte ^= 1 << random.below(8);
        }
        if random.percent(50) {
            scene.recount();
        }
        harness.call(&mut scene.tables, &call);
    }
}

/// Slices of any length, with anything in them.
pub(super) fn ragged_tables(harness: &mut Harness, random: &mut Random, _: usize) {
    let scene = sound::small_scene(random);
    for _ in 0..30 {
        let mut tables = scene.tables.clone();
        for table in tables.each() {
            let right = table.len();
            let length = random.pick(&[right, right, 0, right.saturating_sub(1), right + 1]);
            *table = match random.percent(50) {
                true => random.bytes(length),
                false => vec![0; length],
            };
        }
        let call = calls::plausible(random, &scene);
        harness.call(&mut tables, &call);
    }
}
