//! MODE SENSE: each page at each cut, each field of the block, and answers about as long as they may be.

use super::cuts::buffer_about;
use super::pairs;
use crate::call::Call;
use crate::generate::calls::{self, MODE_PAGES};
use crate::generate::sound;
use crate::harness::Harness;
use crate::random::Random;
use crate::scene::Scene;

/// How many transports make the answer 254, 256, 258 bytes long, or the most that there may be.
const ABOUT_THE_LONGEST: [usize; 7] = [104, 105, 106, 124, 125, 126, 127];

fn mode_call(random: &mut Random, block: Vec<u8>, answer: Vec<u8>) -> Call {
    Call::Command {
        entry: calls::entry(random, &block),
        host: 1,
        block,
        parameters: Vec::new(),
        answer,
    }
}

/// The call with a buffer about as long as what it returns, and with one just as long. Host 1 may have sense, which number 5
/// leaves as it is.
fn cut_pages(
    harness: &mut Harness,
    random: &mut Random,
    scene: &Scene,
    (page, allocation): (u8, u8),
) {
    let byte_1 = random.pick(&[0x00, 0x08, 0xE0, 0xE8]);
    let block = calls::mode_block(byte_1, page, allocation);
    let roomy = mode_call(random, block.clone(), vec![0; 255]);
    let returned = harness.expect(&scene.tables, &roomy).count as usize;
    for buffer in [buffer_about(random, returned), random.bytes(returned)] {
        let call = mode_call(random, block.clone(), buffer);
        harness.call(&mut scene.tables.clone(), &call);
    }
}

/// How long the answer is; less than the largest allocation, in a small library.
fn whole_length(harness: &mut Harness, scene: &Scene, page: u8) -> usize {
    let call = Call::Command {
        entry: calls::named_entry(0x1A),
        host: 1,
        block: calls::mode_block(0, page, 255),
        parameters: Vec::new(),
        answer: vec![0; 255],
    };
    harness.expect(&scene.tables, &call).count as usize
}

/// Each page of a small library, at each allocation up to one more than it needs, and at the largest.
pub(super) fn mode_cuts(harness: &mut Harness, random: &mut Random, _: usize) {
    for page in MODE_PAGES {
        let scene = sound::small_scene(random);
        let whole = whole_length(harness, &scene, page);
        for allocation in (0..=whole + 1).chain([255]) {
            cut_pages(harness, random, &scene, (page, allocation as u8));
        }
    }
}

/// Every page code with current values, the other page controls, and every bit that is or is not looked at. Each block
/// with the unit open, and held by another host: then no fault is told.
pub(super) fn mode_fields(harness: &mut Harness, random: &mut Random, _: usize) {
    let pages = (0..=0x3F).map(|page| calls::mode_block(0, page, 255));
    let other_controls = pairs(&[0x40, 0x80, 0xC0], &MODE_PAGES);
    let controls = other_controls
        .iter()
        .map(|(control, page)| calls::mode_block(0, control | page, 255));
    let mut blocks: Vec<Vec<u8>> = pages.chain(controls).collect();
    for (byte, bit) in pairs(&[1, 3, 5], &[0, 1, 2, 3, 4, 5, 6, 7]) {
        let mut block = calls::mode_block(0, random.pick(&MODE_PAGES), 255);
        block[byte] |= 1 << bit;
        blocks.push(block);
    }
    for block in blocks {
        let mut scene = sound::small_scene(random);
        let room = random.bytes(64);
        let call = mode_call(random, block, room);
        harness.call(&mut scene.tables.clone(), &call);
        scene.hold_unit(random.byte_between(2, 8));
        harness.call(&mut scene.tables, &call);
    }
}

/// With so many transports that an answer is just short enough, or too long whatever the allocation.
pub(super) fn many_transports(harness: &mut Harness, random: &mut Random, _: usize) {
    for transports in ABOUT_THE_LONGEST {
        let others = [1, 0, 0].map(|least| least + random.below(3));
        let counts = [transports, others[0], others[1], others[2]];
        let scene = sound::quiet_scene_with(random, counts);
        for page in MODE_PAGES {
            let anywhere = random.byte();
            for allocation in [0, 4, anywhere, 254, 255] {
                cut_pages(harness, random, &scene, (page, allocation));
            }
        }
    }
}
