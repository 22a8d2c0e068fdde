//! Labels, searches for them, and the lists that begin a search.

use super::calls::any_address;
use crate::random::Random;
use crate::scene::{Scene, SEARCH_LENGTH, TEMPLATE_LENGTH};

const LABEL: usize = 36;
/// Where a label has its sequence number.
const SEQUENCE: usize = 34;
const ANY_CHARACTER: u8 = b'?';
const ANY_STRING: u8 = b'*';

/// The actions of a search.
pub const ACTIONS: [u8; 2] = [1, 5];

/// Labels of any bytes, or readable ones of few letters, so that several begin alike.
pub fn labels(random: &mut Random, volumes: usize) -> Vec<u8> {
    if random.percent(25) {
        return random.bytes(LABEL * volumes);
    }
    let letters = random
        .pick(&["AB", "FILM", "ab?*", "A", "\0 Aa"])
        .as_bytes();
    let fill = random.pick(b"    \0");
    (0..volumes)
        .flat_map(|_| label(random, letters, fill))
        .collect()
}

fn label(random: &mut Random, letters: &[u8], fill: u8) -> Vec<u8> {
    let written = random.pick(&[0, 1, 2, 3, 8, 31, 32]);
    let mut label: Vec<u8> = (0..written).map(|_| random.pick(letters)).collect();
    label.resize(TEMPLATE_LENGTH, fill);
    label.extend([0, 0]);
    label.extend(sequence(random).to_be_bytes());
    label
}

/// Few different ones, and those in which the low byte alone, or the high one, is more.
fn sequence(random: &mut Random) -> u16 {
    let any = random.word() as u16;
    random.pick(&[0, 0, 1, 2, 3, 255, 256, 257, 65_535, any])
}

fn label_of(scene: &Scene, volume: u16) -> Option<&[u8]> {
    let before = usize::from(volume).checked_sub(1)?;
    scene.tables.tags.chunks_exact(LABEL).nth(before)
}

/// The label of a volume that is in the library, mostly; else of any volume, or the blank one. None where broken tables have none.
fn wanted(random: &mut Random, scene: &Scene) -> Option<Vec<u8>> {
    let full = scene.places_where(|_, volume| volume != 0);
    let volume = match full.is_empty() || random.percent(10) {
        true => random.below(scene.volumes() + 1) as u16,
        false => scene.volume(random.pick_with_ends(&full)),
    };
    let found = label_of(scene, volume).unwrap_or(&scene.tables.blank);
    (found.len() == LABEL).then(|| found.to_vec())
}

/// A template that goes with a label: whole, with wild cards in it, spoiled in one byte, or anything.
fn template(random: &mut Random, label: &[u8]) -> Vec<u8> {
    let mut template = label[..TEMPLATE_LENGTH].to_vec();
    match random.below(10) {
        0 => {}
        1 | 2 => question_marks(random, &mut template),
        3..=5 => star(random, &mut template),
        6 => {
            question_marks(random, &mut template);
            star(random, &mut template);
        }
        7 => template.fill(ANY_CHARACTER),
        8 => {
            let at = spoiled_place(random);
            template[at] ^= random.pick(&[1, 0x20, 0x80, 0xFF]);
            if random.percent(40) {
                star(random, &mut template);
            }
        }
        _ => template = random.bytes(TEMPLATE_LENGTH),
    }
    template
}

fn spoiled_place(random: &mut Random) -> usize {
    let any = random.below(TEMPLATE_LENGTH);
    random.pick(&[0, 1, 7, TEMPLATE_LENGTH - 2, TEMPLATE_LENGTH - 1, any])
}

fn question_marks(random: &mut Random, template: &mut [u8]) {
    for _ in 0..random.pick(&[1, 1, 2, 5, 20]) {
        template[spoiled_place(random)] = ANY_CHARACTER;
    }
}

/// At any place, the first and the last too; what stands behind it goes with the label or does not.
fn star(random: &mut Random, template: &mut [u8]) {
    let at = random.pick(&[0, 0, 1, 1, 2, 3, 4, 8, 31, 31]);
    template[at] = ANY_STRING;
    let behind = &mut template[at + 1..];
    match random.below(4) {
        0 => {}
        1 => behind.fill(0),
        2 => behind.fill(b' '),
        _ => behind
            .iter_mut()
            .for_each(|byte| *byte = random.pick(b"AB*? x")),
    }
}

/// Least and greatest: about a sequence number, all of them, or none.
fn range(random: &mut Random, number: u16) -> [u16; 2] {
    let [below, above] = [number.saturating_sub(1), number.saturating_add(1)];
    match random.below(12) {
        0..=3 => [0, 0xFFFF],
        4 => [number, number],
        5 => [number, 0xFFFF],
        6 => [0, number],
        7 => [above, 0xFFFF],
        8 => [0, below],
        9 => [above, below],
        10 => [0xFFFF, 0],
        _ => [random.word() as u16, random.word() as u16],
    }
}

/// Template, least and greatest sequence number.
pub fn sought(random: &mut Random, scene: &Scene) -> (Vec<u8>, [u16; 2]) {
    let Some(label) = wanted(random, scene) else {
        return (vec![ANY_CHARACTER; TEMPLATE_LENGTH], [0, 0xFFFF]);
    };
    let number = u16::from_be_bytes([label[SEQUENCE], label[SEQUENCE + 1]]);
    (template(random, &label), range(random, number))
}

/// 0 mostly, for all.
fn kind(random: &mut Random) -> u8 {
    random.pick(&[0, 0, 0, 0, 1, 2, 2, 3, 4])
}

/// A search such as one could be: at its start, gone on with anywhere, or at its end.
pub fn search(random: &mut Random, scene: &Scene) -> Vec<u8> {
    let (mut search, range) = sought(random, scene);
    let next = match random.below(8) {
        0..=3 => 0,
        4 => 0x1_0000,
        5 => u32::from(any_address(random, scene)) + 1,
        _ => any_address(random, scene).into(),
    };
    search.extend([kind(random), random.pick(&ACTIONS)]);
    search.extend(range.map(u16::to_be_bytes).concat());
    search.extend(&next.to_be_bytes()[1..]);
    assert_eq!(search.len(), SEARCH_LENGTH);
    search
}

/// The 40 bytes of SEND VOLUME TAG.
pub fn list(template: &[u8], [least, greatest]: [u16; 2]) -> Vec<u8> {
    let mut list = template.to_vec();
    list.extend([0, 0]);
    list.extend(least.to_be_bytes());
    list.extend([0, 0]);
    list.extend(greatest.to_be_bytes());
    list
}

/// The block of SEND VOLUME TAG with a list of this length.
pub fn send_block(byte_1: u8, start: u16, action: u8, length: usize) -> Vec<u8> {
    let mut block = vec![0xB6, byte_1];
    block.extend(start.to_be_bytes());
    block.extend([0, action, 0, 0]);
    block.extend((length as u16).to_be_bytes());
    block.extend([0, 0]);
    block
}

/// Block and list of a plausible SEND VOLUME TAG.
pub fn send(random: &mut Random, scene: &Scene, ignored: u8) -> (Vec<u8>, Vec<u8>) {
    let (template, range) = sought(random, scene);
    let mut list = list(&template, range);
    match random.below(20) {
        0 => list[random.pick(&[32, 33, 36, 37])] = random.byte_between(1, 255),
        1 => list.truncate(39),
        2 => list.push(0),
        _ => {}
    }
    let start = match random.percent(70) {
        true => 0,
        false => any_address(random, scene),
    };
    let action = match random.percent(95) {
        true => random.pick(&ACTIONS),
        false => random.byte_between(0, 31),
    };
    let block = send_block(kind(random) | ignored, start, action, list.len());
    (block, list)
}
