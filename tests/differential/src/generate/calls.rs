//! Calls with plausible fields.

use reference::library::Kind;
use reference::Entry;

use super::{lists, searches, sound};
use crate::call::Call;
use crate::random::Random;
use crate::scene::Scene;

/// The first bytes of the commands, in the order of their entries.
pub const COMMANDS: [u8; 11] = [
    0x00, 0x03, 0x16, 0x17, 0x1E, 0xA5, 0xA6, 0xB8, 0x1A, 0xB6, 0xB5,
];

/// The pages of MODE SENSE.
pub const MODE_PAGES: [u8; 4] = [0x1D, 0x1E, 0x1F, 0x3F];

/// The commands as often as [`plausible`] takes them.
const OFTEN_MOVES: [u8; 17] = [
    0x00, 0x03, 0x16, 0x17, 0x17, 0x1E, 0xA5, 0xA5, 0xA5, 0xA5, 0xA6, 0xA6, 0xB8, 0x1A, 0xB6, 0xB5,
    0xB5,
];

/// The entry named after the command of this first byte.
pub fn named_entry(first: u8) -> Entry {
    let at = COMMANDS.iter().position(|&command| command == first);
    at.map_or(Entry::Command, |at| Entry::ALL[at + 1])
}

/// The length of the first byte's group, 12 where any will do.
pub fn block_length(first: u8) -> usize {
    match first >> 5 {
        0 => 6,
        1 | 2 => 10,
        4 => 16,
        _ => 12,
    }
}

/// Mostly the entry of the command's name, sometimes the one for any block, sometimes a wrong one.
pub fn entry(random: &mut Random, block: &[u8]) -> Entry {
    match random.below(10) {
        0..=5 => block
            .first()
            .map_or(Entry::Command, |&first| named_entry(first)),
        6..=7 => Entry::Command,
        _ => random.pick(&Entry::ALL),
    }
}

/// A command in its usual form, with a buffer that mostly has room.
pub fn command(random: &mut Random, host: u32, block: Vec<u8>, parameters: Vec<u8>) -> Call {
    let room = match random.below(10) {
        0 => 0,
        1 => random.below(64),
        2 => 26_664,
        _ => 600,
    };
    Call::Command {
        entry: entry(random, &block),
        host,
        block,
        parameters,
        answer: random.bytes(room),
    }
}

/// One of the commands or of the three events, with plausible fields.
pub fn plausible(random: &mut Random, scene: &Scene) -> Call {
    match random.below(14) {
        0 | 1 => import(random, scene),
        2 => export(random, scene),
        3 if random.percent(20) => Call::Reset,
        _ => {
            let first = random.pick(&OFTEN_MOVES);
            plausible_command(random, scene, first)
        }
    }
}

/// The command of this first byte with plausible fields, from a host that may well go on.
pub fn plausible_command(random: &mut Random, scene: &Scene, first: u8) -> Call {
    let (block, parameters) = block(random, scene, first);
    let host = plausible_host(random, scene);
    command(random, host, block, parameters)
}

fn plausible_host(random: &mut Random, scene: &Scene) -> u32 {
    match scene.unit_holder() {
        holder @ 1..=8 if random.percent(60) => holder.into(),
        // Few hosts, so that one comes again before it is told something new.
        _ if random.percent(60) => random.between(1, 3) as u32,
        _ => random.between(1, 8) as u32,
    }
}

/// Block and parameters.
pub fn block(random: &mut Random, scene: &Scene, first: u8) -> (Vec<u8>, Vec<u8>) {
    let ignored = if random.percent(10) {
        random.byte() & 0xE0
    } else {
        0
    };
    let none = Vec::new();
    match first {
        0x03 => {
            let allocation = random.pick(&[18, 18, 18, 0, 255, 7, 14]);
            (vec![first, ignored, 0, 0, allocation, 0], none)
        }
        0x16 => reserve(random, scene, ignored),
        0x17 => {
            let id = sound::reservation_id(random);
            let element = random.below(2) as u8;
            (vec![first, ignored | element, id, 0, 0, 0], none)
        }
        0x1E => {
            let prevent = u8::from(random.percent(30));
            (vec![first, ignored, 0, 0, prevent, 0], none)
        }
        0xA5 => (move_medium(random, scene, ignored), none),
        0xA6 => (exchange_medium(random, scene, ignored), none),
        0xB8 => (read_element_status(random, scene, ignored), none),
        0x1A => (mode_sense(random, ignored), none),
        0xB6 => searches::send(random, scene, ignored),
        0xB5 => (request_address(random, scene, ignored), none),
        _ => (vec![first, ignored, 0, 0, 0, 0], none),
    }
}

fn reserve(random: &mut Random, scene: &Scene, ignored: u8) -> (Vec<u8>, Vec<u8>) {
    let id = sound::reservation_id(random);
    if random.percent(25) {
        return (vec![0x16, ignored, id, 0, 0, 0], Vec::new());
    }
    let descriptors = random.pick(&[1, 1, 1, 2, 3, 5, 32]).min(scene.places.len());
    let list = lists::runs(random, scene, descriptors).concat();
    let [high, low] = (list.len() as u16).to_be_bytes();
    (vec![0x16, ignored | 1, id, high, low, 0], list)
}

/// Mostly 0 or a transport.
fn transport(random: &mut Random, scene: &Scene) -> u16 {
    let transports = scene.places_where(|kind, _| kind == Kind::Transport);
    match random.below(12) {
        0 => any_address(random, scene),
        1..=4 if !transports.is_empty() => scene.places[random.pick_with_ends(&transports)].address,
        _ => 0,
    }
}

/// Mostly an element that is no transport and is as full or empty as wanted.
fn place(random: &mut Random, scene: &Scene, full: bool) -> u16 {
    let suited =
        scene.places_where(|kind, volume| kind != Kind::Transport && (volume != 0) == full);
    match random.percent(85) && !suited.is_empty() {
        true => scene.places[random.pick_with_ends(&suited)].address,
        false => any_address(random, scene),
    }
}

/// An element's address, one beside it or any.
pub fn any_address(random: &mut Random, scene: &Scene) -> u16 {
    let near = random.pick_with_ends(&scene.places).address;
    match random.below(8) {
        0 => 0,
        1 => 65_535,
        2 => near.wrapping_add(1),
        3 => near.wrapping_sub(1),
        4 => random.word() as u16,
        _ => near,
    }
}

fn move_medium(random: &mut Random, scene: &Scene, ignored: u8) -> Vec<u8> {
    let mut block = vec![0xA5, ignored];
    block.extend(transport(random, scene).to_be_bytes());
    block.extend(place(random, scene, true).to_be_bytes());
    block.extend(place(random, scene, false).to_be_bytes());
    block.resize(12, 0);
    block
}

fn exchange_medium(random: &mut Random, scene: &Scene, ignored: u8) -> Vec<u8> {
    let source = place(random, scene, true);
    let first = place(random, scene, true);
    let second = match random.below(10) {
        0..=3 => source,
        4 => first,
        _ => place(random, scene, false),
    };
    let mut block = vec![0xA6, ignored];
    block.extend(transport(random, scene).to_be_bytes());
    for address in [source, first, second] {
        block.extend(address.to_be_bytes());
    }
    block.resize(12, 0);
    block
}

/// Byte 1, start and number of a listing.
fn choice(random: &mut Random, scene: &Scene) -> (u8, u16, u16) {
    let tags = random.pick(&[0x00, 0x10]);
    let kind = random.pick(&[0, 0, 0, 1, 2, 3, 4]);
    let start = match random.percent(50) {
        true => 0,
        false => any_address(random, scene),
    };
    let most = match random.below(4) {
        0 => random.below(scene.places.len() + 2) as u16,
        1 => random.word() as u16,
        _ => 0xFFFF,
    };
    (tags | kind, start, most)
}

fn read_element_status(random: &mut Random, scene: &Scene, ignored: u8) -> Vec<u8> {
    let (byte_1, start, most) = choice(random, scene);
    let allocation = match random.below(4) {
        0 => random.below(64),
        1 => random.below(1_000),
        2 => 0xFF_FFFF,
        _ => 600,
    };
    read_block(byte_1 | ignored, start, most, allocation)
}

/// Often room for a few descriptors, so that a search goes on.
fn request_address(random: &mut Random, scene: &Scene, ignored: u8) -> Vec<u8> {
    let (byte_1, start, most) = choice(random, scene);
    let allocation = match random.below(4) {
        0 => random.below(80),
        1 => random.below(400),
        2 => 0xFFFF,
        _ => 600,
    };
    request_block(byte_1 | ignored, start, most, allocation)
}

/// The block of REQUEST VOLUME ELEMENT ADDRESS: READ ELEMENT STATUS with an allocation of two bytes.
pub fn request_block(byte_1: u8, start: u16, most: u16, allocation: usize) -> Vec<u8> {
    let mut block = read_block(byte_1, start, most, allocation << 8);
    block[0] = 0xB5;
    block
}

pub fn read_block(byte_1: u8, start: u16, most: u16, allocation: usize) -> Vec<u8> {
    let mut block = vec![0xB8, byte_1];
    block.extend(start.to_be_bytes());
    block.extend(most.to_be_bytes());
    block.push(0);
    block.extend(&(allocation as u32).to_be_bytes()[1..]);
    block.extend([0, 0]);
    block
}

/// Mostly a page that there is, with current values.
fn mode_sense(random: &mut Random, ignored: u8) -> Vec<u8> {
    let descriptors = random.pick(&[0x00, 0x00, 0x08]);
    let page = match random.below(12) {
        0 => random.byte() & 0x3F,
        1 => random.byte(),
        _ => random.pick(&MODE_PAGES),
    };
    let allocation = match random.below(4) {
        0 => random.byte(),
        1 => random.byte_between(0, 50),
        _ => 255,
    };
    mode_block(ignored | descriptors, page, allocation)
}

pub fn mode_block(byte_1: u8, byte_2: u8, allocation: u8) -> Vec<u8> {
    vec![0x1A, byte_1, byte_2, 0, allocation, 0]
}

pub fn import(random: &mut Random, scene: &Scene) -> Call {
    let volume = match scene.absent_volume() {
        Some(absent) if random.percent(80) => absent.into(),
        _ => random.pick(&edge_volumes(scene)),
    };
    Call::Import {
        address: event_address(random, scene, 0),
        volume,
    }
}

pub fn export(random: &mut Random, scene: &Scene) -> Call {
    Call::Export {
        address: event_address(random, scene, 1),
    }
}

/// Mostly an import/export element; full ones for 1, empty ones for 0.
fn event_address(random: &mut Random, scene: &Scene, full: u16) -> u32 {
    let suited =
        scene.places_where(|kind, volume| kind == Kind::ImportExport && volume.min(1) == full);
    match random.percent(80) && !suited.is_empty() {
        true => scene.places[random.pick(&suited)].address.into(),
        false => {
            let near = random.pick_with_ends(&scene.places).address;
            random.pick(&edge_addresses(near.into()))
        }
    }
}

/// Addresses beside an element's and those that are it when cut to two bytes.
pub fn edge_addresses(address: u32) -> [u32; 9] {
    let wide = 65_536 + address;
    let highest = 0xFFFF_0000 + address;
    [
        0,
        address,
        address - 1,
        address + 1,
        65_535,
        65_536,
        wide,
        highest,
        u32::MAX,
    ]
}

/// Volume numbers at the edges of what can be imported, and those that are so when cut to two bytes.
pub fn edge_volumes(scene: &Scene) -> [u32; 8] {
    let most = scene.volumes() as u32;
    let absent = scene.absent_volume().map_or(most, u32::from);
    [
        0,
        1,
        most,
        most + 1,
        65_535,
        65_536,
        65_536 + absent,
        u32::MAX,
    ]
}
