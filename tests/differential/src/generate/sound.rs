//! Sound tables of all shapes.

use reference::library::Kind;
use reference::TableBytes;

use super::searches;
use crate::random::Random;
use crate::scene::{bit, Place, Scene, HEAD_LENGTH, MOST_GENERATION, SEARCH_LENGTH};

const LAST_ADDRESS: usize = 65_535;
const MOST_TRANSPORTS: usize = 127;
const MOST_VOLUMES: usize = 512;

/// Number of transports, storage, import/export and drive elements.
pub type Counts = [usize; 4];

/// How likely, in percent, the tables hold something that ends commands early.
#[derive(Clone, Copy)]
struct Likelihood {
    attention: usize,
    unit_held: usize,
    elements_held: usize,
    prevented: usize,
}

const BUSY: Likelihood = Likelihood {
    attention: 20,
    unit_held: 20,
    elements_held: 50,
    prevented: 35,
};

const QUIET: Likelihood = Likelihood {
    attention: 0,
    unit_held: 0,
    elements_held: 0,
    prevented: 0,
};

/// Any sound tables.
pub fn scene(random: &mut Random) -> Scene {
    let counts = counts(random);
    scene_of(random, counts, BUSY)
}

/// Sound tables without attention, holders or prevention, so that commands come to their last step.
pub fn quiet_scene(random: &mut Random) -> Scene {
    let counts = counts(random);
    scene_of(random, counts, QUIET)
}

/// Quiet tables with this many elements of each kind, sound or not.
pub fn quiet_scene_with(random: &mut Random, counts: Counts) -> Scene {
    scene_of(random, counts, QUIET)
}

/// Quiet tables with at most about ten elements, at least one of each kind.
pub fn small_scene(random: &mut Random) -> Scene {
    let counts = [1, 2, 1, 1].map(|least| least + random.below(2));
    scene_of(random, counts, QUIET)
}

/// Busy tables with 512 elements.
pub fn full_scene(random: &mut Random) -> Scene {
    let counts = divide(random, 512);
    scene_of(random, counts, BUSY)
}

fn scene_of(random: &mut Random, counts: Counts, likelihood: Likelihood) -> Scene {
    let firsts = first_addresses(random, counts);
    let mut scene = empty_scene(counts, firsts);
    scene.tables.blank = random.bytes(36);
    load(random, &mut scene);
    scene.recount();
    choose_cartridges(random, &mut scene, counts[3]);
    scene.tables.search = match random.percent(60) {
        true => searches::search(random, &scene),
        false => vec![0; SEARCH_LENGTH],
    };
    reserve(random, &mut scene, likelihood);
    tell(random, &mut scene, likelihood);
    scene
}

fn counts(random: &mut Random) -> Counts {
    let elements = match random.below(100) {
        0..=49 => random.between(2, 9),
        50..=79 => random.between(10, 32),
        80..=93 => random.between(33, 128),
        94..=97 => random.between(129, 511),
        _ => 512,
    };
    divide(random, elements)
}

/// At least one transport and at least one storage or import/export element.
fn divide(random: &mut Random, elements: usize) -> Counts {
    let most_transports = MOST_TRANSPORTS.min(elements - 1);
    let transports = match random.below(10) {
        0 => most_transports,
        1 => random.between(1, most_transports),
        _ => random.between(1, most_transports.min(3)),
    };
    let others = elements - transports;
    let drives = match random.below(4) {
        0 => 0,
        1 => random.below(others),
        _ => random.below(others.min(4)),
    };
    let shelves = others - drives;
    let ports = match random.below(5) {
        0 => 0,
        1 => shelves,
        2 => random.between(0, shelves),
        _ => random.between(1, shelves.min(3)),
    };
    [transports, shelves - ports, ports, drives]
}

/// The filled ranges in any address order, with gaps of any width; 0 for an empty range.
fn first_addresses(random: &mut Random, counts: Counts) -> [usize; 4] {
    let mut order: Vec<usize> = (0..4).filter(|&range| counts[range] > 0).collect();
    random.shuffle(&mut order);
    let mut spare = LAST_ADDRESS - counts.iter().sum::<usize>();
    let at_the_end = random.percent(25);
    let mut gaps = vec![0; order.len()];
    for gap in &mut gaps {
        *gap = random_gap(random).min(spare);
        spare -= *gap;
    }
    if at_the_end {
        let widened = random.below(gaps.len());
        gaps[widened] += spare;
    }
    let mut firsts = [0; 4];
    let mut next = 1;
    for (range, gap) in order.into_iter().zip(gaps) {
        firsts[range] = next + gap;
        next = firsts[range] + counts[range];
    }
    firsts
}

fn random_gap(random: &mut Random) -> usize {
    match random.below(10) {
        0..=4 => 0,
        5..=6 => random.between(1, 3),
        7..=8 => random.between(1, 5_000),
        _ => random.below(LAST_ADDRESS),
    }
}

fn empty_scene(counts: Counts, firsts: [usize; 4]) -> Scene {
    let mut head = Vec::new();
    let mut places = Vec::new();
    for (range, kind) in Kind::ALL.into_iter().enumerate() {
        head.extend((firsts[range] as u16).to_be_bytes());
        head.extend((counts[range] as u16).to_be_bytes());
        places.extend(
            (firsts[range]..firsts[range] + counts[range]).map(|address| Place {
                address: address as u16,
                kind,
            }),
        );
    }
    head.resize(HEAD_LENGTH, 0);
    places.sort_by_key(|place| place.address);
    Scene {
        tables: TableBytes {
            head,
            elements: vec![0; 8 * places.len()],
            ..TableBytes::default()
        },
        places,
    }
}

/// Labels, volumes, sources and marks.
fn load(random: &mut Random, scene: &mut Scene) {
    let elements = scene.places.len();
    let volumes = match random.below(8) {
        0 => 0,
        1 => MOST_VOLUMES,
        2 => random.between(0, MOST_VOLUMES),
        _ => random.between(1, elements.min(MOST_VOLUMES)),
    };
    scene.tables.tags = searches::labels(random, volumes);
    let mut unused: Vec<u16> = (1..=volumes as u16).collect();
    random.shuffle(&mut unused);
    let full = random.pick(&[0, 20, 50, 50, 80, 100]);
    for place in 0..elements {
        if scene.places[place].kind == Kind::Transport || !random.percent(full) {
            continue;
        }
        let Some(volume) = unused.pop() else { return };
        load_one(random, scene, place, volume);
    }
}

/// Generations of few values or of all, and masks that take all, some or nothing; but a full drive takes what stands in it.
fn choose_cartridges(random: &mut Random, scene: &mut Scene, drives: usize) {
    let most = random.pick(&[1, 2, MOST_GENERATION, MOST_GENERATION]);
    let least = random.pick(&[1, 1, most]);
    let volumes = scene.volumes();
    scene.tables.generations = (0..volumes)
        .map(|_| random.byte_between(least, most))
        .collect();
    let usual = random.pick(&[0xFF, 0xFF, 0xFF, 0x00, 0x7F]);
    let same = random.percent(60);
    let mask = |_| match random.below(5) {
        _ if same => usual,
        0 => 0x00,
        1 => 0xFF,
        2 => bit(random.byte_between(1, MOST_GENERATION)),
        _ => random.byte(),
    };
    scene.tables.masks = (0..drives).map(mask).collect();
    scene.admit();
}

/// The source, where there is one, is any shelf: a full one, an empty one, or the place itself.
fn load_one(random: &mut Random, scene: &mut Scene, place: usize, volume: u16) {
    scene.set_volume(place, volume);
    let shelves = scene.places_where(|kind, _| kind == Kind::Storage);
    if random.percent(60) && !shelves.is_empty() {
        let source = scene.places[random.pick_with_ends(&shelves)].address;
        scene.set_source(place, source);
    }
    if scene.places[place].kind == Kind::ImportExport {
        scene.set_mark(place, random.below(2) as u8);
    }
}

/// The unit for one host, or elements for any; where the unit is held its host holds elements too.
fn reserve(random: &mut Random, scene: &mut Scene, likelihood: Likelihood) {
    let mut holders: Vec<u8> = (1..=8).collect();
    if random.percent(likelihood.unit_held) {
        let unit_holder = random.pick(&holders);
        scene.hold_unit(unit_holder);
        holders = vec![unit_holder];
    }
    if !random.percent(likelihood.elements_held) {
        return;
    }
    random.shuffle(&mut holders);
    holders.truncate(random.between(1, 3));
    let share = random.pick(&[5, 30, 100]);
    for place in 0..scene.places.len() {
        if random.percent(share) {
            let id = reservation_id(random);
            scene.hold(place, random.pick(&holders), id);
        }
    }
}

/// Few different ones, so that the same id comes again.
pub fn reservation_id(random: &mut Random) -> u8 {
    match random.below(10) {
        0 => random.byte(),
        1 => 255,
        _ => random.byte_between(0, 2),
    }
}

/// Mask, sense and attention.
fn tell(random: &mut Random, scene: &mut Scene, likelihood: Likelihood) {
    if random.percent(likelihood.prevented) {
        let mask = match random.below(3) {
            0 => 1 << random.below(8),
            1 => 0xFF,
            _ => random.byte(),
        };
        scene.set_prevent_mask(mask);
    }
    let attention_share = match random.percent(likelihood.attention) {
        true => random.pick(&[20, 60, 100]),
        false => 0,
    };
    let sense_share = random.pick(&[0, 30, 100]);
    for host in 1..=8 {
        if random.percent(sense_share) {
            let sense = stored_sense(random);
            scene.host_record(host)[..3].copy_from_slice(&sense);
        }
        if random.percent(attention_share) {
            let codes = random.pick(&[[0x28, 0x01], [0x29, 0x00]]);
            scene.host_record(host)[3..].copy_from_slice(&codes);
        }
    }
}

pub fn stored_sense(random: &mut Random) -> [u8; 3] {
    match random.below(3) {
        0 => [random.byte_between(1, 15), 0, 0],
        1 => [random.byte_between(1, 15), random.byte(), random.byte()],
        _ => random.pick(&[[5, 0x24, 0x00], [5, 0x3B, 0x0D], [6, 0x29, 0x00]]),
    }
}
