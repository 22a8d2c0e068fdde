//! Generations and masks: what each drive takes, on which leg it is asked, and tables that are not sound.

use reference::library::Kind;

use super::pairs;
use crate::call::Call;
use crate::generate::logs::{self, Recorded};
use crate::generate::{calls, sound};
use crate::harness::Harness;
use crate::random::Random;
use crate::scene::{bit, Scene, MOST_GENERATION};
use crate::tally::{line_outcomes, PLACES};

const VOLUMES: usize = 6;

/// Quiet and empty: one or two transports, three or four places of each other kind; volumes of any generations, and drives that take any.
fn empty_scene(random: &mut Random) -> Scene {
    let counts = [1, 3, 3, 3].map(|least| least + random.below(2));
    let mut scene = sound::quiet_scene_with(random, counts);
    scene.tables.elements.fill(0);
    scene.recount();
    scene.relabel(random.bytes(36 * VOLUMES));
    for generation in &mut scene.tables.generations {
        *generation = random.byte_between(1, MOST_GENERATION);
    }
    for mask in &mut scene.tables.masks {
        *mask = random.byte();
    }
    scene
}

/// An empty place of this kind; at most three of at least three are ever full, and never all of one kind before another is looked for.
fn empty_place(random: &mut Random, scene: &Scene, kind: Kind) -> usize {
    let places = scene.places_where(|found, volume| found == kind && volume == 0);
    random.pick_with_ends(&places)
}

/// A volume that is not there yet. A drive then takes it.
fn put(random: &mut Random, scene: &mut Scene, place: usize) -> u16 {
    let absent = (1..=VOLUMES as u16).filter(|volume| {
        let stands = |place: &usize| scene.volume(*place) == *volume;
        !(0..scene.places.len()).any(|place| stands(&place))
    });
    let absent: Vec<u16> = absent.collect();
    let volume = random.pick_with_ends(&absent);
    scene.set_volume(place, volume);
    scene.recount();
    scene.admit();
    volume
}

/// The drive takes the volume or does not; the generations beside it are taken or not. What stands in the drive, of another generation, stays
/// taken.
fn set_taken(random: &mut Random, scene: &mut Scene, drive: usize, volume: u16, taken: bool) {
    let own = bit(scene.generation(volume));
    let any = random.byte();
    let others = random.pick(&[0x00, 0xFF, own << 1, own >> 1, any, !own]) & !own;
    let held = bit(scene.generation(scene.volume(drive)));
    *scene.mask(drive) = others | held | if taken { own } else { 0 };
}

fn block(first: u8, scene: &Scene, places: &[usize]) -> Vec<u8> {
    let mut block = vec![first, 0, 0, 0];
    for &place in places {
        block.extend(scene.places[place].address.to_be_bytes());
    }
    block.resize(12, 0);
    block
}

fn send(harness: &mut Harness, random: &mut Random, scene: &mut Scene, block: Vec<u8>) {
    let call = calls::command(random, 1, block, Vec::new());
    harness.call(&mut scene.tables, &call);
}

/// Each generation, taken and not: from each kind of place to a drive, and from there to each other kind, which takes anything.
pub(super) fn moves_to_drives(harness: &mut Harness, random: &mut Random, _: usize) {
    let generations: Vec<u8> = (1..=MOST_GENERATION).collect();
    for (generation, taken) in pairs(&generations, &[false, true]) {
        for from in PLACES {
            let mut scene = empty_scene(random);
            let start = empty_place(random, &scene, from);
            let volume = put(random, &mut scene, start);
            scene.set_generation(volume, generation);
            scene.admit();
            let drive = empty_place(random, &scene, Kind::Drive);
            set_taken(random, &mut scene, drive, volume, taken);
            let block_there = block(0xA5, &scene, &[start, drive]);
            send(harness, random, &mut scene, block_there);
            let left = if taken { drive } else { start };
            for kind in [Kind::Storage, Kind::ImportExport] {
                let next = empty_place(random, &scene, kind);
                let onward = block(0xA5, &scene, &[left, next]);
                send(harness, random, &mut scene.clone(), onward);
            }
        }
    }
}

/// Source, first and second of each kind, the second the source too; each leg that ends in a drive taken and not.
pub(super) fn exchanges_by_drives(harness: &mut Harness, random: &mut Random, _: usize) {
    for (source_kind, first_kind) in pairs(&PLACES, &PLACES) {
        for (second_kind, fits) in pairs(
            &[None, Some(Kind::Storage), Some(Kind::Drive)],
            &[0, 1, 2, 3],
        ) {
            let mut scene = empty_scene(random);
            let source = empty_place(random, &scene, source_kind);
            let up = put(random, &mut scene, source);
            let first = empty_place(random, &scene, first_kind);
            let down = put(random, &mut scene, first);
            let second = match second_kind {
                None => source,
                Some(kind) => empty_place(random, &scene, kind),
            };
            // What stands in a drive is taken there, so the volumes of a swap of two drives can't be of one generation and refused.
            if scene.generation(up) == scene.generation(down) {
                let other = scene.generation(up) % MOST_GENERATION + 1;
                scene.set_generation(down, other);
                scene.admit();
            }
            for (place, volume, taken) in
                [(first, up, fits & 1 != 0), (second, down, fits & 2 != 0)]
            {
                if scene.places[place].kind == Kind::Drive {
                    set_taken(random, &mut scene, place, volume, taken);
                }
            }
            let exchange = block(0xA6, &scene, &[source, first, second]);
            send(harness, random, &mut scene, exchange);
        }
    }
}

/// A drive that would not take the volume is full, held by another host, or the source is empty: that is told first.
pub(super) fn order_of_refusals(harness: &mut Harness, random: &mut Random, _: usize) {
    for (first_byte, case) in pairs(&[0xA5, 0xA6], &[0, 1, 2, 3, 4]) {
        for _ in 0..3 {
            let mut scene = empty_scene(random);
            let of_source = random.pick(&PLACES);
            let source = empty_place(random, &scene, of_source);
            let up = put(random, &mut scene, source);
            let drive = empty_place(random, &scene, Kind::Drive);
            let shelf = empty_place(random, &scene, Kind::Storage);
            let other = put(random, &mut scene, drive);
            let generation = scene.generation(other) % MOST_GENERATION + 1;
            scene.set_generation(up, generation);
            scene.admit();
            set_taken(random, &mut scene, drive, up, false);
            let mut places = match first_byte {
                0xA5 => vec![source, drive],
                _ => vec![source, drive, shelf],
            };
            match case {
                // Full: the drive of a MOVE, the second destination of an EXCHANGE.
                0 => {
                    if first_byte == 0xA6 {
                        put(random, &mut scene, shelf);
                    }
                }
                // Empty: nothing hinders a MOVE but the mask, and an EXCHANGE has nothing at its first destination.
                1 => {
                    scene.set_volume(drive, 0);
                }
                2 => scene.hold(random.pick(&places), 2, 0),
                3 => {
                    scene.set_volume(drive, 0);
                    scene.hold(random.pick(&places), 2, 0);
                }
                // The same drive twice.
                _ => {
                    places = match first_byte {
                        0xA5 => vec![drive, drive],
                        _ => vec![source, drive, drive],
                    }
                }
            }
            scene.recount();
            let unfit = block(first_byte, &scene, &places);
            send(harness, random, &mut scene, unfit);
        }
    }
}

/// One byte more and fewer, a generation of 0 and above 8, of a volume that is there and of one that is not, a drive that does not take what stands
/// in it; any call is refused. A mask of 0 and one of FFh at an empty drive are sound.
pub(super) fn unfit_tables(harness: &mut Harness, random: &mut Random, _: usize) {
    for case in 0..16 {
        let mut scene = empty_scene(random);
        let drive = empty_place(random, &scene, Kind::Drive);
        let volume = put(random, &mut scene, drive);
        let absent = volume % VOLUMES as u16 + 1;
        let own = bit(scene.generation(volume));
        let free = empty_place(random, &scene, Kind::Drive);
        let (generations, masks) = (&mut scene.tables.generations, &mut scene.tables.masks);
        match case {
            0 => drop(generations.pop()),
            1 => generations.push(1),
            2 => generations.clear(),
            3 => drop(masks.pop()),
            4 => masks.push(0xFF),
            5 => masks.clear(),
            6 => scene.set_generation(volume, 0),
            7 => scene.set_generation(volume, MOST_GENERATION + 1),
            8 => scene.set_generation(absent, 0),
            9 => scene.set_generation(absent, random.byte_between(MOST_GENERATION + 1, 255)),
            10 => *scene.mask(drive) = 0,
            11 => *scene.mask(drive) = !own,
            12 => *scene.mask(drive) = own << 1,
            13 => *scene.mask(drive) = own >> 1,
            14 => *scene.mask(free) = 0,
            _ => *scene.mask(free) = 0xFF,
        }
        for call in [calls::plausible(random, &scene), Call::Reset] {
            harness.call(&mut scene.tables, &call);
        }
    }
}

/// A volume that no drive takes comes in, goes to a shelf and not to a drive: one by one, and as the lines of a log.
pub(super) fn imports_and_replays(harness: &mut Harness, random: &mut Random, _: usize) {
    for first_byte in [0xA5, 0xA6] {
        let mut scene = empty_scene(random);
        let port = empty_place(random, &scene, Kind::ImportExport);
        let shelf = empty_place(random, &scene, Kind::Storage);
        let volume = random.between(1, VOLUMES) as u16;
        let own = bit(scene.generation(volume));
        scene.tables.masks.iter_mut().for_each(|mask| *mask &= !own);
        let drive = empty_place(random, &scene, Kind::Drive);
        if first_byte == 0xA6 {
            let mut others =
                (1..=VOLUMES as u16).filter(|&other| bit(scene.generation(other)) != own);
            if let Some(other) = others.next_back() {
                scene.set_volume(drive, other);
                scene.admit();
            }
        }
        let address = scene.places[port].address.into();
        let volume = volume.into();
        let import = Call::Import { address, volume };
        let command = |block: Vec<u8>| Call::Command {
            entry: calls::named_entry(block[0]),
            host: 1,
            block,
            parameters: Vec::new(),
            answer: vec![0; 600],
        };
        let refused = match first_byte {
            0xA5 => block(0xA5, &scene, &[shelf, drive]),
            _ => block(0xA6, &scene, &[shelf, drive, shelf]),
        };
        let made = [
            import,
            command(vec![0; 6]),
            command(block(0xA5, &scene, &[port, shelf])),
            command(refused),
        ];
        let mut after = scene.clone();
        let numbered = (1..).zip(made);
        let lines = numbered.map(|(number, call)| logs::record(&mut after, number, call));
        let lines: Vec<Recorded> = lines.collect();
        let log = Call::Replay {
            log: logs::text(&lines),
            expected: 1,
            budget: 9,
        };
        if harness.call(&mut scene.tables.clone(), &log).is_some() {
            let outcomes = lines.iter().flat_map(line_outcomes);
            outcomes.for_each(|outcome| harness.reach(outcome));
        }
        for line in &lines {
            harness.call(&mut scene.tables, &line.call);
        }
    }
}
