//! Tables in which one clause of soundness is broken, or two.

use reference::library::Kind;
use reference::Clause;

use super::{searches, sound};
use crate::random::Random;
use crate::scene::{bit, Scene, HEAD_LENGTH, MOST_GENERATION, SEARCH_LENGTH};

/// Sound tables with this clause broken, and no clause that is judged before it.
pub fn broken_scene(random: &mut Random, clause: Clause) -> Scene {
    loop {
        let mut scene = suited_scene(random, clause);
        if break_clause(random, &mut scene, clause).is_some() {
            mend(&mut scene, [clause, clause]);
            return scene;
        }
    }
}

/// Sound tables with two clauses broken, or one if the second did not fit. The same one broken twice might be mended.
pub fn doubly_broken_scene(random: &mut Random) -> Scene {
    let first = random.pick(&Clause::ALL);
    let second = random.pick(&Clause::ALL);
    let mut scene = broken_scene(random, first.max(second));
    let lengths_are_kept = scene.tables.elements.len() == 8 * scene.places.len();
    if first != second && lengths_are_kept && scene.tables.head.len() == HEAD_LENGTH {
        break_clause(random, &mut scene, first.min(second));
        mend(&mut scene, [first, second]);
    }
    scene
}

/// What no one asked for is not broken: the number of empty shelves, and what the drives take.
fn mend(scene: &mut Scene, broken: [Clause; 2]) {
    if !broken.contains(&Clause::EmptyShelves) {
        scene.recount();
    }
    if !broken.contains(&Clause::DriveTakes) {
        scene.admit();
    }
}

/// Clauses that count elements need tables laid out for them; the others take any.
fn suited_scene(random: &mut Random, clause: Clause) -> Scene {
    let few = random.between(1, 5);
    match clause {
        Clause::ElementCount => {
            let shelves = random.pick(&[512, 512, 513, 767]) - few;
            sound::quiet_scene_with(random, [few, shelves, 1, 0])
        }
        Clause::TransportCount => {
            let transports = random.pick(&[0, 128, 129, 300]);
            sound::quiet_scene_with(random, [transports, few, 1, 1])
        }
        Clause::NoShelf => sound::quiet_scene_with(random, [few, 0, 0, few]),
        _ if random.percent(8) => sound::full_scene(random),
        _ => sound::scene(random),
    }
}

/// None where these tables give no room for the fault.
fn break_clause(random: &mut Random, scene: &mut Scene, clause: Clause) -> Option<()> {
    match clause {
        Clause::TagsLength => {
            wrong_length(random, &mut scene.tables.tags, 36);
            as_many_generations(random, scene);
        }
        Clause::TagCount => {
            let labels = random.pick(&[513, 514, 600]);
            scene.tables.tags.resize(36 * labels, 0x20);
            as_many_generations(random, scene);
        }
        Clause::GenerationsLength => other_length(random, &mut scene.tables.generations),
        Clause::GenerationNumber => wrong_generation(random, scene)?,
        Clause::SearchAction | Clause::SearchType | Clause::SearchNext => {
            wrong_search(random, scene, clause);
        }
        Clause::EmptyRangeFirst => empty_range_first(random, scene)?,
        Clause::RangeWithin => {
            range_outside(random, scene);
            empty_mostly(random, scene);
        }
        Clause::RangeOverlap => {
            range_overlap(random, scene)?;
            empty_mostly(random, scene);
        }
        Clause::ElementCount => no_elements_at_all(random, scene),
        Clause::TransportCount | Clause::NoShelf => {}
        Clause::MasksLength => other_length(random, &mut scene.tables.masks),
        Clause::DriveTakes => wrong_cartridge(random, scene)?,
        Clause::HolderNumber
        | Clause::IdWithoutHolder
        | Clause::UnitHolder
        | Clause::UnitHeldAlone => break_holders(random, scene, clause)?,
        Clause::EmptyShelves => break_number(random, scene),
        Clause::SenseKey | Clause::CodesWithoutKey | Clause::AttentionCodes => {
            break_host(random, scene, clause);
        }
        _ => match clause.length_of() {
            Some(table) => wrong_length(random, scene.tables.named(table), 1),
            None => break_element(random, scene, clause)?,
        },
    }
    Some(())
}

/// Shorter or longer than it is, and no multiple of the unit where that is above 1.
fn wrong_length(random: &mut Random, bytes: &mut Vec<u8>, unit: usize) {
    let right = bytes.len();
    while bytes.len() == right || unit > 1 && bytes.len().is_multiple_of(unit) {
        let length = match random.below(6) {
            0 => 0,
            1 => right.saturating_sub(1),
            2 => right + 1,
            3 => right + 8,
            4 => right.saturating_sub(8),
            _ => random.between(0, 2 * right),
        };
        bytes.resize(length, 0);
    }
}

/// As many bytes more or fewer, or none; what is added is 1, which is a generation and a mask like any other.
fn other_length(random: &mut Random, bytes: &mut Vec<u8>) {
    let right = bytes.len();
    while bytes.len() == right {
        let length = match random.below(5) {
            0 => 0,
            1 => right.saturating_sub(1),
            2 => right + 1,
            3 => right + 256,
            _ => random.between(0, 2 * right),
        };
        bytes.resize(length, 1);
    }
}

/// For tags of a wrong length too there are as many generations as whole labels, or nothing else could be told.
fn as_many_generations(random: &mut Random, scene: &mut Scene) {
    if random.percent(80) {
        let volumes = scene.volumes();
        scene.tables.generations.resize(volumes, 1);
    }
}

/// 0 or above 8, for any volume: in the library or not, the first, the last, one behind the 255th.
fn wrong_generation(random: &mut Random, scene: &mut Scene) -> Option<()> {
    let all: Vec<usize> = (0..scene.volumes()).collect();
    let volume = any_of(random, &all)?;
    let any = random.byte_between(MOST_GENERATION + 1, 255);
    let wrong = random.pick(&[0, 0, MOST_GENERATION + 1, 16, 0x80, 255, any]);
    scene.tables.generations[volume] = wrong;
    Some(())
}

/// A search, as one could be but for this field. Where the length is wrong already there is nothing to do.
fn wrong_search(random: &mut Random, scene: &mut Scene, clause: Clause) {
    if scene.tables.search.len() != SEARCH_LENGTH {
        return;
    }
    let mut search = searches::search(random, scene);
    match clause {
        Clause::SearchAction => {
            let any = random.byte_between(6, 255);
            search[33] = random.pick(&[0, 0, 2, 3, 4, 6, 0x11, 0x15, 0x81, any]);
            // With action 0 anything else that is set is wrong, and with all else zero nothing would be.
            if search[33] == 0 && random.percent(50) {
                search.fill(0);
                search[random.below(33)] = random.byte_between(1, 255);
            }
            if search.iter().all(|&byte| byte == 0) {
                search[random.between(34, 40)] = 1;
            }
        }
        Clause::SearchType => {
            let any = random.byte_between(5, 255);
            search[32] = random.pick(&[5, 5, 6, 16, 0x80, any]);
        }
        _ => {
            let any = random.between(0x1_0001, 0xFF_FFFF);
            let next = random.pick(&[0x1_0001, 0x1_0001, 0x2_0000, 0xFF_FFFF, any]) as u32;
            search[38..].copy_from_slice(&next.to_be_bytes()[1..]);
        }
    }
    scene.tables.search = search;
}

/// A drive does not take what stands in it, by its mask or by the volume's generation. Where all drives are empty one is filled.
fn wrong_cartridge(random: &mut Random, scene: &mut Scene) -> Option<()> {
    let drive = any_of(random, &scene.drives())?;
    if scene.volume(drive) == 0 {
        let volume = scene.absent_volume()?;
        scene.set_volume(drive, volume);
    }
    let volume = scene.volume(drive);
    if usize::from(volume) > scene.volumes() || scene.tables.masks.is_empty() {
        return None;
    }
    let own = bit(scene.generation(volume));
    let mask = *scene.mask(drive);
    let other = random.byte_between(1, MOST_GENERATION);
    match random.below(6) {
        0 if mask & bit(other) == 0 => scene.set_generation(volume, other),
        1 => *scene.mask(drive) = 0,
        2 => *scene.mask(drive) = own << 1,
        3 => *scene.mask(drive) = own >> 1,
        4 => *scene.mask(drive) = !own,
        _ => *scene.mask(drive) = mask & !own,
    }
    Some(())
}

fn range(scene: &Scene, range: usize) -> (usize, usize) {
    let field = |at: usize| {
        let head = &scene.tables.head;
        usize::from(u16::from_be_bytes([head[at], head[at + 1]]))
    };
    (field(4 * range), field(4 * range + 2))
}

fn set_first(scene: &mut Scene, range: usize, first: usize) {
    let bytes = (first as u16).to_be_bytes();
    scene.tables.head[4 * range..4 * range + 2].copy_from_slice(&bytes);
}

fn set_count(scene: &mut Scene, range: usize, count: usize) {
    let bytes = (count as u16).to_be_bytes();
    scene.tables.head[4 * range + 2..4 * range + 4].copy_from_slice(&bytes);
}

fn filled_ranges(scene: &Scene) -> Vec<usize> {
    (0..4).filter(|&at| range(scene, at).1 > 0).collect()
}

/// A range that moves takes its sources and its kinds along; in empty tables nothing but the range is
/// wrong then.
fn empty_mostly(random: &mut Random, scene: &mut Scene) {
    if random.percent(80) {
        scene.tables.elements.fill(0);
    }
}

fn empty_range_first(random: &mut Random, scene: &mut Scene) -> Option<()> {
    let empty = (0..4).find(|&at| range(scene, at).1 == 0)?;
    let first = random.pick(&[1, 2, 0x0100, 0x8000, 65_535]);
    set_first(scene, empty, first);
    Some(())
}

/// The tables already have too many; now and then they get none instead.
fn no_elements_at_all(random: &mut Random, scene: &mut Scene) {
    if random.percent(30) {
        scene.tables.head[..16].fill(0);
        scene.tables.elements.clear();
        scene.tables.masks.clear();
    }
}

fn range_outside(random: &mut Random, scene: &mut Scene) {
    let moved = random.pick(&filled_ranges(scene));
    let (_, count) = range(scene, moved);
    let just_over = 65_537 - count;
    let first = match random.below(3) {
        0 if count > 1 => just_over,
        1 if count > 1 => random.between(just_over, 65_535),
        _ => 0,
    };
    set_first(scene, moved, first);
}

fn range_overlap(random: &mut Random, scene: &mut Scene) -> Option<()> {
    let mut filled = filled_ranges(scene);
    random.shuffle(&mut filled);
    let (stays, (first, count)) = (filled[0], range(scene, filled[0]));
    let moved = *filled.iter().find(|&&at| at != stays)?;
    let (_, moved_count) = range(scene, moved);
    if random.percent(10) {
        return wrap_the_total(scene, (stays, count), (moved, moved_count));
    }
    let onto = match random.below(3) {
        0 => first + count - 1,
        1 => (first + 1).checked_sub(moved_count)?,
        _ => first + random.below(count),
    };
    if onto == 0 || onto + moved_count - 1 > 65_535 {
        return None;
    }
    set_first(scene, moved, onto);
    Some(())
}

/// Each range lies within 1 to 65,535, and the sum of the counts, cut to two bytes, is what it was. None where it
/// was done before.
fn wrap_the_total(scene: &mut Scene, low: (usize, usize), high: (usize, usize)) -> Option<()> {
    let half = 32_768;
    if low.1 >= half || high.1 >= half {
        return None;
    }
    set_first(scene, low.0, 1);
    set_count(scene, low.0, low.1 + half);
    set_first(scene, high.0, 65_536 - (high.1 + half));
    set_count(scene, high.0, high.1 + half);
    Some(())
}

fn any_of(random: &mut Random, places: &[usize]) -> Option<usize> {
    (!places.is_empty()).then(|| random.pick_with_ends(places))
}

fn break_element(random: &mut Random, scene: &mut Scene, clause: Clause) -> Option<()> {
    let is_place = |kind, _| kind != Kind::Transport;
    let is_full = |_, volume| volume != 0;
    let is_empty = |_, volume| volume == 0;
    let places = match clause {
        Clause::VolumeNumber | Clause::VolumeTwice => scene.places_where(is_place),
        Clause::TransportFull => scene.places_where(|kind, _| kind == Kind::Transport),
        Clause::SourceAddress => scene.places_where(is_full),
        Clause::SourceWhereEmpty => scene.places_where(is_empty),
        _ => scene.places_where(|_, _| true),
    };
    let place = any_of(random, &places)?;
    match clause {
        Clause::ZeroByte => scene.element(place)[7] = random.byte_between(1, 255),
        Clause::VolumeNumber => {
            let above = scene.volumes() + 1;
            let volume = random.pick(&[above, above, 65_535]) as u16;
            scene.set_volume(place, volume);
        }
        Clause::VolumeTwice => {
            let others = scene.places_where(is_full);
            let twin = any_of(random, &others).filter(|&twin| twin != place)?;
            scene.set_volume(place, scene.volume(twin));
        }
        Clause::TransportFull => scene.set_volume(place, scene.absent_volume()?),
        Clause::SourceAddress => {
            let source = wrong_source(random, scene)?;
            scene.set_source(place, source);
        }
        Clause::SourceWhereEmpty => {
            let shelves = scene.places_where(|kind, _| kind == Kind::Storage);
            let source = scene.places[any_of(random, &shelves)?].address;
            scene.set_source(place, source);
        }
        _ => break_mark(random, scene, place),
    }
    Some(())
}

/// The address of a transport, of an import/export element or of a drive, or of no element.
pub fn wrong_source(random: &mut Random, scene: &Scene) -> Option<u16> {
    let wrong = [Kind::Transport, Kind::ImportExport, Kind::Drive];
    match wrong.get(random.below(4)) {
        Some(&wrong) => {
            let places = scene.places_where(|kind, _| kind == wrong);
            any_of(random, &places).map(|place| scene.places[place].address)
        }
        None => {
            let unknown = unknown_address(random, scene).filter(|&source| source != 0);
            unknown.map(|source| source as u16)
        }
    }
}

/// Two-byte addresses beside the elements, at the edges or anywhere.
pub fn unknown_address(random: &mut Random, scene: &Scene) -> Option<u32> {
    let near = u32::from(random.pick_with_ends(&scene.places).address);
    let address = match random.below(6) {
        0 => 0,
        1 => 65_535,
        2 => near + 1,
        3 => near - 1,
        _ => random.below(65_536) as u32,
    };
    (address <= 65_535 && !scene.is_element(address)).then_some(address)
}

fn break_mark(random: &mut Random, scene: &mut Scene, place: usize) {
    let may_be_marked = scene.places[place].kind == Kind::ImportExport && scene.volume(place) != 0;
    let least = if may_be_marked { 2 } else { 1 };
    let mark = match random.percent(70) {
        true => least,
        false => random.byte_between(least, 255),
    };
    scene.set_mark(place, mark);
}

/// Wrong by one either way, in one of its two bytes, with the two bytes changed, or anything.
fn break_number(random: &mut Random, scene: &mut Scene) {
    let right = scene.empty_shelves();
    let mut wrong = right;
    while wrong == right {
        wrong = match random.below(6) {
            0 => right.wrapping_add(1),
            1 => right.wrapping_sub(1),
            2 => right ^ u16::from(random.byte()),
            3 => right ^ u16::from(random.byte()) << 8,
            4 => right.swap_bytes(),
            _ => random.below(65_536) as u16,
        };
    }
    scene.show_empty_shelves(wrong);
}

fn break_holders(random: &mut Random, scene: &mut Scene, clause: Clause) -> Option<()> {
    let all: Vec<usize> = (0..scene.places.len()).collect();
    let place = any_of(random, &all)?;
    let too_high = random.pick(&[9, 9, 16, 255]);
    match clause {
        Clause::HolderNumber => {
            scene.hold_unit(0);
            scene.hold(place, too_high, 0);
        }
        Clause::UnitHolder => {
            all.iter().for_each(|&place| scene.hold(place, 0, 0));
            scene.hold_unit(too_high);
        }
        Clause::IdWithoutHolder => {
            let id = random.byte_between(1, 255);
            scene.hold(place, 0, id);
        }
        _ => {
            let unit_holder = random.byte_between(1, 8);
            let other = random.byte_between(1, 7);
            let other = if other < unit_holder {
                other
            } else {
                other + 1
            };
            scene.hold_unit(unit_holder);
            scene.hold(place, other, 0);
        }
    }
    Some(())
}

fn break_host(random: &mut Random, scene: &mut Scene, clause: Clause) {
    let host = random.byte_between(1, 8);
    let record = match clause {
        Clause::SenseKey => [random.pick(&[16, 0x70, 255]), 0, 0, 0, 0],
        Clause::CodesWithoutKey if random.percent(50) => [0, random.byte_between(1, 255), 0, 0, 0],
        Clause::CodesWithoutKey => [0, 0, random.byte_between(1, 255), 0, 0],
        _ => {
            let wrong = [
                [0x28, 0x00],
                [0x29, 0x01],
                [0x00, 0x01],
                [0x29, 0x02],
                [0x2A, 0],
            ];
            let [asc, ascq] = random.pick(&wrong);
            [0, 0, 0, asc, ascq]
        }
    };
    scene.host_record(host).copy_from_slice(&record);
}
