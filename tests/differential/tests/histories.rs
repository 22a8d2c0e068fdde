//! Long histories on the reference: what must hold after any of them.

use std::collections::{BTreeMap, BTreeSet};

use differential::call::Call;
use differential::compare::make;
use differential::generate::{calls, sound};
use differential::random::Random;
use differential::scene::Scene;
use reference::library::Kind;
use reference::{check, Reference, Reply, TableBytes};

fn volumes(tables: &TableBytes) -> BTreeSet<u32> {
    let volume = |element: &[u8]| u32::from(u16::from_be_bytes([element[0], element[1]]));
    let volumes = tables.elements.chunks(8).map(volume);
    volumes.filter(|&volume| volume != 0).collect()
}

/// Makes the call on the reference and carries the tables on.
fn happen(scene: &mut Scene, call: &Call) -> Reply {
    let made = make(&Reference::default(), &scene.tables, call, [0xA5; 16]);
    made.carry_on(&mut scene.tables);
    made.reply()
}

/// The volumes that should be present after the call: those before, plus an import, less an export.
fn volumes_after(scene: &Scene, call: &Call, number: u8) -> BTreeSet<u32> {
    let mut present = volumes(&scene.tables);
    match *call {
        Call::Import { volume, .. } if number == 0 => {
            present.insert(volume);
        }
        Call::Export { address } if number == 0 => {
            let exported = |place: &usize| u32::from(scene.places[*place].address) == address;
            let place = (0..scene.places.len()).find(exported);
            present.remove(&place.map_or(0, |place| scene.volume(place).into()));
        }
        _ => {}
    }
    present
}

#[test]
fn tables_stay_sound_and_no_volume_is_lost_or_found() {
    let mut random = Random::new(11);
    for history in 0..60 {
        let mut scene = match history % 2 {
            0 => sound::small_scene(&mut random),
            _ => sound::scene(&mut random),
        };
        for _ in 0..200 {
            let call = calls::plausible(&mut random, &scene);
            let before = scene.clone();
            let reply = happen(&mut scene, &call);
            let expected = volumes_after(&before, &call, reply.number);
            assert_eq!(check(&scene.tables.lend()), Ok(()), "{call}");
            assert_eq!(volumes(&scene.tables), expected, "{call}");
            let empty_shelves = scene.empty_shelves();
            assert_eq!(scene.shown_empty_shelves(), empty_shelves, "{call}");
            if reply.number != 0 {
                assert_eq!(scene.tables, before.tables, "{call}");
            }
        }
    }
}

/// The volumes and what stands beside each as its source.
fn sources(scene: &Scene) -> BTreeMap<u16, u16> {
    let full = scene.places_where(|_, volume| volume != 0);
    let with_source = |place: usize| (scene.volume(place), scene.source(place));
    full.into_iter().map(with_source).collect()
}

/// What the sources should be after the call, by where each volume stood before it and stands after it: none for one that came in, the
/// storage element that it left, else what it was.
fn sources_after(before: &Scene, after: &Scene) -> BTreeMap<u16, u16> {
    let old = sources(before);
    let left = |volume: u16| {
        let stood = |place: &usize| before.volume(*place) == volume;
        let place = (0..before.places.len()).find(stood)?;
        let is_left = after.volume(place) != volume && before.places[place].kind == Kind::Storage;
        is_left.then(|| before.places[place].address)
    };
    let full = after.places_where(|_, volume| volume != 0);
    let expected = |place: usize| {
        let volume = after.volume(place);
        let kept = old.get(&volume).copied().unwrap_or(0);
        (volume, left(volume).unwrap_or(kept))
    };
    full.into_iter().map(expected).collect()
}

#[test]
fn a_source_is_the_last_shelf_that_the_volume_left() {
    let mut random = Random::new(13);
    let mut kept = 0;
    for history in 0..60 {
        let mut scene = match history % 2 {
            0 => sound::small_scene(&mut random),
            _ => sound::scene(&mut random),
        };
        for _ in 0..200 {
            let call = calls::plausible(&mut random, &scene);
            let before = scene.clone();
            happen(&mut scene, &call);
            let expected = sources_after(&before, &scene);
            assert_eq!(sources(&scene), expected, "{call}");
            let carried = |place: &usize| {
                let volume = before.volume(*place);
                let with_source = volume != 0 && before.source(*place) != 0;
                with_source && scene.volume(*place) != volume && expected.contains_key(&volume)
            };
            let no_shelves = before.places_where(|kind, _| kind != Kind::Storage);
            kept += no_shelves.iter().filter(|&place| carried(place)).count();
        }
    }
    assert!(kept > 100, "{kept}");
}

#[test]
fn histories_move_import_and_export() {
    let mut random = Random::new(12);
    let (mut moved, mut imported, mut exported) = (0, 0, 0);
    for _ in 0..60 {
        let mut scene = sound::small_scene(&mut random);
        for _ in 0..200 {
            let call = calls::plausible(&mut random, &scene);
            let reply = happen(&mut scene, &call);
            let good = usize::from(reply.number == 0 && reply.status == 0);
            match call {
                Call::Import { .. } => imported += good,
                Call::Export { .. } => exported += good,
                _ if [Some(&0xA5), Some(&0xA6)].contains(&call.lent().block.first()) => {
                    moved += good
                }
                _ => {}
            }
        }
    }
    let enough = moved > 500 && imported > 100 && exported > 100;
    assert!(
        enough,
        "{moved} moves, {imported} imports, {exported} exports"
    );
}
