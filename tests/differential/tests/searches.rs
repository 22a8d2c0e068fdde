//! What must hold of any search, on the reference and on the core: in pieces it tells what it tells at once, and no address twice.

use core_ffi::{core, EmptySlices};
use differential::call::Call;
use differential::compare::{make, Made};
use differential::generate::calls::{self, named_entry, request_block};
use differential::generate::{searches, sound};
use differential::random::Random;
use differential::scene::Scene;
use reference::{Implementation, Reference};

const SEARCHES: usize = 600;

fn command(block: Vec<u8>, parameters: Vec<u8>) -> Call {
    Call::Command {
        entry: named_entry(block[0]),
        host: 1,
        block,
        parameters,
        answer: vec![0; 26_664],
    }
}

/// Makes the call and carries the tables on.
fn happen(on: &dyn Implementation, scene: &mut Scene, call: &Call) -> Made {
    let made = make(on, &scene.tables, call, [0; 16]);
    made.carry_on(&mut scene.tables);
    made
}

/// The addresses of an answer, with tags or without, as far as descriptors were returned.
fn told(made: &Made) -> Vec<u16> {
    let returned = &made.answer()[..made.reply().count as usize];
    let two = |at: usize| u16::from_be_bytes([returned[at], returned[at + 1]]);
    let mut told = Vec::new();
    let mut at = 8;
    while at < returned.len() {
        let (width, bytes) = (usize::from(two(at + 2)), usize::from(two(at + 6)));
        let end = (at + 8 + bytes).min(returned.len());
        told.extend((at + 8..end).step_by(width).map(two));
        at = end;
    }
    told
}

/// For many libraries, on the reference and on the core.
fn each_search(seed: u64, holds: impl Fn(&mut Random, &dyn Implementation, Scene)) {
    let [pointers, nulls] = [EmptySlices::Pointer, EmptySlices::Null].map(core);
    for on in [
        &Reference::default() as &dyn Implementation,
        &pointers,
        &nulls,
    ] {
        let mut random = Random::new(seed);
        for _ in 0..SEARCHES {
            let scene = match random.percent(70) {
                true => sound::small_scene(&mut random),
                false => sound::quiet_scene(&mut random),
            };
            holds(&mut random, on, scene);
        }
    }
}

#[test]
fn in_pieces_a_search_tells_what_it_tells_at_once() {
    each_search(41, |random, on, mut scene| {
        let (block, list) = searches::send(random, &scene, 0);
        happen(on, &mut scene, &command(block, list));
        let at_once = command(request_block(0x10, 0, 0xFFFF, 0xFFFF), Vec::new());
        let expected = told(&happen(on, &mut scene.clone(), &at_once));
        let mut found = Vec::new();
        while found.len() < expected.len() {
            let tags = random.pick(&[0x00, 0x10]);
            let room = 8 + 8 + 52 + random.below(400);
            let most = random.pick(&[1, 2, 7, 0xFFFF]);
            let block = request_block(tags, 0, most, room);
            let some = told(&happen(on, &mut scene, &command(block, Vec::new())));
            assert!(!some.is_empty(), "{found:?} of {expected:?}");
            found.extend(some);
        }
        assert_eq!(found, expected);
        assert_eq!(told(&happen(on, &mut scene, &at_once)), []);
    });
}

/// Whatever happens between the requests, by whichever host.
#[test]
fn no_address_is_told_twice_in_one_search() {
    each_search(42, |random, on, mut scene| {
        let mut last = None;
        for _ in 0..40 {
            let first = random.pick(&[0xB5, 0xB5, 0xB5, 0xB6, 0xA5, 0xA5, 0xA6, 0x03]);
            let call = match random.percent(80) {
                true => calls::plausible_command(random, &scene, first),
                false => calls::plausible(random, &scene),
            };
            let before = scene.tables.search.clone();
            let made = happen(on, &mut scene, &call);
            let good = (made.reply().number, made.reply().status) == (0, 0);
            match call.lent().block.first() {
                Some(0xB6) if good => last = None,
                Some(0xB5) if good => {
                    for address in told(&made) {
                        assert!(last < Some(address), "{address:04X}h after {last:04X?}");
                        last = Some(address);
                    }
                }
                None if matches!(call, Call::Reset) => last = None,
                _ => assert_eq!(scene.tables.search, before, "{call}"),
            }
        }
    });
}
