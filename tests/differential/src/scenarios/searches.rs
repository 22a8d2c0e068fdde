//! Find by label: what matches, what is told and not told twice, who may ask, and what a search is kept over.

use reference::library::Kind;

use super::cuts::buffer_about;
use super::pairs;
use crate::call::{Call, Ending};
use crate::generate::calls::{self, request_block};
use crate::generate::logs::{self, Recorded};
use crate::generate::searches::{self, list, send_block, ACTIONS};
use crate::generate::sound;
use crate::harness::Harness;
use crate::random::Random;
use crate::scene::{Scene, SEARCH_LENGTH, TEMPLATE_LENGTH};
use crate::tally::line_outcomes;

const ALL: [u8; 1] = *b"*";

fn command(host: u32, block: Vec<u8>, parameters: Vec<u8>, answer: Vec<u8>) -> Call {
    Call::Command {
        entry: calls::named_entry(block[0]),
        host,
        block,
        parameters,
        answer,
    }
}

/// A search of this action for what begins so, in any range, from the start.
fn send(host: u32, action: u8, begin: &[u8]) -> Call {
    let mut template = begin.to_vec();
    template.resize(TEMPLATE_LENGTH, 0);
    let list = list(&template, [0, 0xFFFF]);
    let block = send_block(0, 0, action, list.len());
    command(host, block, list, Vec::new())
}

fn request(random: &mut Random, host: u32, block: Vec<u8>) -> Call {
    let room = random.bytes(26_664);
    command(host, block, Vec::new(), room)
}

/// Quiet, with readable labels, and mostly full: one to four places of each kind.
fn full_scene(random: &mut Random) -> Scene {
    let counts = [1, 2, 1, 1].map(|least| least + random.below(3));
    loop {
        let scene = sound::quiet_scene_with(random, counts);
        let full = scene.places_where(|_, volume| volume != 0);
        if full.len() >= 3 {
            return scene;
        }
    }
}

/// A search gone through to its end and once more: with room for few, for all, from any start, for any type.
pub(super) fn bit_by_bit(harness: &mut Harness, random: &mut Random, round: usize) {
    for case in 0..8 {
        let mut scene = match (case, round % 4) {
            (0, 0) => sound::full_scene(random),
            (0 | 1, _) => sound::quiet_scene(random),
            _ => full_scene(random),
        };
        let host = random.between(1, 2) as u32;
        let sought = match case % 2 {
            0 => {
                let (block, list) = searches::send(random, &scene, 0);
                command(host, block, list, Vec::new())
            }
            _ => send(host, random.pick(&ACTIONS), &ALL),
        };
        harness.call(&mut scene.tables, &sought);
        let tags = random.pick(&[0x00, 0x10]);
        for turn in 0..10 {
            let kind = match random.below(4) {
                0 => random.byte_between(1, 4),
                _ => 0,
            };
            let start = match random.below(4) {
                0 => calls::any_address(random, &scene),
                _ => 0,
            };
            let few = 8 + 8 + random.below(3 * 52);
            let any = random.below(64);
            let allocation = random.pick(&[few, few, few, any, 0xFFFF]);
            let most = random.pick(&[0xFFFF, 0xFFFF, 0xFFFF, 1, 2, 0]);
            let (kind, allocation) = match turn {
                8.. => (0, 0xFFFF),
                _ => (kind, allocation),
            };
            let block = request_block(tags | kind, start, most, allocation);
            let call = request(random, host, block);
            harness.call(&mut scene.tables, &call);
        }
    }
}

/// Every allocation of one small answer, each with buffers about its length; then how the search goes on.
pub(super) fn cuts(harness: &mut Harness, random: &mut Random, round: usize) {
    let byte_1 = [0x00, 0x10, 0x02, 0x12, 0x00][round % 5];
    let mut scene = full_scene(random);
    let sought = send(1, random.pick(&ACTIONS), &ALL);
    harness.call(&mut scene.tables, &sought);
    let whole_block = request_block(byte_1, 0, 0xFFFF, 0xFFFF);
    let whole = request(random, 1, whole_block);
    let length = harness.expect(&scene.tables, &whole).count as usize;
    for allocation in 0..=length + 9 {
        let mut after = scene.clone();
        let block = request_block(byte_1, 0, 0xFFFF, allocation);
        let roomy = request(random, 1, block.clone());
        let returned = harness.expect(&scene.tables, &roomy).count as usize;
        let cut = command(1, block, Vec::new(), buffer_about(random, returned));
        harness.call(&mut after.tables, &cut);
        harness.call(&mut after.tables, &whole);
    }
    let block = request_block(byte_1, 0, 0xFFFF, length);
    let exactly = command(1, block, Vec::new(), random.bytes(length));
    harness.call(&mut scene.tables, &exactly);
}

/// The last descriptor that fits, and not; with tags and without: one byte more or less of room in a library of many pages and places.
pub(super) fn edges_of_descriptors(harness: &mut Harness, random: &mut Random, _: usize) {
    let mut scene = sound::quiet_scene(random);
    harness.call(&mut scene.tables, &send(1, 5, &ALL));
    for (tags, width) in [(0x00, 16), (0x10, 52)] {
        for _ in 0..12 {
            let room = 8 + 8 * random.between(0, 3) + width * random.below(6);
            for allocation in [room.saturating_sub(1), room, room + 1] {
                let block = request_block(tags, 0, 0xFFFF, allocation);
                let call = request(random, 1, block);
                harness.call(&mut scene.tables.clone(), &call);
            }
        }
        let block = request_block(tags, 0, 0xFFFF, 0xFFFF);
        let call = request(random, 1, block);
        harness.call(&mut scene.tables.clone(), &call);
    }
}

/// Templates made from a label of the library: each wild card, one byte spoiled; sequence numbers within the range, at its ends and outside.
pub(super) fn templates(harness: &mut Harness, random: &mut Random, _: usize) {
    for _ in 0..60 {
        let mut scene = full_scene(random);
        let (template, range) = searches::sought(random, &scene);
        let list = list(&template, range);
        let block = send_block(0, 0, random.pick(&ACTIONS), list.len());
        harness.call(&mut scene.tables, &command(1, block, list, Vec::new()));
        let block = request_block(0x10, 0, 0xFFFF, 0xFFFF);
        let call = request(random, 1, block);
        harness.call(&mut scene.tables, &call);
    }
}

/// One reel, with each label, against each template: what a wild card goes with, and what ends a template.
pub(super) fn wild_cards(harness: &mut Harness, random: &mut Random, _: usize) {
    let labels: [&[u8]; 9] = [
        b"FILM", b"FILM01", b"film", b"", b"F", b"FIL?", b"*", b"\0\0", b"FILM  X",
    ];
    let templates: [&[u8]; 13] = [
        b"FILM", b"FILM*", b"FIL?", b"?ILM*", b"*", b"????", b"FILM??", b"F*M", b"FILM*X", b"?*",
        b"", b"*FILM", b"FIL",
    ];
    let fill = random.pick(&[b' ', 0]);
    for (label, template) in pairs(&labels, &templates) {
        let mut scene = Scene::small_library();
        let filled = |text: &[u8], fill: u8| {
            let mut bytes = text.to_vec();
            bytes.resize(TEMPLATE_LENGTH, fill);
            bytes
        };
        scene.tables.tags[..TEMPLATE_LENGTH].copy_from_slice(&filled(label, fill));
        let wanted = random.pick(&[fill, fill, 0, b' ']);
        let list = list(&filled(template, wanted), [0, 0xFFFF]);
        let block = send_block(0, 0, 5, list.len());
        harness.call(&mut scene.tables, &command(1, block, list, Vec::new()));
        let call = request(random, 1, request_block(0, 0, 0xFFFF, 600));
        harness.call(&mut scene.tables, &call);
    }
}

/// Template bytes one by one: all alike but for this one.
pub(super) fn one_byte_differs(harness: &mut Harness, random: &mut Random, _: usize) {
    let scene = full_scene(random);
    let full = scene.places_where(|_, volume| volume != 0);
    let volume = scene.volume(random.pick(&full));
    let label = &scene.tables.tags[36 * (usize::from(volume) - 1)..][..TEMPLATE_LENGTH].to_vec();
    for at in 0..TEMPLATE_LENGTH {
        let mut template = label.clone();
        template[at] ^= random.pick(&[1, 0x20, 0x80]);
        let list = list(&template, [0, 0xFFFF]);
        let mut scene = scene.clone();
        let block = send_block(0, 0, 1, list.len());
        harness.call(&mut scene.tables, &command(1, block, list, Vec::new()));
        let call = request(random, 1, request_block(0, 0, 0xFFFF, 600));
        harness.call(&mut scene.tables, &call);
    }
}

/// Who holds what: nothing, this host or another the unit, an element of each kind; attention and a stray bit besides.
pub(super) fn holders(harness: &mut Harness, random: &mut Random, _: usize) {
    for (first, holder) in pairs(&[0xB6, 0xB5], &[1_u8, 2]) {
        for place in 0..6 {
            let mut scene = full_scene(random);
            scene.tables.search = searches::search(random, &scene);
            let kinds = [
                Kind::Transport,
                Kind::Storage,
                Kind::ImportExport,
                Kind::Drive,
            ];
            match kinds.get(place) {
                Some(&held) => {
                    let places = scene.places_where(|kind, _| kind == held);
                    let id = sound::reservation_id(random);
                    scene.hold(random.pick_with_ends(&places), holder, id);
                }
                None if place == 4 => scene.hold_unit(holder),
                None => {}
            }
            for case in 0..4 {
                let mut scene = scene.clone();
                if case & 1 != 0 {
                    scene.host_record(1)[3..].copy_from_slice(&[0x28, 0x01]);
                }
                let (mut block, list) = match first {
                    0xB6 => searches::send(random, &scene, 0),
                    _ => (request_block(0, 0, 0xFFFF, 600), Vec::new()),
                };
                if case & 2 != 0 {
                    block[11] |= 1;
                }
                let call = command(1, block, list, random.bytes(600));
                harness.call(&mut scene.tables, &call);
            }
        }
    }
}

/// Every action, every type, lists of every length about the right one, each reserved byte; over a search, which a refusal keeps.
pub(super) fn fields(harness: &mut Harness, random: &mut Random, _: usize) {
    let right = |random: &mut Random, scene: &Scene| {
        let (template, range) = searches::sought(random, scene);
        list(&template, range)
    };
    let mut scene = full_scene(random);
    scene.tables.search = searches::search(random, &scene);
    let mut try_one = |(kind, start, action): (u8, u16, u8), list: Vec<u8>| {
        let block = send_block(kind, start, action, list.len());
        let call = command(1, block, list, Vec::new());
        harness.call(&mut scene.tables.clone(), &call);
    };
    for action in 0..=255 {
        let list = right(random, &scene);
        try_one((0, 0, action), list);
    }
    for kind in 0..=31 {
        let list = right(random, &scene);
        let action = random.pick(&ACTIONS);
        try_one((kind, 0, action), list);
    }
    for length in (0..=3).chain(30..=44).chain([80, 255, 256, 296]) {
        let mut list = right(random, &scene);
        list.resize(length, random.pick(&[0, 0xFF]));
        let kind = random.pick(&[0, 0, 9]);
        try_one((kind, 0, 1), list);
    }
    for at in [32, 33, 36, 37] {
        for length in [40, 40, 41] {
            let mut list = right(random, &scene);
            list[at] = random.byte_between(1, 255);
            list.resize(length, 0);
            try_one((0, 0, 5), list);
        }
    }
    for _ in 0..6 {
        let start = calls::any_address(random, &scene);
        let list = right(random, &scene);
        try_one((0, start, 5), list);
    }
}

/// What a request asks: every type, byte 9 and the bits without a use are tried elsewhere too; every edge of start and number.
pub(super) fn requests(harness: &mut Harness, random: &mut Random, _: usize) {
    let mut scene = full_scene(random);
    harness.call(&mut scene.tables, &send(1, 1, &ALL));
    for byte_1 in 0..=31 {
        let block = request_block(byte_1, 0, 0xFFFF, 0xFFFF);
        let call = request(random, 1, block);
        harness.call(&mut scene.tables.clone(), &call);
    }
    for byte_9 in [1, 0x80, 0xFF] {
        let mut block = request_block(0, 0, 0xFFFF, 600);
        block[9] = byte_9;
        let call = request(random, 1, block);
        harness.call(&mut scene.tables.clone(), &call);
    }
    for place in scene.places.clone() {
        for start in [
            place.address - 1,
            place.address,
            place.address.wrapping_add(1),
        ] {
            let most = random.pick(&[0, 1, 2, 0xFFFF]);
            let call = request(random, 1, request_block(0, start, most, 600));
            harness.call(&mut scene.tables.clone(), &call);
        }
    }
}

/// The last address there can be: when it is told, the next is 10000h.
pub(super) fn last_address(harness: &mut Harness, random: &mut Random, _: usize) {
    let mut scene = loop {
        let scene = full_scene(random);
        let last = scene.places.len() - 1;
        if scene.places[last].address == 0xFFFF && scene.volume(last) != 0 {
            break scene;
        }
    };
    harness.call(&mut scene.tables, &send(1, 5, &ALL));
    for _ in 0..2 {
        let call = request(random, 1, request_block(0, 0xFFFF, 0xFFFF, 600));
        harness.call(&mut scene.tables, &call);
    }
    let call = request(random, 1, request_block(0, 0, 0xFFFF, 600));
    harness.call(&mut scene.tables, &call);
}

/// Between two requests anything happens: matches are judged when they are reported. A reset ends the search.
pub(super) fn between(harness: &mut Harness, random: &mut Random, round: usize) {
    for case in 0..6 {
        let mut scene = full_scene(random);
        let begin = random.pick(&[b"*", b"A", b"?"]).to_vec();
        let begin = [&begin[..], &b"*"[..]].concat();
        harness.call(&mut scene.tables, &send(1, random.pick(&ACTIONS), &begin));
        for turn in 0..6 {
            let call = match (case, turn) {
                (0, 3) => Call::Reset,
                (1, 3) => calls::import(random, &scene),
                (2, 3) => calls::export(random, &scene),
                _ => {
                    let first = random.pick(&[0xA5, 0xA5, 0xA6, 0xB8, 0x00]);
                    calls::plausible_command(random, &scene, first)
                }
            };
            harness.call(&mut scene.tables, &call);
            // An attention is told first, to the one host that asks.
            scene.host_record(1)[3..].fill(0);
            let host = 1 + ((turn + round) % 2) as u32;
            scene.host_record(host as u8)[3..].fill(0);
            let block = request_block(0x10, 0, random.pick(&[1, 2, 0xFFFF]), 600);
            let call = request(random, host, block);
            harness.call(&mut scene.tables, &call);
        }
    }
}

/// The lines of a log begin searches, tell and go on, though no answer is kept; behind the log the search goes on from there.
pub(super) fn replayed(harness: &mut Harness, random: &mut Random, _: usize) {
    for case in 0..4 {
        let mut scene = full_scene(random);
        let mut after = scene.clone();
        let mut made = vec![send(1, random.pick(&ACTIONS), &ALL)];
        for _ in 0..3 {
            let allocation = 8 + 8 + random.below(120);
            made.push(request(random, 1, request_block(0, 0, 0xFFFF, allocation)));
        }
        if case == 1 {
            made.push(Call::Reset);
        }
        if case == 2 {
            let again = searches::send(random, &scene, 0);
            made.push(command(1, again.0, again.1, Vec::new()));
        }
        let numbered = (1..).zip(made);
        let lines: Vec<Recorded> = numbered
            .map(|(number, call)| logs::record(&mut after, number, call))
            .collect();
        let mut log = logs::text(&lines);
        if case == 3 {
            log.extend(b"no line\n");
        }
        let call = Call::Replay {
            log,
            expected: 1,
            budget: random.pick(&[2, 3, 9]),
        };
        let Some(Ending::Replayed(told)) = harness.call(&mut scene.tables, &call) else {
            return;
        };
        let applied = lines[..told.lines as usize].iter();
        for outcome in applied.flat_map(line_outcomes) {
            harness.reach(outcome);
        }
        scene.host_record(1)[3..].fill(0);
        let call = request(random, 1, request_block(0x10, 0, 0xFFFF, 600));
        harness.call(&mut scene.tables, &call);
    }
}

/// Tables with any bytes of a search, sound or not.
pub(super) fn any_search(harness: &mut Harness, random: &mut Random, _: usize) {
    for case in 0..48 {
        let mut scene = full_scene(random);
        let mut search = searches::search(random, &scene);
        let at = random.below(SEARCH_LENGTH);
        match case % 12 {
            0 => search = random.bytes(SEARCH_LENGTH),
            1 => search[at] = random.byte(),
            2 => search[33] = case as u8 / 2,
            3 => search[33] = 0,
            4 => search[32] = case as u8 / 12 + 3,
            5 => search[38..].copy_from_slice(&[1, 0, 0]),
            6 => search[38..]
                .copy_from_slice(&[[1, 0, 1], [1, 1, 0], [2, 0, 0], [0xFF; 3]][case / 12]),
            7 => search[38..].copy_from_slice(&[0, 0xFF, 0xFF]),
            8 => search = vec![0; SEARCH_LENGTH],
            9 => {
                search = vec![0; SEARCH_LENGTH];
                search[at] = 1;
            }
            10 => search[..TEMPLATE_LENGTH].fill(0),
            _ => search.resize(random.pick(&[0, 40, 42, 82]), 0),
        }
        scene.tables.search = search;
        let block = request_block(0x10, 0, 0xFFFF, 0xFFFF);
        for call in [request(random, 1, block), calls::plausible(random, &scene)] {
            harness.call(&mut scene.tables, &call);
        }
    }
}
