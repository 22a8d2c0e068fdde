//! P1 to P12 and the READ with tags, with every byte of the outcome.

use crate::fixture::*;

struct Case {
    name: &'static str,
    block: [u8; 12],
    before: [[u8; 8]; 7],
    reply: reference::Reply,
    sense: [u8; 3],
    after: [[u8; 8]; 7],
    /// How many of the four shelves are then empty.
    empty_shelves: u16,
}

const NO_SENSE: [u8; 3] = [0, 0, 0];
const SOURCE_EMPTY: [u8; 3] = [5, 0x3B, 0x0E];
const DESTINATION_FULL: [u8; 3] = [5, 0x3B, 0x0D];
const WRONG_ADDRESS: [u8; 3] = [5, 0x21, 0x01];

/// 0001h, 0010h, 0100h, 1000h, 1001h, 1002h, 1003h.
const AS_LOADED: [[u8; 8]; 7] = [EMPTY, EMPTY, EMPTY, VOLUME_1, EMPTY, VOLUME_2, EMPTY];

fn unsuccessful(name: &'static str, block: [u8; 12], sense: [u8; 3]) -> Case {
    Case {
        name,
        block,
        before: AS_LOADED,
        reply: CHECK_CONDITION,
        sense,
        after: AS_LOADED,
        empty_shelves: 2,
    }
}

fn run(case: &Case) {
    let mut library = Library::small();
    library.elements = case.before.concat();
    let mut expected = library.clone();
    expected.elements = case.after.concat();
    expected.head[18..21].copy_from_slice(&case.sense);
    expected.show_empty_shelves(case.empty_shelves);
    let answered = library.with_buffer(1, &case.block, &[], 48);
    assert_eq!(answered.reply, case.reply, "{}", case.name);
    assert_eq!(answered.answer, [UNTOUCHED; 48], "{}", case.name);
    assert_eq!(library, expected, "{}", case.name);
}

#[test]
fn p1_moves_volume_1_into_the_drive() {
    let drive = [0, 1, 0x10, 0x00, 0, 0, 0, 0];
    run(&Case {
        name: "P1",
        block: move_block(0x1000, 0x0100),
        before: AS_LOADED,
        reply: GOOD,
        sense: NO_SENSE,
        after: [EMPTY, EMPTY, drive, EMPTY, EMPTY, VOLUME_2, EMPTY],
        empty_shelves: 3,
    });
}

#[test]
fn p2_to_p6_are_moves_that_fail() {
    let cases = [
        ("P2", move_block(0x1001, 0x0100), SOURCE_EMPTY),
        ("P3", move_block(0x1000, 0x1002), DESTINATION_FULL),
        ("P4", move_block(0x1000, 0x1000), DESTINATION_FULL),
        ("P5", move_block(0x1001, 0x1001), SOURCE_EMPTY),
        ("P6 to 1004h", move_block(0x1000, 0x1004), WRONG_ADDRESS),
        ("P6 to 0001h", move_block(0x1000, 0x0001), WRONG_ADDRESS),
    ];
    for (name, block, sense) in cases {
        run(&unsuccessful(name, block, sense));
    }
}

#[test]
fn p7_swaps_two_volumes() {
    let at_1000 = [0, 2, 0x10, 0x02, 0, 0, 0, 0];
    let at_1002 = [0, 1, 0x10, 0x00, 0, 0, 0, 0];
    run(&Case {
        name: "P7",
        block: exchange_block(0x1000, 0x1002, 0x1000),
        before: AS_LOADED,
        reply: GOOD,
        sense: NO_SENSE,
        after: [EMPTY, EMPTY, EMPTY, at_1000, EMPTY, at_1002, EMPTY],
        empty_shelves: 2,
    });
}

#[test]
fn p8_to_p10_are_exchanges_that_fail() {
    let cases = [
        ("P8", exchange_block(0x1000, 0x1000, 0x1001), WRONG_ADDRESS),
        (
            "P9",
            exchange_block(0x1000, 0x1002, 0x1002),
            DESTINATION_FULL,
        ),
        ("P10", exchange_block(0x1000, 0x1001, 0x1003), SOURCE_EMPTY),
    ];
    for (name, block, sense) in cases {
        run(&unsuccessful(name, block, sense));
    }
}

#[test]
fn p11_an_element_of_another_host_is_a_conflict() {
    let held = [0, 2, 0, 0, 2, 0, 0, 0];
    let places = [EMPTY, EMPTY, EMPTY, VOLUME_1, EMPTY, held, EMPTY];
    run(&Case {
        name: "P11",
        block: move_block(0x1000, 0x1002),
        before: places,
        reply: RESERVATION_CONFLICT,
        sense: NO_SENSE,
        after: places,
        empty_shelves: 2,
    });
}

/// READ type 2, start 0, two elements, no tags.
fn p12_block(allocation: u8) -> [u8; 12] {
    [0xB8, 0x02, 0, 0, 0, 2, 0, 0, 0, allocation, 0, 0]
}

#[rustfmt::skip]
const P12_WHOLE: [u8; 48] = [
    0x10, 0x00, 0x00, 0x02, 0x00, 0x00, 0x00, 0x28,
    0x02, 0x00, 0x00, 0x10, 0x00, 0x00, 0x00, 0x20,
    0x10, 0x00, 0x09, 0, 0, 0, 0, 0, 0, 0, 0, 0, 0, 0, 0, 0,
    0x10, 0x01, 0x08, 0, 0, 0, 0, 0, 0, 0, 0, 0, 0, 0, 0, 0,
];

#[test]
fn p12_lists_two_shelves_and_its_cuts() {
    for (allocation, count) in [(48, 48), (47, 32), (32, 32), (31, 8), (8, 8), (7, 7)] {
        let mut library = Library::small();
        let answered = library.with_buffer(1, &p12_block(allocation), &[], 60);
        assert_eq!(answered.reply, good(count), "allocation {allocation}");
        let whole = &P12_WHOLE[..count as usize];
        assert_eq!(answered.returned(), whole, "allocation {allocation}");
        assert_eq!(library, Library::small(), "allocation {allocation}");
    }
}

#[test]
fn read_all_with_tags_returns_404_bytes() {
    let page = |kind: u8, bytes: u8| vec![kind, 0x80, 0, 0x34, 0, 0, 0, bytes];
    let place = |address: [u8; 2], flags: u8, label: Vec<u8>| {
        [&address[..], &[flags], &[0; 9], &label, &[0; 4]].concat()
    };
    let expected = [
        vec![0x00, 0x01, 0x00, 0x07, 0x00, 0x00, 0x01, 0x8C],
        page(1, 0x34),
        place([0x00, 0x01], 0x00, blank_label()),
        page(3, 0x34),
        place([0x00, 0x10], 0x38, blank_label()),
        page(4, 0x34),
        place([0x01, 0x00], 0x08, blank_label()),
        page(2, 0xD0),
        place([0x10, 0x00], 0x09, label(b"ABC123L1")),
        place([0x10, 0x01], 0x08, blank_label()),
        place([0x10, 0x02], 0x09, label(b"ABC124L1")),
        place([0x10, 0x03], 0x08, blank_label()),
    ]
    .concat();
    let mut library = Library::small();
    let block = [0xB8, 0x10, 0, 0, 0xFF, 0xFF, 0, 0xFF, 0xFF, 0xFF, 0, 0];
    let answered = library.with_buffer(1, &block, &[], 410);
    assert_eq!(answered.reply, good(404));
    assert_eq!(answered.returned(), expected);
    assert_eq!(library, Library::small());
}
