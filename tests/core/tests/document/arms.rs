//! Document 02, Seven: transport 0 means the lowest-addressed transport that no other host holds.

use crate::fixture::*;

const WRONG_ADDRESS: [u8; 3] = [5, 0x21, 0x01];

/// Mail slot 8h, transports 10h to 12h, drive 20h, shelves 30h to 33h; volume 1 at 30h, volume 2 at 31h.
fn three_arms() -> Library {
    let ranges = [
        [0, 0x10, 0, 3],
        [0, 0x30, 0, 4],
        [0, 0x08, 0, 1],
        [0, 0x20, 0, 1],
    ];
    let mut library = Library::small();
    library.head[..16].copy_from_slice(&ranges.concat());
    library.elements = vec![0; 8 * 9];
    library.set_element(SHELF_30, VOLUME_1);
    library.set_element(SHELF_31, VOLUME_2);
    library
}

const ARMS: [usize; 3] = [1, 2, 3];
const SHELF_30: usize = 5;
const SHELF_31: usize = 6;

/// A MOVE to the drive and a swap, by transport 0.
fn blocks() -> [[u8; 12]; 2] {
    [move_block(0x30, 0x20), exchange_block(0x30, 0x31, 0x30)]
}

fn by(arm: u8, mut block: [u8; 12]) -> [u8; 12] {
    block[3] = arm;
    block
}

#[test]
fn any_arm_that_no_other_host_holds_will_do() {
    // 0 for nobody, 1 for the calling host, 2 and 3 for others.
    for pattern in 0..64 {
        let holders = [pattern & 3, pattern >> 2 & 3, pattern >> 4];
        let open = holders.iter().any(|holder| *holder <= 1);
        for block in blocks() {
            let mut library = three_arms();
            for (place, holder) in ARMS.into_iter().zip(holders) {
                library.hold(place, holder, 0);
            }
            match open {
                true => assert_eq!(library.command(1, &block).reply, GOOD, "{holders:?}"),
                false => library.expect_conflict(1, &block, &[]),
            }
        }
    }
}

#[test]
fn an_arm_named_by_its_address_is_as_before() {
    for (place, arm) in ARMS.into_iter().zip(0x10..) {
        for block in blocks() {
            let mut library = three_arms();
            library.hold(place, 2, 7);
            library.expect_conflict(1, &by(arm, block), &[]);
            assert_eq!(library.clone().command(2, &by(arm, block)).reply, GOOD);
            let next = if arm == 0x12 { 0x10 } else { arm + 1 };
            assert_eq!(library.command(1, &by(next, block)).reply, GOOD);
        }
    }
    for wrong in [0x08, 0x0F, 0x13, 0x20, 0x30] {
        for block in blocks() {
            three_arms().expect_check(1, &by(wrong, block), &[], WRONG_ADDRESS);
        }
    }
}

/// Other hosts hold all arms.
fn none_free() -> Library {
    let mut library = three_arms();
    for (place, host) in ARMS.into_iter().zip([2, 3, 8]) {
        library.hold(place, host, 0);
    }
    library
}

#[test]
fn no_free_arm_comes_after_the_addresses() {
    for block in [
        move_block(0x30, 0x34),
        move_block(0x2F, 0x20),
        move_block(0x30, 0x10),
        move_block(0, 0x20),
        exchange_block(0x30, 0x30, 0x31),
        exchange_block(0x30, 0x31, 0x11),
        exchange_block(0x30, 0x99, 0x31),
    ] {
        none_free().expect_check(1, &block, &[], WRONG_ADDRESS);
    }
}

#[test]
fn no_free_arm_comes_before_empty_full_and_the_cartridge() {
    for block in [
        move_block(0x32, 0x20),
        move_block(0x30, 0x31),
        move_block(0x32, 0x32),
        exchange_block(0x32, 0x31, 0x33),
        exchange_block(0x30, 0x32, 0x33),
        exchange_block(0x30, 0x31, 0x31),
    ] {
        none_free().expect_conflict(1, &block, &[]);
    }
    let mut unfit = none_free();
    unfit.masks[0] = 0;
    unfit.expect_conflict(1, &move_block(0x30, 0x20), &[]);
}

#[test]
fn each_host_finds_its_own_arm() {
    for (host, expected) in [(1, false), (2, true), (3, true), (4, false), (8, true)] {
        for block in blocks() {
            let mut library = none_free();
            match expected {
                true => assert_eq!(library.command(host, &block).reply, GOOD),
                false => library.expect_conflict(host, &block, &[]),
            }
        }
    }
}

#[test]
fn a_free_arm_does_not_help_where_a_place_is_held() {
    for block in blocks() {
        let mut library = three_arms();
        library.hold(ARMS[0], 2, 0);
        library.hold(SHELF_30, 2, 0);
        library.expect_conflict(1, &block, &[]);
    }
}

#[test]
fn the_arm_used_keeps_its_holder_and_stays_empty() {
    let mut library = three_arms();
    library.hold(ARMS[0], 2, 5);
    library.hold(ARMS[1], 1, 6);
    assert_eq!(library.command(1, &move_block(0x30, 0x20)).reply, GOOD);
    assert_eq!(library.element(ARMS[0]), [0, 0, 0, 0, 2, 5, 0, 0]);
    assert_eq!(library.element(ARMS[1]), [0, 0, 0, 0, 1, 6, 0, 0]);
    assert_eq!(library.element(ARMS[2]), EMPTY);
}

#[test]
fn the_last_of_127_arms_is_found() {
    let ranges = [[0, 1, 0, 127], [1, 0, 0, 2], [0; 4], [0; 4]];
    let mut library = Library::small();
    library.head[..16].copy_from_slice(&ranges.concat());
    library.elements = vec![0; 8 * 129];
    library.fit_cartridges();
    library.set_element(127, VOLUME_1);
    for place in 0..127 {
        library.hold(place, 2, 0);
    }
    library.expect_conflict(1, &move_block(0x0100, 0x0101), &[]);
    for free in [0, 1, 63, 125, 126] {
        let mut one = library.clone();
        one.hold(free, 0, 0);
        assert_eq!(one.command(1, &move_block(0x0100, 0x0101)).reply, GOOD);
    }
}

#[test]
fn a_replayed_move_finds_it_too() {
    let mut library = three_arms();
    library.hold(ARMS[0], 2, 0);
    let log = b"1\t1\tA50000000030002000000000\t\n";
    assert_eq!(library.replay(log, 1, 1).lines, 1);
    assert_eq!(library.element(SHELF_30), EMPTY);
    let mut none = none_free();
    assert_eq!(none.replay(log, 1, 1).lines, 1);
    assert_eq!(none, none_free());
}
