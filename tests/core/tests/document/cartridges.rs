//! Document 02, Six: a drive that can't take a cartridge's generation, and the tables that say so.

use reference::{check, Clause};

use crate::fixture::*;

const WRONG_CARTRIDGE: [u8; 3] = [5, 0x30, 0x12];
const DESTINATION_FULL: [u8; 3] = [5, 0x3B, 0x0D];
const SOURCE_EMPTY: [u8; 3] = [5, 0x3B, 0x0E];
const WRONG_ADDRESS: [u8; 3] = [5, 0x21, 0x01];

/// The small library with these generations of volumes 1, 2 and 3, and this mask of its drive.
fn small(generations: [u8; 3], mask: u8) -> Library {
    let mut library = Library::small();
    library.generations = generations.into();
    library.masks = vec![mask];
    library
}

/// Transport 1, drives 10h to 12h, mail slots 20h and 21h, shelves 30h to 33h; volumes 1 to 4 of generations 1 to 4.
fn three_drives(masks: [u8; 3]) -> Library {
    let ranges = [
        [0, 1, 0, 1],
        [0, 0x30, 0, 4],
        [0, 0x20, 0, 2],
        [0, 0x10, 0, 3],
    ];
    let mut library = Library::small();
    library.head[..16].copy_from_slice(&ranges.concat());
    library.elements = vec![0; 8 * 10];
    library.tags = vec![0x41; 36 * 4];
    library.generations = vec![1, 2, 3, 4];
    library.masks = masks.into();
    library.recount();
    library
}

const DRIVE_10: usize = 1;
const DRIVE_11: usize = 2;
const DRIVE_12: usize = 3;
const SLOT_20: usize = 4;
const SHELF_30: usize = 6;
const SHELF_31: usize = 7;

fn volume(number: u8) -> [u8; 8] {
    [0, number, 0, 0, 0, 0, 0, 0]
}

#[test]
fn each_generation_is_taken_by_its_own_bit() {
    for generation in 1..=8 {
        let bit = 1 << (generation - 1);
        for mask in [bit, 0xFF] {
            let mut library = small([generation, 1, 1], mask);
            assert_eq!(library.command(1, &move_block(0x1000, 0x0100)).reply, GOOD);
            assert_eq!(library.element(AT_0100), [0, 1, 0x10, 0x00, 0, 0, 0, 0]);
        }
        for mask in [0, !bit, bit << 1, bit >> 1] {
            let mut library = small([generation, 1, 1], mask);
            library.expect_check(1, &move_block(0x1000, 0x0100), &[], WRONG_CARTRIDGE);
        }
    }
}

#[test]
fn the_generation_is_that_of_the_volume_moved() {
    // Volume 2 stands at 1002h.
    small([1, 2, 1], 0x01).expect_check(1, &move_block(0x1002, 0x0100), &[], WRONG_CARTRIDGE);
    small([2, 1, 2], 0x02).expect_check(1, &move_block(0x1002, 0x0100), &[], WRONG_CARTRIDGE);
    let mut library = small([1, 2, 1], 0x02);
    assert_eq!(library.command(1, &move_block(0x1002, 0x0100)).reply, GOOD);
}

#[test]
fn shelves_and_mail_slots_take_anything() {
    let mut library = small([8, 7, 6], 0x00);
    for (from, to) in [(0x1000, 0x0010), (0x0010, 0x1001), (0x1001, 0x1003)] {
        assert_eq!(library.command(1, &move_block(from, to)).reply, GOOD);
    }
    let swap = exchange_block(0x1002, 0x1003, 0x1002);
    assert_eq!(library.command(1, &swap).reply, GOOD);
}

#[test]
fn each_drive_has_its_own_mask() {
    let masks = [0x01, 0x02, 0x04];
    for (at, drive) in [0x10, 0x11, 0x12].into_iter().enumerate() {
        for number in 1..=4 {
            let mut library = three_drives(masks);
            library.set_element(SHELF_30, volume(number));
            let block = move_block(0x30, drive);
            match usize::from(number) == at + 1 {
                true => assert_eq!(library.command(1, &block).reply, GOOD),
                false => library.expect_check(1, &block, &[], WRONG_CARTRIDGE),
            }
        }
    }
}

/// Volume 1 on shelf 30h and volume 2 in drive 11h, which takes 2.
fn shelf_and_drive(mask_11: u8, mask_12: u8) -> Library {
    let mut library = three_drives([0, 0x02 | mask_11, mask_12]);
    library.set_element(SHELF_30, volume(1));
    library.set_element(DRIVE_11, volume(2));
    library
}

#[test]
fn the_first_leg_is_judged() {
    for second in [0x31, 0x30, 0x20] {
        let block = exchange_block(0x30, 0x11, second);
        shelf_and_drive(0, 0).expect_check(1, &block, &[], WRONG_CARTRIDGE);
        assert_eq!(shelf_and_drive(0x01, 0).command(1, &block).reply, GOOD);
    }
}

#[test]
fn the_second_leg_is_judged() {
    // The volume of drive 11h goes to drive 12h.
    let block = exchange_block(0x30, 0x11, 0x12);
    shelf_and_drive(0x01, 0x01).expect_check(1, &block, &[], WRONG_CARTRIDGE);
    shelf_and_drive(0x01, 0x04).expect_check(1, &block, &[], WRONG_CARTRIDGE);
    shelf_and_drive(0x00, 0x02).expect_check(1, &block, &[], WRONG_CARTRIDGE);
    let mut library = shelf_and_drive(0x01, 0x02);
    assert_eq!(library.command(1, &block).reply, GOOD);
    assert_eq!(library.element(DRIVE_11), [0, 1, 0, 0x30, 0, 0, 0, 0]);
    assert_eq!(library.element(DRIVE_12), volume(2));
}

#[test]
fn the_second_leg_back_into_the_source_is_judged() {
    // From the drive by the shelf, back into the drive: it must take volume 1.
    let back = exchange_block(0x11, 0x30, 0x11);
    shelf_and_drive(0x00, 0).expect_check(1, &back, &[], WRONG_CARTRIDGE);
    assert_eq!(shelf_and_drive(0x01, 0).command(1, &back).reply, GOOD);
    // Two drives swapped.
    for (masks, taken) in [
        ([0x03, 0x03, 0], true),
        ([0x01, 0x03, 0], false),
        ([0x03, 0x02, 0], false),
        ([0x01, 0x02, 0], false),
    ] {
        let mut library = three_drives(masks);
        library.set_element(DRIVE_10, volume(1));
        library.set_element(DRIVE_11, volume(2));
        let swap = exchange_block(0x10, 0x11, 0x10);
        match taken {
            true => assert_eq!(library.command(1, &swap).reply, GOOD),
            false => library.expect_check(1, &swap, &[], WRONG_CARTRIDGE),
        }
    }
}

#[test]
fn the_drive_that_is_left_is_not_asked() {
    let mut library = three_drives([0x01, 0, 0]);
    library.set_element(DRIVE_10, volume(1));
    library.set_element(SHELF_31, volume(4));
    for second in [0x30, 0x20] {
        let block = exchange_block(0x10, 0x31, second);
        assert_eq!(library.clone().command(1, &block).reply, GOOD);
    }
    assert_eq!(library.command(1, &move_block(0x10, 0x30)).reply, GOOD);
}

#[test]
fn it_stands_after_steps_5_to_8() {
    let unfit = || small([2, 1, 1], 0x01);
    let mut full = unfit();
    full.set_element(AT_0100, VOLUME_2);
    full.set_element(AT_1002, EMPTY);
    full.expect_check(1, &move_block(0x1000, 0x0100), &[], DESTINATION_FULL);
    for place in [AT_0001, AT_1000, AT_0100] {
        let mut held = unfit();
        held.hold(place, 2, 0);
        held.expect_conflict(1, &move_block(0x1000, 0x0100), &[]);
    }
    // The first destination is a drive that would not take the volume, and is empty; the second is full.
    let empty = exchange_block(0x1000, 0x0100, 0x1002);
    unfit().expect_check(1, &empty, &[], SOURCE_EMPTY);
    let mut second = unfit();
    second.set_element(AT_0100, volume(3));
    let to_full = exchange_block(0x1000, 0x0100, 0x1002);
    second.expect_check(1, &to_full, &[], DESTINATION_FULL);
    let mut transport = move_block(0x1000, 0x0100);
    transport[3] = 2;
    unfit().expect_check(1, &transport, &[], WRONG_ADDRESS);
}

#[test]
fn import_takes_anything() {
    let mut library = small([1, 1, 8], 0x01);
    assert_eq!(library.import(0x0010, 3), GOOD);
    assert_eq!(library.element(AT_0010), [0, 3, 0, 0, 0, 0, 1, 0]);
    // Host 1 is told of it first.
    assert_eq!(library.command(1, &[0; 6]).reply, CHECK_CONDITION);
    library.expect_check(1, &move_block(0x0010, 0x0100), &[], WRONG_CARTRIDGE);
}

#[test]
fn a_replayed_move_meets_it_too() {
    let mut library = small([2, 1, 1], 0x01);
    let log = b"1\t1\tA50000001000010000000000\t\n2\t1\tA50000001002010000000000\t\n";
    let told = library.replay(log, 1, 1);
    assert_eq!((told.number, told.lines), (0, 1));
    assert_eq!(library.host_record(1), [5, 0x30, 0x12, 0, 0]);
    assert_eq!(library.element(AT_1000), VOLUME_1);
    let told = library.replay(&log[told.place..], 2, 1);
    assert_eq!((told.number, told.lines), (0, 1));
    assert_eq!(library.element(AT_0100), [0, 2, 0x10, 0x02, 0, 0, 0, 0]);
}

fn expect(library: &Library, expected: Result<(), Clause>) {
    let mut library = library.clone();
    assert_eq!(check(&library.lend()), expected);
    let before = library.clone();
    let number = if expected.is_ok() { 0 } else { 1 };
    assert_eq!(library.command(1, &[0; 6]).reply.number, number);
    assert_eq!(library.replay(b"", 1, 1).number, u32::from(number));
    assert_eq!(library, before);
}

#[test]
fn a_generation_is_1_to_8_whether_the_volume_is_there_or_not() {
    for number in [0, 1, 2] {
        for generation in 1..=8 {
            let mut generations = [1; 3];
            generations[number] = generation;
            expect(&small(generations, 0x01), Ok(()));
        }
        for wrong in [0, 9, 16, 0x80, 0x81, 255] {
            let mut generations = [1; 3];
            generations[number] = wrong;
            expect(&small(generations, 0x01), Err(Clause::GenerationNumber));
        }
    }
}

#[test]
fn the_last_of_512_generations_is_judged() {
    let mut library = Library::small();
    library.tags = vec![0x41; 36 * 512];
    library.generations = vec![8; 512];
    expect(&library, Ok(()));
    for at in [0, 255, 256, 257, 511] {
        let mut wrong = library.clone();
        wrong.generations[at] = 9;
        expect(&wrong, Err(Clause::GenerationNumber));
    }
}

#[test]
fn a_mask_may_have_any_value_but_a_full_drive_takes_what_it_has() {
    for mask in 0..=255 {
        expect(&small([1; 3], mask), Ok(()));
        for generation in 1..=8 {
            let mut library = small([1, 1, generation], mask);
            library.set_element(AT_0100, volume(3));
            let taken = mask & 1 << (generation - 1) != 0;
            let expected = if taken {
                Ok(())
            } else {
                Err(Clause::DriveTakes)
            };
            expect(&library, expected);
        }
    }
}

#[test]
fn each_full_drive_is_judged_by_its_own_mask() {
    let masks = [0x01, 0x02, 0x04];
    for (at, place) in [DRIVE_10, DRIVE_11, DRIVE_12].into_iter().enumerate() {
        for number in 1..=4 {
            let mut library = three_drives(masks);
            library.set_element(place, volume(number));
            let taken = usize::from(number) == at + 1;
            let expected = if taken {
                Ok(())
            } else {
                Err(Clause::DriveTakes)
            };
            expect(&library, expected);
        }
    }
    let mut elsewhere = three_drives([0; 3]);
    elsewhere.set_element(SHELF_30, volume(1));
    elsewhere.set_element(SLOT_20, volume(2));
    expect(&elsewhere, Ok(()));
}

#[test]
fn without_drives_there_are_no_masks_and_without_volumes_no_generations() {
    let mut library = Library::small();
    let ranges = [[0, 1, 0, 1], [0, 2, 0, 1], [0; 4], [0; 4]];
    library.head[..16].copy_from_slice(&ranges.concat());
    library.elements = vec![0; 16];
    library.tags.clear();
    library.recount();
    library.generations.clear();
    library.masks.clear();
    expect(&library, Ok(()));
    let mut longer = library.clone();
    longer.generations.push(1);
    expect(&longer, Err(Clause::GenerationsLength));
    library.masks.push(0xFF);
    expect(&library, Err(Clause::MasksLength));
}
