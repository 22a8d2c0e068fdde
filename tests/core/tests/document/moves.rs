//! MOVE and EXCHANGE beyond P1 to P11.

use crate::fixture::*;

const SOURCE_EMPTY: [u8; 3] = [5, 0x3B, 0x0E];
const DESTINATION_FULL: [u8; 3] = [5, 0x3B, 0x0D];
const WRONG_ADDRESS: [u8; 3] = [5, 0x21, 0x01];
const INVALID_FIELD: [u8; 3] = [5, 0x24, 0x00];

/// Volume 3 in the import/export element, put there by hand, beside the two on the shelves.
fn with_marked_volume() -> Library {
    let mut library = Library::small();
    library.set_element(AT_0010, [0, 3, 0, 0, 0, 0, 1, 0]);
    library
}

#[test]
fn the_place_left_and_the_place_filled_have_no_mark() {
    let mut library = with_marked_volume();
    assert_eq!(library.command(1, &move_block(0x0010, 0x1001)).reply, GOOD);
    assert_eq!(library.element(AT_0010), EMPTY);
    assert_eq!(library.element(AT_1001), [0, 3, 0, 0, 0, 0, 0, 0]);
    assert_eq!(library.command(1, &move_block(0x1001, 0x0010)).reply, GOOD);
    assert_eq!(library.element(AT_0010), [0, 3, 0x10, 0x01, 0, 0, 0, 0]);
    assert_eq!(library.element(AT_1001), EMPTY);
}

#[test]
fn a_move_forgets_the_older_source_and_keeps_reservations() {
    let mut library = Library::small();
    library.set_element(AT_1000, [0, 1, 0x10, 0x03, 1, 4, 0, 0]);
    library.set_element(AT_0100, [0, 0, 0, 0, 1, 0, 0, 0]);
    assert_eq!(library.command(1, &move_block(0x1000, 0x0100)).reply, GOOD);
    assert_eq!(library.element(AT_1000), [0, 0, 0, 0, 1, 4, 0, 0]);
    assert_eq!(library.element(AT_0100), [0, 1, 0x10, 0x00, 1, 0, 0, 0]);
}

#[test]
fn the_transport_is_0_or_a_transport() {
    let named = |transport: [u8; 2]| {
        let mut block = move_block(0x1000, 0x0100);
        block[2..4].copy_from_slice(&transport);
        block
    };
    assert_eq!(Library::small().command(1, &named([0, 1])).reply, GOOD);
    for wrong in [
        [0x00, 0x02],
        [0x10, 0x00],
        [0x00, 0x10],
        [0xFF, 0xFF],
        [1, 1],
    ] {
        Library::small().expect_check(1, &named(wrong), &[], WRONG_ADDRESS);
    }
}

#[test]
fn source_and_destination_are_elements_and_no_transport() {
    for wrong in [0x0000, 0x0001, 0x0002, 0x000F, 0x1004, 0x0FFF, 0xFFFF] {
        let blocks = [
            move_block(wrong, 0x0100),
            move_block(0x1000, wrong),
            exchange_block(wrong, 0x1002, 0x1001),
            exchange_block(0x1000, wrong, 0x1001),
            exchange_block(0x1000, 0x1002, wrong),
        ];
        for block in blocks {
            Library::small().expect_check(1, &block, &[], WRONG_ADDRESS);
        }
    }
}

#[test]
fn each_element_touched_counts_and_step_6_comes_before_7_and_8() {
    let empty_to_full = move_block(0x1001, 0x1002);
    for place in [AT_0001, AT_1001, AT_1002] {
        let mut library = Library::small();
        library.hold(place, 2, 0);
        library.expect_conflict(1, &empty_to_full, &[]);
    }
    let empties = exchange_block(0x1001, 0x1003, 0x1000);
    for place in [AT_0001, AT_1001, AT_1003, AT_1000] {
        let mut library = Library::small();
        library.hold(place, 8, 255);
        library.expect_conflict(1, &empties, &[]);
    }
}

#[test]
fn an_element_not_touched_does_not_count() {
    let mut library = Library::small();
    for place in [AT_0010, AT_1001, AT_1002, AT_1003] {
        library.hold(place, 2, 0);
    }
    assert_eq!(library.command(1, &move_block(0x1000, 0x0100)).reply, GOOD);
}

#[test]
fn step_5_comes_before_6() {
    let mut library = Library::small();
    library.hold(AT_0001, 2, 0);
    library.hold(AT_1000, 2, 0);
    library.expect_check(1, &move_block(0x1000, 0x1004), &[], WRONG_ADDRESS);
    let block = exchange_block(0x1000, 0x1000, 0x1001);
    library.expect_check(1, &block, &[], WRONG_ADDRESS);
}

#[test]
fn step_7_comes_before_8() {
    Library::small().expect_check(1, &move_block(0x1001, 0x1002), &[], SOURCE_EMPTY);
    let to_full = exchange_block(0x1000, 0x1001, 0x1002);
    Library::small().expect_check(1, &to_full, &[], SOURCE_EMPTY);
    let from_empty = exchange_block(0x1001, 0x1002, 0x1000);
    Library::small().expect_check(1, &from_empty, &[], SOURCE_EMPTY);
}

#[test]
fn invert_is_not_supported() {
    let mut inverted = move_block(0x1000, 0x0100);
    inverted[10] = 1;
    Library::small().expect_check(1, &inverted, &[], INVALID_FIELD);
    for bits in [1, 2, 3] {
        let mut inverted = exchange_block(0x1000, 0x1002, 0x1000);
        inverted[10] = bits;
        Library::small().expect_check(1, &inverted, &[], INVALID_FIELD);
    }
}

#[test]
fn prevention_never_hinders_a_move() {
    let mut library = with_marked_volume();
    library.head[17] = 0xFF;
    assert_eq!(library.command(1, &move_block(0x0010, 0x1001)).reply, GOOD);
    assert_eq!(library.command(1, &move_block(0x1001, 0x0010)).reply, GOOD);
    let swap = exchange_block(0x0010, 0x1000, 0x0010);
    assert_eq!(library.command(1, &swap).reply, GOOD);
    assert_eq!(library.prevent_mask(), 0xFF);
}

#[test]
fn an_exchange_over_three_places() {
    let mut library = Library::small();
    let block = exchange_block(0x1000, 0x1002, 0x1003);
    assert_eq!(library.command(1, &block).reply, GOOD);
    assert_eq!(library.element(AT_1000), EMPTY);
    assert_eq!(library.element(AT_1002), [0, 1, 0x10, 0x00, 0, 0, 0, 0]);
    assert_eq!(library.element(AT_1003), [0, 2, 0x10, 0x02, 0, 0, 0, 0]);
}

#[test]
fn an_exchange_leaves_no_mark_wherever_the_marked_volume_stood() {
    let mut as_source = with_marked_volume();
    let block = exchange_block(0x0010, 0x1000, 0x1001);
    assert_eq!(as_source.command(1, &block).reply, GOOD);
    assert_eq!(as_source.element(AT_0010), EMPTY);
    assert_eq!(as_source.element(AT_1000), [0, 3, 0, 0, 0, 0, 0, 0]);
    assert_eq!(as_source.element(AT_1001), [0, 1, 0x10, 0x00, 0, 0, 0, 0]);

    let mut as_first = with_marked_volume();
    let block = exchange_block(0x1000, 0x0010, 0x1001);
    assert_eq!(as_first.command(1, &block).reply, GOOD);
    assert_eq!(as_first.element(AT_0010), [0, 1, 0x10, 0x00, 0, 0, 0, 0]);
    assert_eq!(as_first.element(AT_1001), [0, 3, 0, 0, 0, 0, 0, 0]);

    let mut as_both = with_marked_volume();
    let block = exchange_block(0x0010, 0x1000, 0x0010);
    assert_eq!(as_both.command(1, &block).reply, GOOD);
    assert_eq!(as_both.element(AT_0010), [0, 1, 0x10, 0x00, 0, 0, 0, 0]);
    assert_eq!(as_both.element(AT_1000), [0, 3, 0, 0, 0, 0, 0, 0]);
}

#[test]
fn first_equal_to_source_is_a_wrong_address_even_where_empty_or_held() {
    let mut library = Library::small();
    library.hold(AT_1001, 2, 0);
    let block = exchange_block(0x1001, 0x1001, 0x1001);
    library.expect_check(1, &block, &[], WRONG_ADDRESS);
}

#[test]
fn second_equal_to_first_falls_to_the_later_steps() {
    let full = exchange_block(0x1000, 0x1002, 0x1002);
    Library::small().expect_check(1, &full, &[], DESTINATION_FULL);
    let empty = exchange_block(0x1000, 0x1001, 0x1001);
    Library::small().expect_check(1, &empty, &[], SOURCE_EMPTY);
}

#[test]
fn a_second_that_is_full_and_not_the_source_is_refused() {
    let mut library = with_marked_volume();
    let block = exchange_block(0x1000, 0x1002, 0x0010);
    library.expect_check(1, &block, &[], DESTINATION_FULL);
}
