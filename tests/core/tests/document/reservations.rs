//! RESERVE and RELEASE.

use crate::fixture::*;
use crate::vectors::gx80;

const RESERVE_UNIT: [u8; 6] = [0x16, 0, 0, 0, 0, 0];
const RELEASE_UNIT: [u8; 6] = [0x17, 0, 0, 0, 0, 0];

const LIST_LENGTH: [u8; 3] = [5, 0x1A, 0x00];
const LIST_RESERVED: [u8; 3] = [5, 0x26, 0x00];
const WRONG_ADDRESS: [u8; 3] = [5, 0x21, 0x01];

/// Holder and id of 0001h, 0010h, 0100h, 1000h, 1001h, 1002h, 1003h.
fn holders(library: &Library) -> [[u8; 2]; 7] {
    [
        AT_0001, AT_0010, AT_0100, AT_1000, AT_1001, AT_1002, AT_1003,
    ]
    .map(|place| library.holder_and_id(place))
}

fn reserve(library: &mut Library, host: u32, id: u8, list: &[[u8; 6]]) -> reference::Reply {
    let block = reserve_block(id, list.len() as u8);
    library.with_list(host, &block, &list.concat()).reply
}

fn expect_fault(list: &[[u8; 6]], sense: [u8; 3]) {
    let block = reserve_block(5, list.len() as u8);
    Library::small().expect_check(1, &block, &list.concat(), sense);
}

#[test]
fn the_unit_is_held_whatever_the_id() {
    for id in [0, 9, 255] {
        let mut library = Library::small();
        let mut expected = library.clone();
        expected.hold_unit(4);
        assert_eq!(
            library.with_list(4, &[0x16, 0, id, 0, 0, 0], &[]).reply,
            GOOD
        );
        assert_eq!(library, expected);
        assert_eq!(library.with_list(4, &RESERVE_UNIT, &[]).reply, GOOD);
        assert_eq!(library, expected);
    }
}

#[test]
fn the_unit_is_refused_where_another_host_holds_any_element() {
    for place in [AT_0001, AT_1003] {
        let mut library = Library::small();
        library.hold(AT_0100, 1, 0);
        library.hold(place, 8, 1);
        library.expect_conflict(1, &RESERVE_UNIT, &[]);
        assert_eq!(library.unit_holder(), 0);
    }
}

#[test]
fn the_unit_keeps_the_hosts_own_elements_and_more_can_be_held() {
    let mut library = Library::small();
    library.hold(AT_0100, 1, 7);
    assert_eq!(library.with_list(1, &RESERVE_UNIT, &[]).reply, GOOD);
    assert_eq!(library.unit_holder(), 1);
    assert_eq!(library.holder_and_id(AT_0100), [1, 7]);
    assert_eq!(reserve(&mut library, 1, 8, &[descriptor(1, 0x1000)]), GOOD);
    assert_eq!(library.holder_and_id(AT_1000), [1, 8]);
    library.expect_conflict(1, &reserve_block(8, 1), &descriptor(1, 0x0100));
}

#[test]
fn a_descriptor_names_a_run_across_ranges_and_gaps() {
    let free = [0, 0];
    let held = [3, 6];
    for (number, first, expected) in [
        (1, 0x1003, [free, free, free, free, free, free, held]),
        (3, 0x0010, [free, held, held, held, free, free, free]),
        (7, 0x0001, [held; 7]),
        (0, 0x0001, [held; 7]),
        (0, 0x0100, [free, free, held, held, held, held, held]),
        (0, 0x1003, [free, free, free, free, free, free, held]),
    ] {
        let mut library = Library::small();
        assert_eq!(
            reserve(&mut library, 3, 6, &[descriptor(number, first)]),
            GOOD
        );
        assert_eq!(holders(&library), expected);
    }
}

#[test]
fn an_unknown_address_or_too_many_is_a_wrong_address() {
    for (number, first) in [
        (1, 0x0000),
        (0, 0x0000),
        (1, 0x0002),
        (0, 0x0FFF),
        (1, 0x1004),
        (1, 0xFFFF),
        (2, 0x1003),
        (5, 0x1000),
        (8, 0x0001),
        (0xFFFF, 0x0001),
    ] {
        expect_fault(&[descriptor(number, first)], WRONG_ADDRESS);
    }
}

#[test]
fn a_list_has_1_to_32_descriptors() {
    for length in [0, 1, 5, 7, 11, 191, 193, 198, 204, 0x0106] {
        let [high, low] = u16::to_be_bytes(length);
        let block = [0x16, 1, 0, high, low, 0];
        let list = vec![0xFF; length.into()];
        Library::small().expect_check(1, &block, &list, LIST_LENGTH);
    }
    let of_shelves = |number: u16| -> Vec<[u8; 6]> {
        (1..=number).map(|address| descriptor(1, address)).collect()
    };
    let mut library = gx80();
    assert_eq!(reserve(&mut library, 1, 0, &of_shelves(32)), GOOD);
    assert_eq!(library.holder_and_id(31), [1, 0]);
    assert_eq!(library.holder_and_id(32), [0, 0]);
    let block = reserve_block(0, 33);
    gx80().expect_check(1, &block, &of_shelves(33).concat(), LIST_LENGTH);
}

#[test]
fn a_stray_bit_comes_before_the_list_length() {
    Library::small().expect_check(1, &[0x16, 1, 0, 0, 0, 1], &[], [5, 0x24, 0x00]);
}

#[test]
fn reserved_bytes_come_before_the_address_of_the_same_descriptor() {
    for [high, low] in [[1, 0], [0, 1], [0x80, 0], [0, 0x80]] {
        expect_fault(&[[high, low, 0, 1, 0x10, 0x00]], LIST_RESERVED);
        expect_fault(&[[high, low, 0, 1, 0x10, 0x04]], LIST_RESERVED);
        expect_fault(&[[high, low, 0, 9, 0x10, 0x00]], LIST_RESERVED);
    }
}

#[test]
fn the_first_fault_is_told() {
    let right = descriptor(1, 0x1000);
    let wrong_address = descriptor(1, 0x1004);
    let reserved = [0, 1, 0, 1, 0x10, 0x01];
    expect_fault(&[right, wrong_address, reserved], WRONG_ADDRESS);
    expect_fault(&[right, reserved, wrong_address], LIST_RESERVED);
    expect_fault(&[wrong_address, reserved], WRONG_ADDRESS);
    expect_fault(&[reserved, wrong_address], LIST_RESERVED);
}

#[test]
fn an_element_named_by_two_descriptors_is_a_wrong_address() {
    let shelf = descriptor(1, 0x1001);
    expect_fault(&[shelf, shelf], WRONG_ADDRESS);
    expect_fault(&[descriptor(3, 0x0100), shelf], WRONG_ADDRESS);
    expect_fault(&[shelf, descriptor(0, 0x0001)], WRONG_ADDRESS);
    expect_fault(
        &[shelf, descriptor(1, 0x1000), descriptor(1, 0x1001)],
        WRONG_ADDRESS,
    );
    expect_fault(&[shelf, [0, 1, 0, 1, 0x10, 0x01]], LIST_RESERVED);
    let touching = [descriptor(3, 0x0100), descriptor(2, 0x1002)];
    assert_eq!(reserve(&mut Library::small(), 1, 0, &touching), GOOD);
}

#[test]
fn a_fault_in_any_descriptor_comes_before_a_conflict() {
    let mut library = Library::small();
    library.hold(AT_1000, 2, 0);
    let conflict = descriptor(1, 0x1000);
    for (fault, sense) in [
        (descriptor(1, 0x1004), WRONG_ADDRESS),
        ([1, 0, 0, 1, 0x10, 0x01], LIST_RESERVED),
        (conflict, WRONG_ADDRESS),
    ] {
        let list = [conflict, fault].concat();
        library.expect_check(1, &reserve_block(0, 2), &list, sense);
    }
    library.expect_conflict(1, &reserve_block(0, 1), &conflict);
}

#[test]
fn another_host_or_another_id_is_a_conflict() {
    for (host, id) in [(2, 5), (8, 0), (1, 4), (1, 0)] {
        for place in [AT_1000, AT_1003] {
            let mut library = Library::small();
            library.hold(place, host, id);
            library.expect_conflict(1, &reserve_block(5, 1), &descriptor(4, 0x1000));
        }
    }
}

#[test]
fn id_0_is_an_id_like_any_other() {
    let mut library = Library::small();
    library.hold(AT_1000, 1, 9);
    library.expect_conflict(1, &reserve_block(0, 1), &descriptor(1, 0x1000));
    assert_eq!(reserve(&mut library, 1, 0, &[descriptor(1, 0x1001)]), GOOD);
    assert_eq!(reserve(&mut library, 1, 0, &[descriptor(1, 0x1002)]), GOOD);
    let free = [0, 0];
    assert_eq!(
        holders(&library),
        [free, free, free, [1, 9], free, [1, 0], free]
    );
}

#[test]
fn a_granted_reserve_supersedes_the_same_id_of_the_same_host() {
    let mut library = Library::small();
    library.hold(AT_0001, 1, 5);
    library.hold(AT_0010, 1, 6);
    library.hold(AT_0100, 2, 5);
    library.hold(AT_1000, 1, 5);
    let list = [descriptor(2, 0x1000)];
    assert_eq!(reserve(&mut library, 1, 5, &list), GOOD);
    let free = [0, 0];
    let expected = [free, [1, 6], [2, 5], [1, 5], [1, 5], free, free];
    assert_eq!(holders(&library), expected);
}

#[test]
fn release_of_elements_frees_those_of_the_id_and_the_host() {
    let mut library = Library::small();
    library.hold(AT_0001, 1, 5);
    library.hold(AT_0010, 1, 6);
    library.hold(AT_0100, 2, 5);
    library.hold(AT_1003, 1, 5);
    assert_eq!(library.command(1, &[0x17, 1, 5, 0, 0, 0]).reply, GOOD);
    let free = [0, 0];
    let expected = [free, [1, 6], [2, 5], free, free, free, free];
    assert_eq!(holders(&library), expected);
}

#[test]
fn release_of_elements_keeps_the_unit() {
    let mut library = Library::small();
    library.hold_unit(1);
    library.hold(AT_1000, 1, 0);
    assert_eq!(library.command(1, &[0x17, 1, 0, 0, 0, 0]).reply, GOOD);
    assert_eq!(library.unit_holder(), 1);
    assert_eq!(library.holder_and_id(AT_1000), [0, 0]);
}

#[test]
fn release_of_the_unit_frees_it_and_all_elements_of_the_host() {
    for id in [0, 200] {
        let mut library = Library::small();
        library.hold_unit(1);
        library.hold(AT_0001, 1, 5);
        library.hold(AT_1003, 1, 0);
        assert_eq!(library.command(1, &[0x17, 0, id, 0, 0, 0]).reply, GOOD);
        assert_eq!(library, Library::small());
    }
}

#[test]
fn release_of_what_others_hold_is_good_and_changes_nothing() {
    let mut of_unit = Library::small();
    of_unit.hold_unit(2);
    of_unit.hold(AT_1000, 2, 5);
    let mut of_element = Library::small();
    of_element.hold(AT_1000, 2, 5);
    for held in [of_unit, of_element, Library::small()] {
        for block in [RELEASE_UNIT, [0x17, 1, 5, 0, 0, 0], [0x17, 1, 0, 0, 0, 0]] {
            let mut library = held.clone();
            assert_eq!(library.command(1, &block).reply, GOOD);
            assert_eq!(library, held);
        }
    }
}

#[test]
fn other_hosts_elements_hinder_no_command_that_touches_none() {
    let mut library = Library::small();
    for place in AT_0001..=AT_1003 {
        library.hold(place, 2, 1);
    }
    let read = [0xB8, 0, 0, 0, 0xFF, 0xFF, 0, 0, 1, 0, 0, 0];
    assert_eq!(library.command(1, &[0; 6]).reply, GOOD);
    assert_eq!(library.command(1, &[0x03, 0, 0, 0, 18, 0]).reply, good(18));
    assert_eq!(library.command(1, &RELEASE_UNIT).reply, GOOD);
    assert_eq!(library.command(1, &[0x1E, 0, 0, 0, 1, 0]).reply, GOOD);
    assert_eq!(library.command(1, &read).reply, good(152));
}
