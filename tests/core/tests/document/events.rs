//! Import, export, reset and PREVENT ALLOW.

use crate::fixture::*;

const ACCESSED: [u8; 5] = [0, 0, 0, 0x28, 0x01];
const AFTER_RESET: [u8; 5] = [0, 0, 0, 0x29, 0x00];

#[test]
fn import_fills_an_element_and_tells_every_host() {
    let mut library = Library::small();
    let mut expected = library.clone();
    expected.set_element(AT_0010, [0, 3, 0, 0, 0, 0, 1, 0]);
    for host in 1..=8 {
        expected.set_host_record(host, ACCESSED);
    }
    assert_eq!(library.import(0x0010, 3), GOOD);
    assert_eq!(library, expected);
}

#[test]
fn export_empties_an_element_and_tells_every_host() {
    let mut library = Library::small();
    library.set_element(AT_0010, [0, 3, 0x10, 0x00, 0, 0, 1, 0]);
    assert_eq!(library.export(0x0010), GOOD);
    let mut expected = Library::small();
    for host in 1..=8 {
        expected.set_host_record(host, ACCESSED);
    }
    assert_eq!(library, expected);
}

#[test]
fn events_ignore_reservations_and_keep_them() {
    let mut library = Library::small();
    library.hold_unit(2);
    library.hold(AT_0010, 2, 9);
    assert_eq!(library.import(0x0010, 3), GOOD);
    assert_eq!(library.element(AT_0010), [0, 3, 0, 0, 2, 9, 1, 0]);
    assert_eq!(library.export(0x0010), GOOD);
    assert_eq!(library.element(AT_0010), [0, 0, 0, 0, 2, 9, 0, 0]);
    assert_eq!(library.unit_holder(), 2);
}

#[test]
fn attention_is_set_only_for_hosts_with_none_and_sense_stays() {
    let mut library = Library::small();
    library.set_host_record(2, [5, 0x24, 0x00, 0x29, 0x00]);
    library.set_host_record(3, [5, 0x24, 0x00, 0x28, 0x01]);
    library.set_host_record(4, [5, 0x24, 0x00, 0, 0]);
    let expect = |library: &Library| {
        assert_eq!(library.host_record(1), ACCESSED);
        assert_eq!(library.host_record(2), [5, 0x24, 0x00, 0x29, 0x00]);
        assert_eq!(library.host_record(3), [5, 0x24, 0x00, 0x28, 0x01]);
        assert_eq!(library.host_record(4), [5, 0x24, 0x00, 0x28, 0x01]);
    };
    assert_eq!(library.import(0x0010, 3), GOOD);
    expect(&library);
    assert_eq!(library.export(0x0010), GOOD);
    expect(&library);
}

#[test]
fn reset_frees_and_clears_and_tells_every_host() {
    let mut library = Library::small();
    library.set_element(AT_0010, [0, 3, 0x10, 0x01, 0, 0, 1, 0]);
    let mut expected = library.clone();
    for host in 1..=8 {
        expected.set_host_record(host, AFTER_RESET);
    }
    library.hold_unit(5);
    library.hold(AT_0001, 5, 0);
    library.hold(AT_1003, 5, 255);
    library.head[17] = 0xFF;
    library.set_host_record(1, [5, 0x24, 0x00, 0x28, 0x01]);
    library.set_host_record(8, [5, 0x24, 0x00, 0x29, 0x00]);
    assert_eq!(library.reset(), GOOD);
    assert_eq!(library, expected);
}

#[test]
fn prevent_and_allow_change_the_hosts_own_bit() {
    let prevent = [0x1E, 0, 0, 0, 1, 0];
    let allow = [0x1E, 0, 0, 0, 0, 0];
    let mut library = Library::small();
    for (host, block, mask) in [
        (1, prevent, 0b0000_0001),
        (8, prevent, 0b1000_0001),
        (4, prevent, 0b1000_1001),
        (4, prevent, 0b1000_1001),
        (1, allow, 0b1000_1000),
        (2, allow, 0b1000_1000),
        (8, allow, 0b0000_1000),
        (4, allow, 0b0000_0000),
    ] {
        assert_eq!(library.command(host, &block).reply, GOOD);
        assert_eq!(library.prevent_mask(), mask);
    }
    assert_eq!(library, Library::small());
}

#[test]
fn a_removal_is_possible_again_after_the_last_allow() {
    let mut library = Library::small();
    library.set_element(AT_0010, [0, 3, 0, 0, 0, 0, 1, 0]);
    assert_eq!(library.command(6, &[0x1E, 0, 0, 0, 1, 0]).reply, GOOD);
    let refusal = library.export(0x0010);
    assert_eq!(
        (refusal.number, refusal.preventers, refusal.lowest),
        (7, 1, 6)
    );
    assert_eq!(library.command(6, &[0x1E, 0, 0, 0, 0, 0]).reply, GOOD);
    assert_eq!(library.export(0x0010), GOOD);
}
