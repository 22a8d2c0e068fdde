//! Document 02, Two: a source is the last shelf that the volume left, and not the last place.

use crate::fixture::*;

fn carry(library: &mut Library, source: u16, destination: u16) {
    let reply = library.command(1, &move_block(source, destination)).reply;
    assert_eq!(reply, GOOD, "{source:04X}h to {destination:04X}h");
}

fn exchange(library: &mut Library, source: u16, first: u16, second: u16) {
    let block = exchange_block(source, first, second);
    assert_eq!(library.command(1, &block).reply, GOOD, "{block:02X?}");
}

/// The 16 bytes that READ ELEMENT STATUS shows of one element.
fn shown(library: &mut Library, address: u16) -> Vec<u8> {
    let [high, low] = address.to_be_bytes();
    let answered = library.command(1, &[0xB8, 0, high, low, 0, 1, 0, 0, 0, 32, 0, 0]);
    assert_eq!(answered.reply, good(32));
    answered.returned()[16..].to_vec()
}

#[test]
#[rustfmt::skip]
fn shelf_to_drive_to_mail_slot_names_the_shelf() {
    let mut library = Library::small();
    carry(&mut library, 0x1000, 0x0100);
    assert_eq!(shown(&mut library, 0x0100), [0x01, 0x00, 0x09, 0, 0, 0, 0, 0, 0, 0x80, 0x10, 0x00, 0, 0, 0, 0]);
    carry(&mut library, 0x0100, 0x0010);
    assert_eq!(library.element(AT_0100), EMPTY);
    assert_eq!(library.element(AT_0010), [0, 1, 0x10, 0x00, 0, 0, 0, 0]);
    assert_eq!(shown(&mut library, 0x0010), [0x00, 0x10, 0x39, 0, 0, 0, 0, 0, 0, 0x80, 0x10, 0x00, 0, 0, 0, 0]);
}

#[test]
#[rustfmt::skip]
fn an_imported_volume_names_none_until_it_leaves_a_shelf() {
    let mut library = Library::small();
    library.set_element(AT_0010, [0, 3, 0, 0, 0, 0, 1, 0]);
    carry(&mut library, 0x0010, 0x0100);
    assert_eq!(library.element(AT_0100), [0, 3, 0, 0, 0, 0, 0, 0]);
    assert_eq!(shown(&mut library, 0x0100), [0x01, 0x00, 0x09, 0, 0, 0, 0, 0, 0, 0, 0, 0, 0, 0, 0, 0]);
    carry(&mut library, 0x0100, 0x1001);
    assert_eq!(library.element(AT_1001), [0, 3, 0, 0, 0, 0, 0, 0]);
    carry(&mut library, 0x1001, 0x0100);
    assert_eq!(library.element(AT_0100), [0, 3, 0x10, 0x01, 0, 0, 0, 0]);
}

#[test]
fn from_the_drive_back_to_a_shelf_the_old_shelf_shows() {
    for shelf in [0x1000, 0x1001, 0x1003] {
        let mut library = Library::small();
        carry(&mut library, 0x1000, 0x0100);
        carry(&mut library, 0x0100, shelf);
        let place = AT_1000 + usize::from(shelf - 0x1000);
        assert_eq!(library.element(place), [0, 1, 0x10, 0x00, 0, 0, 0, 0]);
    }
}

#[test]
fn a_volume_that_goes_out_comes_back_without_source() {
    let mut library = Library::small();
    carry(&mut library, 0x1000, 0x0010);
    assert_eq!(library.export(0x0010), GOOD);
    assert_eq!(library.import(0x0010, 1), GOOD);
    assert_eq!(library.element(AT_0010), [0, 1, 0, 0, 0, 0, 1, 0]);
}

/// Volume 3 in the drive, with this source.
fn with_drive_full(source: [u8; 2]) -> Library {
    let mut library = Library::small();
    library.set_element(AT_0100, [0, 3, source[0], source[1], 0, 0, 0, 0]);
    library
}

#[test]
fn each_leg_of_an_exchange_goes_by_itself() {
    for [high, low] in [[0, 0], [0x10, 0x03]] {
        let kept = [0, 3, high, low, 0, 0, 0, 0];
        let taken = [0, 1, 0x10, 0x00, 0, 0, 0, 0];

        let mut from_shelf = with_drive_full([high, low]);
        exchange(&mut from_shelf, 0x1000, 0x0100, 0x1001);
        assert_eq!(from_shelf.element(AT_0100), taken);
        assert_eq!(from_shelf.element(AT_1001), kept);
        assert_eq!(from_shelf.element(AT_1000), EMPTY);

        let mut from_drive = with_drive_full([high, low]);
        exchange(&mut from_drive, 0x0100, 0x1000, 0x1001);
        assert_eq!(from_drive.element(AT_1000), kept);
        assert_eq!(from_drive.element(AT_1001), taken);
        assert_eq!(from_drive.element(AT_0100), EMPTY);

        let mut back_on_shelf = with_drive_full([high, low]);
        exchange(&mut back_on_shelf, 0x1000, 0x0100, 0x1000);
        assert_eq!(back_on_shelf.element(AT_0100), taken);
        assert_eq!(back_on_shelf.element(AT_1000), kept);

        let mut back_in_drive = with_drive_full([high, low]);
        exchange(&mut back_in_drive, 0x0100, 0x1000, 0x0100);
        assert_eq!(back_in_drive.element(AT_1000), kept);
        assert_eq!(back_in_drive.element(AT_0100), taken);
    }
}

#[test]
fn both_legs_keep_their_sources_between_drive_and_mail_slot() {
    for second in [0x0010, 0x1001] {
        let mut library = with_drive_full([0x10, 0x03]);
        library.set_element(AT_0010, [0, 1, 0x10, 0x00, 0, 0, 0, 0]);
        library.set_element(AT_1000, EMPTY);
        exchange(&mut library, 0x0010, 0x0100, second);
        assert_eq!(library.element(AT_0100), [0, 1, 0x10, 0x00, 0, 0, 0, 0]);
        let place = if second == 0x0010 { AT_0010 } else { AT_1001 };
        assert_eq!(library.element(place), [0, 3, 0x10, 0x03, 0, 0, 0, 0]);
    }
}
