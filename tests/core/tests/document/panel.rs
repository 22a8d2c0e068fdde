//! Document 02, Four: the head's last two bytes are how many storage elements are empty.

use crate::fixture::*;

const VOLUME_3: [u8; 8] = [0, 3, 0, 0, 0, 0, 0, 0];

/// The number after a block that ends GOOD.
fn after(mut library: Library, block: [u8; 12]) -> u16 {
    assert_eq!(library.command(1, &block).reply, GOOD, "{block:02X?}");
    library.empty_shelves()
}

fn with(place: usize) -> Library {
    let mut library = Library::small();
    library.set_element(place, VOLUME_3);
    library
}

#[test]
fn a_move_counts_the_shelf_left_and_the_shelf_filled() {
    // Two of four shelves are empty: 1001h and 1003h.
    assert_eq!(Library::small().empty_shelves(), 2);
    assert_eq!(after(Library::small(), move_block(0x1000, 0x0100)), 3);
    assert_eq!(after(Library::small(), move_block(0x1000, 0x0010)), 3);
    assert_eq!(after(Library::small(), move_block(0x1000, 0x1001)), 2);
    for (place, address, other) in [(AT_0100, 0x0100, 0x0010), (AT_0010, 0x0010, 0x0100)] {
        assert_eq!(with(place).empty_shelves(), 2);
        assert_eq!(after(with(place), move_block(address, 0x1003)), 1);
        assert_eq!(after(with(place), move_block(address, other)), 2);
    }
}

#[test]
fn an_exchange_counts_the_source_and_the_second() {
    let drive = |source, second| after(with(AT_0100), exchange_block(source, 0x0100, second));
    // From shelf 1000h by the drive to a mail slot, to another shelf, and back.
    assert_eq!(drive(0x1000, 0x0010), 3);
    assert_eq!(drive(0x1000, 0x1001), 2);
    assert_eq!(drive(0x1000, 0x1000), 2);
    let shelf = |source, second| after(with(AT_0100), exchange_block(source, 0x1000, second));
    // From the drive by shelf 1000h to another shelf, to the mail slot, and back; from shelf 1002h to the mail slot.
    assert_eq!(shelf(0x0100, 0x1001), 1);
    assert_eq!(shelf(0x0100, 0x0010), 2);
    assert_eq!(shelf(0x0100, 0x0100), 2);
    assert_eq!(shelf(0x1002, 0x0010), 3);
    assert_eq!(shelf(0x1002, 0x1003), 2);
    assert_eq!(shelf(0x1002, 0x1002), 2);
}

#[test]
fn the_other_commands_leave_it() {
    let mut library = Library::small();
    for block in [
        &[0x00, 0, 0, 0, 0, 0][..],
        &[0x03, 0, 0, 0, 18, 0],
        &[0x16, 0, 0, 0, 0, 0],
        &[0x17, 0, 0, 0, 0, 0],
        &[0x1E, 0, 0, 0, 1, 0],
        &[0x1A, 0, 0x3F, 0, 255, 0],
        &[0xB8, 0, 0, 0, 0xFF, 0xFF, 0, 0, 1, 0, 0, 0],
    ] {
        let reply = library.command(1, block).reply;
        assert_eq!((reply.number, reply.status), (0, 0), "{block:02X?}");
        assert_eq!(library.empty_shelves(), 2, "{block:02X?}");
    }
}

#[test]
fn a_mail_slot_is_no_shelf_and_reset_moves_nothing() {
    let mut library = Library::small();
    assert_eq!(library.import(0x0010, 3), GOOD);
    assert_eq!(library.empty_shelves(), 2);
    assert_eq!(library.export(0x0010), GOOD);
    assert_eq!(library.empty_shelves(), 2);
    assert_eq!(library.reset(), GOOD);
    assert_eq!(library.empty_shelves(), 2);
}

#[test]
fn a_move_that_fails_leaves_it() {
    for block in [
        move_block(0x1001, 0x0100),
        move_block(0x1000, 0x1002),
        move_block(0x1000, 0x1004),
        exchange_block(0x1000, 0x1002, 0x1002),
        exchange_block(0x1000, 0x1001, 0x1003),
    ] {
        let mut library = Library::small();
        assert_eq!(library.command(1, &block).reply, CHECK_CONDITION);
        assert_eq!(library.empty_shelves(), 2, "{block:02X?}");
    }
}

/// A transport at 1, a drive at 2, 300 shelves from 0100h on; volume 1 in the drive, and as many shelves full as make 256 empty.
fn three_hundred() -> Library {
    let mut library = Library::small();
    let ranges = [[0, 1, 0, 1], [1, 0, 0x01, 0x2C], [0; 4], [0, 2, 0, 1]];
    library.head[..16].copy_from_slice(&ranges.concat());
    library.elements = vec![0; 8 * 302];
    library.tags = vec![0x41; 36 * 50];
    library.fit_cartridges();
    library.elements[8 + 1] = 1;
    for shelf in 0..44 {
        library.elements[8 * (2 + shelf) + 1] = 2 + shelf as u8;
    }
    library.head[58..].copy_from_slice(&[0x01, 0x00]);
    library
}

#[test]
fn the_high_byte_goes_along() {
    let mut library = three_hundred();
    let mut carry = |source, destination| {
        let reply = library.command(1, &move_block(source, destination)).reply;
        assert_eq!(reply, GOOD);
        [library.head[58], library.head[59]]
    };
    // The last shelf is 022Bh.
    assert_eq!(carry(0x0002, 0x022B), [0x00, 0xFF]);
    assert_eq!(carry(0x0100, 0x022A), [0x00, 0xFF]);
    assert_eq!(carry(0x022B, 0x0002), [0x01, 0x00]);
    assert_eq!(carry(0x022A, 0x0100), [0x01, 0x00]);
}
