//! The outside vectors: layouts and addresses that the source documents print.

use crate::fixture::*;

/// Vector 1's library: transports 8001 and 8002, storage 1 to 80, import/export 4001, drives 6001 and
/// 6002, all empty. In the element table: storage at 0 to 79, import/export at 80, drives at 81 and 82.
pub fn gx80() -> Library {
    let ranges = [
        [0x1F, 0x41, 0, 2],
        [0x00, 0x01, 0, 80],
        [0x0F, 0xA1, 0, 1],
        [0x17, 0x71, 0, 2],
    ];
    let mut library = Library::small();
    library.head[..16].copy_from_slice(&ranges.concat());
    library.elements = vec![0; 8 * 85];
    library.fit_cartridges();
    library.show_empty_shelves(80);
    library
}

const SHELF_1: usize = 0;
const SHELF_2: usize = 1;
const DRIVE_6001: usize = 81;
const TRANSPORT_8001: usize = 83;
const TRANSPORT_8002: usize = 84;

fn read_all(library: &mut Library, tags: u8, allocation: [u8; 3]) -> Answered {
    let [a, b, c] = allocation;
    let block = [0xB8, tags, 0, 0, 0xFF, 0xFF, 0, a, b, c, 0, 0];
    library.with_buffer(1, &block, &[], 4_500)
}

#[test]
fn vector_1_geometry_without_tags() {
    let answered = read_all(&mut gx80(), 0, [0, 0xFF, 0xFF]);
    assert_eq!(answered.reply, good(1_400));
    let whole = answered.returned();
    assert_eq!(whole[..8], [0x00, 0x01, 0x00, 0x55, 0x00, 0x00, 0x05, 0x70]);
    assert_eq!(
        whole[8..16],
        [0x02, 0x00, 0x00, 0x10, 0x00, 0x00, 0x05, 0x00]
    );
    let pages = [(8, 0x02), (1_296, 0x03), (1_320, 0x04), (1_360, 0x01)];
    for (at, kind) in pages {
        assert_eq!(whole[at], kind, "page at {at}");
    }
    assert_eq!(whole[1_304..1_307], [0x0F, 0xA1, 0x38]);
    assert_eq!(whole[1_328..1_331], [0x17, 0x71, 0x08]);
    assert_eq!(whole[1_384..1_387], [0x1F, 0x42, 0x00]);
}

#[test]
fn vector_1_geometry_with_tags_and_cuts() {
    let answered = read_all(&mut gx80(), 0x10, [0, 0xFF, 0xFF]);
    assert_eq!(answered.reply, good(4_460));
    let header = [0x00, 0x01, 0x00, 0x55, 0x00, 0x00, 0x11, 0x64];
    assert_eq!(answered.returned()[..8], header);
    assert_eq!(read_all(&mut gx80(), 0, [0, 0, 16]).reply, good(8));
    assert_eq!(read_all(&mut gx80(), 0, [0, 0, 32]).reply, good(32));
}

#[test]
fn vector_2_exchange_from_shelf_to_drive_to_shelf() {
    let mut library = gx80();
    library.set_element(SHELF_1, VOLUME_1);
    library.set_element(DRIVE_6001, VOLUME_2);
    let block = [0xA6, 0, 0, 0, 0x00, 0x01, 0x17, 0x71, 0x00, 0x02, 0, 0];
    assert_eq!(library.command(1, &block).reply, GOOD);
    assert_eq!(library.element(SHELF_1), EMPTY);
    assert_eq!(library.element(SHELF_2), VOLUME_2);
    assert_eq!(library.element(DRIVE_6001), [0, 1, 0x00, 0x01, 0, 0, 0, 0]);
}

#[test]
fn transport_0_is_the_lowest_addressed_that_no_other_host_holds() {
    let mut library = gx80();
    library.set_element(SHELF_1, VOLUME_1);
    library.hold(TRANSPORT_8001, 2, 0);
    let mut by_8001 = move_block(1, 2);
    by_8001[2..4].copy_from_slice(&[0x1F, 0x41]);
    library.expect_conflict(1, &by_8001, &[]);
    assert_eq!(library.command(1, &move_block(1, 2)).reply, GOOD);
    library.hold(TRANSPORT_8002, 3, 0);
    library.expect_conflict(1, &move_block(2, 1), &[]);
    assert_eq!(library.command(2, &move_block(2, 1)).reply, GOOD);
}

#[test]
fn vector_3_small_library_pages_in_address_order() {
    let answered = read_all(&mut Library::small(), 0, [0, 0, 0xFF]);
    assert_eq!(answered.reply, good(152));
    let whole = answered.returned();
    assert_eq!(whole[..8], [0x00, 0x01, 0x00, 0x07, 0x00, 0x00, 0x00, 0x90]);
    let kinds = [whole[8], whole[32], whole[56], whole[80]];
    assert_eq!(kinds, [0x01, 0x03, 0x04, 0x02]);
}

#[test]
fn vector_4_the_drive_after_p1() {
    let mut library = Library::small();
    assert_eq!(library.command(1, &move_block(0x1000, 0x0100)).reply, GOOD);
    let block = [0xB8, 4, 0, 0, 0xFF, 0xFF, 0, 0, 0, 0xFF, 0, 0];
    let answered = library.command(1, &block);
    #[rustfmt::skip]
    let expected = [
        0x01, 0x00, 0x00, 0x01, 0x00, 0x00, 0x00, 0x18,
        0x04, 0x00, 0x00, 0x10, 0x00, 0x00, 0x00, 0x10,
        0x01, 0x00, 0x09, 0x00, 0x00, 0x00, 0x00, 0x00,
        0x00, 0x80, 0x10, 0x00, 0x00, 0x00, 0x00, 0x00,
    ];
    assert_eq!(answered.reply, good(32));
    assert_eq!(answered.returned(), expected);
}

#[test]
fn vector_5_the_import_export_element_after_an_import() {
    let mut library = Library::small();
    assert_eq!(library.import(0x0010, 3), GOOD);
    let block = [0xB8, 3, 0, 0, 0xFF, 0xFF, 0, 0, 0, 0xFF, 0, 0];
    assert_eq!(library.command(1, &block).reply, CHECK_CONDITION);
    assert_eq!(library.host_record(1), [6, 0x28, 0x01, 0, 0]);
    let answered = library.command(1, &block);
    #[rustfmt::skip]
    let expected = [
        0x00, 0x10, 0x00, 0x01, 0x00, 0x00, 0x00, 0x18,
        0x03, 0x00, 0x00, 0x10, 0x00, 0x00, 0x00, 0x10,
        0x00, 0x10, 0x3B, 0, 0, 0, 0, 0, 0, 0, 0, 0, 0, 0, 0, 0,
    ];
    assert_eq!(answered.reply, good(32));
    assert_eq!(answered.returned(), expected);
}

#[test]
fn vector_6_no_sense_and_attention_told() {
    let mut library = Library::small();
    let request = [0x03, 0, 0, 0, 18, 0];
    let no_sense = [0x70, 0, 0, 0, 0, 0, 0, 0x0A, 0, 0, 0, 0, 0, 0, 0, 0, 0, 0];
    assert_eq!(library.command(1, &request).returned(), no_sense);
    assert_eq!(library.import(0x0010, 3), GOOD);
    let told = [
        0x70, 0, 6, 0, 0, 0, 0, 0x0A, 0, 0, 0, 0, 0x28, 0x01, 0, 0, 0, 0,
    ];
    assert_eq!(library.command(1, &request).returned(), told);
    assert_eq!(library.host_record(1), [0; 5]);
}

#[test]
fn vector_7_the_label_of_a_barcode() {
    let block = [0xB8, 0x12, 0x10, 0x00, 0, 1, 0, 0, 0, 0xFF, 0, 0];
    let answered = Library::small().command(1, &block);
    assert_eq!(answered.reply, good(68));
    let shown = &answered.returned()[28..64];
    assert_eq!(shown[..8], [0x41, 0x42, 0x43, 0x31, 0x32, 0x33, 0x4C, 0x31]);
    assert_eq!(shown[8..32], [0x20; 24]);
    assert_eq!(shown[32..], [0x00; 4]);
}

#[test]
fn vector_8_a_host_that_asks_twice() {
    let mut library = gx80();
    let first = read_all(&mut library, 0x10, [0, 0, 8]);
    assert_eq!(first.reply, good(8));
    let header = [0x00, 0x01, 0x00, 0x55, 0x00, 0x00, 0x11, 0x64];
    assert_eq!(first.returned(), header);
    // 1164h + 8 is 116Ch.
    let second = read_all(&mut library, 0x10, [0, 0x11, 0x6C]);
    assert_eq!(second.reply, good(4_460));
    let one_short = read_all(&mut library, 0x10, [0, 0x11, 0x6B]);
    assert_eq!(one_short.reply, good(4_408));
}
