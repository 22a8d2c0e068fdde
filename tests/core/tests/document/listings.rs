//! READ ELEMENT STATUS: what is chosen, what is shown, what is cut.

use crate::fixture::*;

/// READ without tags, with room for everything.
fn read_block(kind: u8, start: u16, most: u16) -> [u8; 12] {
    let [s, t] = start.to_be_bytes();
    let [m, n] = most.to_be_bytes();
    [0xB8, kind, s, t, m, n, 0, 0, 0xFF, 0xFF, 0, 0]
}

/// The header and the addresses of the descriptors, of a listing without tags that is one page long.
fn header_and_addresses(block: [u8; 12]) -> ([u8; 8], Vec<u16>) {
    let answered = Library::small().command(1, &block);
    let returned = answered.returned();
    let header = returned[..8].try_into().unwrap();
    let address = |bytes: &[u8]| u16::from_be_bytes([bytes[0], bytes[1]]);
    let descriptors = returned.get(16..).unwrap_or_default();
    (header, descriptors.chunks(16).map(address).collect())
}

#[test]
fn type_start_and_number_choose() {
    for (block, header, addresses) in [
        (
            read_block(2, 0x1001, 0xFFFF),
            [0x10, 0x01, 0, 3, 0, 0, 0, 0x38],
            vec![0x1001, 0x1002, 0x1003],
        ),
        (
            read_block(2, 0x0011, 1),
            [0x10, 0x00, 0, 1, 0, 0, 0, 0x18],
            vec![0x1000],
        ),
        (
            read_block(0, 0x0FFF, 2),
            [0x10, 0x00, 0, 2, 0, 0, 0, 0x28],
            vec![0x1000, 0x1001],
        ),
        (
            read_block(1, 1, 9),
            [0x00, 0x01, 0, 1, 0, 0, 0, 0x18],
            vec![0x0001],
        ),
        (
            read_block(0, 0x1003, 9),
            [0x10, 0x03, 0, 1, 0, 0, 0, 0x18],
            vec![0x1003],
        ),
    ] {
        assert_eq!(header_and_addresses(block), (header, addresses));
    }
}

#[test]
fn nothing_chosen_is_a_header_of_zeros() {
    for block in [
        read_block(0, 0x1004, 0xFFFF),
        read_block(0, 0xFFFF, 0xFFFF),
        read_block(0, 0, 0),
        read_block(1, 2, 0xFFFF),
        read_block(4, 0x0101, 1),
    ] {
        let answered = Library::small().command(1, &block);
        assert_eq!(answered.reply, good(8));
        assert_eq!(answered.returned(), [0; 8]);
    }
}

#[test]
fn a_type_without_elements_is_a_header_of_zeros() {
    let mut library = Library::small();
    library.head[12..16].fill(0);
    library.elements.drain(8 * AT_0100..8 * AT_0100 + 8);
    library.fit_cartridges();
    let answered = library.command(1, &read_block(4, 0, 0xFFFF));
    assert_eq!(answered.reply, good(8));
    assert_eq!(answered.returned(), [0; 8]);
}

/// The 16 bytes shown for the only element chosen.
fn shown(library: &mut Library, kind: u8, address: u16) -> Vec<u8> {
    let answered = library.command(1, &read_block(kind, address, 1));
    assert_eq!(answered.reply, good(32));
    answered.returned()[16..].to_vec()
}

/// The element set to these bytes is shown as this descriptor.
fn expect_shown(place: usize, element: [u8; 8], kind: u8, descriptor: [u8; 16]) {
    let mut library = Library::small();
    library.set_element(place, element);
    let address = u16::from_be_bytes([descriptor[0], descriptor[1]]);
    assert_eq!(shown(&mut library, kind, address), descriptor);
}

#[test]
#[rustfmt::skip]
fn flags_of_each_kind() {
    let marked = [0, 3, 0, 0, 0, 0, 1, 0];
    let unmarked = [0, 3, 0, 0, 0, 0, 0, 0];
    expect_shown(AT_0001, EMPTY, 1, [0x00, 0x01, 0x00, 0, 0, 0, 0, 0, 0, 0, 0, 0, 0, 0, 0, 0]);
    expect_shown(AT_1001, EMPTY, 2, [0x10, 0x01, 0x08, 0, 0, 0, 0, 0, 0, 0, 0, 0, 0, 0, 0, 0]);
    expect_shown(AT_1000, VOLUME_1, 2, [0x10, 0x00, 0x09, 0, 0, 0, 0, 0, 0, 0, 0, 0, 0, 0, 0, 0]);
    expect_shown(AT_0100, EMPTY, 4, [0x01, 0x00, 0x08, 0, 0, 0, 0, 0, 0, 0, 0, 0, 0, 0, 0, 0]);
    expect_shown(AT_0100, unmarked, 4, [0x01, 0x00, 0x09, 0, 0, 0, 0, 0, 0, 0, 0, 0, 0, 0, 0, 0]);
    expect_shown(AT_0010, EMPTY, 3, [0x00, 0x10, 0x38, 0, 0, 0, 0, 0, 0, 0, 0, 0, 0, 0, 0, 0]);
    expect_shown(AT_0010, unmarked, 3, [0x00, 0x10, 0x39, 0, 0, 0, 0, 0, 0, 0, 0, 0, 0, 0, 0, 0]);
    expect_shown(AT_0010, marked, 3, [0x00, 0x10, 0x3B, 0, 0, 0, 0, 0, 0, 0, 0, 0, 0, 0, 0, 0]);
}

#[test]
#[rustfmt::skip]
fn a_source_is_shown_where_one_stands() {
    expect_shown(AT_0100, [0, 3, 0x10, 0x03, 8, 1, 0, 0], 4,
        [0x01, 0x00, 0x09, 0, 0, 0, 0, 0, 0, 0x80, 0x10, 0x03, 0, 0, 0, 0]);
    expect_shown(AT_0010, [0, 3, 0x10, 0x01, 0, 0, 0, 0], 3,
        [0x00, 0x10, 0x39, 0, 0, 0, 0, 0, 0, 0x80, 0x10, 0x01, 0, 0, 0, 0]);
    expect_shown(AT_0010, [0, 3, 0x10, 0x02, 0, 0, 1, 0], 3,
        [0x00, 0x10, 0x3B, 0, 0, 0, 0, 0, 0, 0x80, 0x10, 0x02, 0, 0, 0, 0]);
    expect_shown(AT_1003, [0, 3, 0x10, 0x03, 0, 0, 0, 0], 2,
        [0x10, 0x03, 0x09, 0, 0, 0, 0, 0, 0, 0x80, 0x10, 0x03, 0, 0, 0, 0]);
}

#[test]
fn with_tags_the_label_stands_between_source_and_the_last_four_zeros() {
    let mut library = Library::small();
    library.set_element(AT_1001, [0, 3, 0x10, 0x03, 0, 0, 0, 0]);
    let block = [0xB8, 0x12, 0x10, 0x01, 0, 1, 0, 0, 0, 68, 0, 0];
    let answered = library.command(1, &block);
    let expected = [
        vec![0x10, 0x01, 0x00, 0x01, 0x00, 0x00, 0x00, 0x3C],
        vec![0x02, 0x80, 0x00, 0x34, 0x00, 0x00, 0x00, 0x34],
        vec![0x10, 0x01, 0x09, 0, 0, 0, 0, 0, 0, 0x80, 0x10, 0x03],
        label(b"ABC125L1"),
        vec![0; 4],
    ]
    .concat();
    assert_eq!(answered.reply, good(68));
    assert_eq!(answered.returned(), expected);
}

#[test]
fn a_listing_of_all_types_is_cut_between_descriptors() {
    // Pages of 24, 24, 24 and 72 bytes after the header.
    for (allocation, count) in [
        (0, 0),
        (1, 1),
        (8, 8),
        (16, 8),
        (31, 8),
        (32, 32),
        (55, 32),
        (56, 56),
        (79, 56),
        (80, 80),
        (88, 80),
        (103, 80),
        (104, 104),
        (119, 104),
        (120, 120),
        (135, 120),
        (136, 136),
        (151, 136),
        (152, 152),
        (255, 152),
    ] {
        let mut block = read_block(0, 0, 0xFFFF);
        block[7..10].copy_from_slice(&[0, 0, allocation]);
        let cut = Library::small().command(1, &block);
        let whole = Library::small().command(1, &read_block(0, 0, 0xFFFF));
        assert_eq!(cut.reply, good(count), "allocation {allocation}");
        assert_eq!(cut.returned(), &whole.returned()[..count as usize]);
    }
}

#[test]
fn each_of_the_three_allocation_bytes_counts() {
    for (allocation, count) in [([0, 0, 7], 7), ([0, 1, 0], 152), ([1, 0, 0], 152)] {
        let mut block = read_block(0, 0, 0xFFFF);
        block[7..10].copy_from_slice(&allocation);
        assert_eq!(Library::small().command(1, &block).reply, good(count));
    }
}

#[test]
fn the_largest_answer_is_26664_bytes() {
    let mut library = Library::small();
    let ranges = [[0, 1, 0, 1], [0, 9, 1, 0xFC], [0, 3, 0, 1], [0, 5, 0, 2]];
    library.head[..16].copy_from_slice(&ranges.concat());
    library.elements = vec![0; 8 * 512];
    library.fit_cartridges();
    library.show_empty_shelves(508);
    let block = [0xB8, 0x10, 0, 0, 0xFF, 0xFF, 0, 0xFF, 0xFF, 0xFF, 0, 0];
    let short = library.with_buffer(1, &block, &[], 26_663);
    assert_eq!(short.reply, refused(5));
    let answered = library.with_buffer(1, &block, &[], 26_664);
    assert_eq!(answered.reply, good(26_664));
    // 26,656 is 6820h; 508 labels of 52 bytes are 6730h.
    let returned = answered.returned();
    assert_eq!(
        returned[..8],
        [0x00, 0x01, 0x02, 0x00, 0x00, 0x00, 0x68, 0x20]
    );
    let last_page = 8 + 3 * 8 + 4 * 52;
    let expected = [0x02, 0x80, 0x00, 0x34, 0x00, 0x00, 0x67, 0x30];
    assert_eq!(returned[last_page..last_page + 8], expected);
}
