//! House numbers 2 to 9, each with the order in which they are tested. Number 1 has its own file.

use crate::fixture::*;

const TEST_UNIT_READY: [u8; 6] = [0; 6];
const REQUEST_SENSE_18: [u8; 6] = [0x03, 0, 0, 0, 18, 0];

#[test]
fn number_1_comes_before_the_host() {
    let mut library = Library::small();
    library.head[17] = 1;
    library.elements[7] = 1;
    library.expect_refused(0, &[], &[1], 1);
    assert_eq!(library.import(0, 0), refused(1));
    assert_eq!(library.export(0), refused(1));
    assert_eq!(library.reset(), refused(1));
}

#[test]
fn number_2_for_any_host_but_1_to_8() {
    for host in [0, 9, 255, 256, 257, 264, 65_537, u32::MAX] {
        Library::small().expect_refused(host, &TEST_UNIT_READY, &[], 2);
    }
    for host in 1..=8 {
        assert_eq!(Library::small().command(host, &TEST_UNIT_READY).reply, GOOD);
    }
}

#[test]
fn number_2_comes_before_the_block() {
    Library::small().expect_refused(257, &[], &[], 2);
}

#[test]
fn number_3_by_the_group_of_the_first_byte() {
    let lengths_of_groups = [
        (0x00, Some(6)),
        (0x1F, Some(6)),
        (0x20, Some(10)),
        (0x5F, Some(10)),
        (0x60, None),
        (0x7F, None),
        (0x80, Some(16)),
        (0x9F, Some(16)),
        (0xA0, Some(12)),
        (0xBF, Some(12)),
        (0xC0, None),
        (0xFF, None),
    ];
    for (first, right) in lengths_of_groups {
        for length in 1..=17 {
            let mut block = vec![0; length];
            block[0] = first;
            let number = Library::small().command(1, &block).reply.number;
            let expected = if right.is_none_or(|right| right == length) {
                0
            } else {
                3
            };
            assert_eq!(number, expected, "{first:02x} of {length}");
        }
    }
}

#[test]
fn number_3_for_an_empty_block_and_a_move_of_16_bytes() {
    Library::small().expect_refused(1, &[], &[], 3);
    let long = [&move_block(0x1000, 0x0100)[..], &[0; 4]].concat();
    Library::small().expect_refused(1, &long, &[], 3);
}

#[test]
fn number_3_comes_before_the_parameters() {
    Library::small().expect_refused(1, &[0x00; 5], &[1, 2, 3], 3);
}

#[test]
fn number_4_for_parameters_of_a_command_that_has_none() {
    let read = [0xB8, 0, 0, 0, 0, 1, 0, 0, 0, 8, 0, 0];
    let blocks: [&[u8]; 8] = [
        &TEST_UNIT_READY,
        &REQUEST_SENSE_18,
        &[0x17, 0, 0, 0, 0, 0],
        &[0x1E, 0, 0, 0, 1, 0],
        &move_block(0x1000, 0x0100),
        &exchange_block(0x1000, 0x1002, 0x1000),
        &read,
        &[0x1A, 0, 0x3F, 0, 255, 0],
    ];
    for block in blocks {
        Library::small().expect_refused(1, block, &[0], 4);
    }
}

#[test]
fn number_4_for_a_list_of_another_length_than_bytes_3_and_4_say() {
    let one = descriptor(1, 0x1000);
    Library::small().expect_refused(1, &reserve_block(0, 1), &one[..5], 4);
    Library::small().expect_refused(1, &reserve_block(0, 1), &[], 4);
    Library::small().expect_refused(1, &reserve_block(0, 0), &one, 4);
    // 0106h is 262: the high byte counts.
    Library::small().expect_refused(1, &[0x16, 1, 0, 1, 6, 0], &one, 4);
}

#[test]
fn number_4_reads_the_list_length_with_element_0_too() {
    let unit_with_length_6 = [0x16, 0, 0, 0, 6, 0];
    Library::small().expect_refused(1, &unit_with_length_6, &[], 4);
    let list = descriptor(1, 0x1000);
    Library::small().expect_check(1, &unit_with_length_6, &list, [5, 0x24, 0x00]);
}

#[test]
fn number_4_is_not_judged_for_an_unknown_first_byte() {
    Library::small().expect_check(1, &[0x12, 0, 0, 0, 36, 0], &[1, 2], [5, 0x20, 0x00]);
}

#[test]
fn number_4_comes_before_attention_and_conflict() {
    let mut library = Library::small();
    library.hold_unit(2);
    library.set_host_record(1, [0, 0, 0, 0x28, 0x01]);
    library.expect_refused(1, &TEST_UNIT_READY, &[0], 4);
}

#[test]
fn number_5_for_request_sense_keeps_what_it_would_have_told() {
    for record in [
        [5, 0x24, 0, 0, 0],
        [0, 0, 0, 0x29, 0],
        [5, 0x24, 0, 0x28, 1],
    ] {
        let mut library = Library::small();
        library.set_host_record(1, record);
        let before = library.clone();
        let answered = library.with_buffer(1, &REQUEST_SENSE_18, &[], 17);
        assert_eq!(answered.reply, refused(5));
        assert_eq!(answered.answer, [UNTOUCHED; 17]);
        assert_eq!(library, before);
        assert_eq!(
            library.with_buffer(1, &REQUEST_SENSE_18, &[], 18).reply,
            good(18)
        );
    }
}

#[test]
fn number_5_for_read_does_not_even_clear_sense() {
    let mut library = Library::small();
    library.set_host_record(1, [5, 0x24, 0, 0, 0]);
    let before = library.clone();
    let block = [0xB8, 2, 0, 0, 0, 2, 0, 0, 0, 48, 0, 0];
    let answered = library.with_buffer(1, &block, &[], 47);
    assert_eq!(answered.reply, refused(5));
    assert_eq!(answered.answer, [UNTOUCHED; 47]);
    assert_eq!(library, before);
}

#[test]
fn number_5_compares_with_the_bytes_returned_and_not_with_the_allocation() {
    let allocation_47 = [0xB8, 2, 0, 0, 0, 2, 0, 0, 0, 47, 0, 0];
    let answered = Library::small().with_buffer(1, &allocation_47, &[], 32);
    assert_eq!(answered.reply, good(32));
    let answered = Library::small().with_buffer(1, &allocation_47, &[], 31);
    assert_eq!(answered.reply, refused(5));
    let allocation_255 = [0x03, 0, 0, 0, 255, 0];
    let answered = Library::small().with_buffer(1, &allocation_255, &[], 18);
    assert_eq!(answered.reply, good(18));
}

#[test]
fn number_5_is_judged_only_where_the_status_would_be_good() {
    let mut library = Library::small();
    let type_5 = [0xB8, 5, 0, 0, 0, 2, 0, 0, 0, 48, 0, 0];
    let answered = library.with_buffer(1, &type_5, &[], 0);
    assert_eq!(answered.reply, CHECK_CONDITION);
    library.hold_unit(2);
    let read = [0xB8, 2, 0, 0, 0, 2, 0, 0, 0, 48, 0, 0];
    let answered = library.with_buffer(1, &read, &[], 0);
    assert_eq!(answered.reply, RESERVATION_CONFLICT);
}

#[test]
fn a_move_accepts_an_empty_buffer() {
    let block = move_block(0x1000, 0x0100);
    assert_eq!(Library::small().with_buffer(1, &block, &[], 0).reply, GOOD);
}

/// Neither event changes a byte.
fn expect_number_6(library: &Library, address: u32) {
    let mut after = library.clone();
    assert_eq!(after.import(address, 3), refused(6), "{address:x}");
    assert_eq!(after.export(address), refused(6), "{address:x}");
    assert_eq!(after, *library);
}

#[test]
fn number_6_for_an_address_that_is_no_import_export_element() {
    for address in [0, 1, 0x000F, 0x0011, 0x0100, 0x1000, 0x1_0010, u32::MAX] {
        expect_number_6(&Library::small(), address);
    }
}

#[test]
fn number_6_comes_before_7() {
    let mut library = Library::small();
    library.head[17] = 0xFF;
    expect_number_6(&library, 0x1000);
}

#[test]
fn number_7_tells_how_many_prevent_and_the_lowest() {
    for (mask, preventers, lowest) in [
        (0b0000_0001, 1, 1),
        (0b1000_0000, 1, 8),
        (0b0110_0000, 2, 6),
        (0b1010_1000, 3, 4),
        (0b1111_1111, 8, 1),
    ] {
        let mut library = Library::small();
        library.head[17] = mask;
        let before = library.clone();
        let expected = reference::Reply {
            number: 7,
            status: 0,
            preventers,
            lowest,
            count: 0,
        };
        assert_eq!(library.import(0x0010, 3), expected);
        assert_eq!(library.export(0x0010), expected);
        assert_eq!(library, before);
    }
}

#[test]
fn number_7_comes_before_8_and_9() {
    let mut library = Library::small();
    library.head[17] = 4;
    library.set_element(AT_0010, [0, 3, 0, 0, 0, 0, 1, 0]);
    assert_eq!(library.import(0x0010, 0).number, 7);
    library.set_element(AT_0010, EMPTY);
    assert_eq!(library.export(0x0010).number, 7);
}

#[test]
fn number_8_for_a_full_import_and_an_empty_export() {
    let mut library = Library::small();
    let before = library.clone();
    assert_eq!(library.export(0x0010), refused(8));
    assert_eq!(library, before);
    library.set_element(AT_0010, [0, 3, 0, 0, 0, 0, 1, 0]);
    let before = library.clone();
    assert_eq!(library.import(0x0010, 0), refused(8));
    assert_eq!(library, before);
}

#[test]
fn number_9_for_volume_0_above_v_or_present() {
    for volume in [0, 1, 2, 4, 65_539, u32::MAX] {
        let mut library = Library::small();
        assert_eq!(library.import(0x0010, volume), refused(9), "{volume}");
        assert_eq!(library, Library::small());
    }
    assert_eq!(Library::small().import(0x0010, 3), GOOD);
}
