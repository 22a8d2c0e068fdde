//! Document 02, One: MODE SENSE, its pages, its cuts and what it refuses.

use reference::Entry;

use crate::fixture::*;
use crate::vectors::gx80;

const ADDRESSES: u8 = 0x1D;
const GEOMETRY: u8 = 0x1E;
const CAPABILITIES: u8 = 0x1F;
const ALL_PAGES: u8 = 0x3F;
const INVALID_FIELD: [u8; 3] = [5, 0x24, 0x00];

fn mode_block(page: u8, allocation: u8) -> [u8; 6] {
    [0x1A, 0, page, 0, allocation, 0]
}

/// All pages of the small library.
#[rustfmt::skip]
const SMALL_WHOLE: [u8; 48] = [
    0x2F, 0x00, 0x00, 0x00,
    0x1D, 0x12, 0x00, 0x01, 0x00, 0x01, 0x10, 0x00, 0x00, 0x04, 0x00, 0x10, 0x00, 0x01, 0x01, 0x00, 0x00, 0x01, 0x00, 0x00,
    0x1E, 0x02, 0x00, 0x00,
    0x1F, 0x12, 0x0E, 0x00, 0x00, 0x0E, 0x0E, 0x0E, 0x00, 0x00, 0x00, 0x00, 0x00, 0x0E, 0x0E, 0x0E, 0x00, 0x00, 0x00, 0x00,
];

/// Transports from address 1 on, so many, and one shelf behind them; all empty.
fn with_transports(transports: u8) -> Library {
    let shelf = 1 + transports;
    let ranges = [[0, 1, 0, transports], [0, shelf, 0, 1], [0; 4], [0; 4]];
    let mut library = Library::small();
    library.head[..16].copy_from_slice(&ranges.concat());
    library.elements = vec![0; 8 * (usize::from(transports) + 1)];
    library.fit_cartridges();
    library.show_empty_shelves(1);
    library
}

/// The geometry page of so many transports behind its header: members 0, 1, 2 and so on, none of which rotates.
fn geometry(transports: u8) -> Vec<u8> {
    let length = 2 * transports;
    let mut bytes = vec![5 + length, 0, 0, 0, 0x1E, length];
    for member in 0..transports {
        bytes.extend([0x00, member]);
    }
    bytes
}

/// The page at every allocation up to one more than it needs (where that can be said), and at the largest: GOOD, with
/// the first bytes of this whole; a buffer of one byte less is number 5. Nothing but the calling host's sense changes.
fn expect_cuts(library: &Library, page: u8, whole: &[u8]) {
    for allocation in (0..=whole.len() + 1).chain([255]) {
        let Ok(said) = u8::try_from(allocation) else {
            continue;
        };
        let count = allocation.min(whole.len());
        let mut after = library.clone();
        after.set_host_record(1, [5, 0x3B, 0x0D, 0, 0]);
        let before = after.clone();
        if let Some(short) = count.checked_sub(1) {
            let refusal = after.with_buffer(1, &mode_block(page, said), &[], short);
            assert_eq!(refusal.reply, refused(5), "{page:02x}, {allocation}");
            assert_eq!(refusal.answer, vec![UNTOUCHED; short], "{page:02x}");
            assert_eq!(after, before, "{page:02x}, {allocation}");
        }
        let exact = after.with_buffer(1, &mode_block(page, said), &[], count);
        assert_eq!(exact.reply, good(count as u32), "{page:02x}, {allocation}");
        assert_eq!(after, *library, "{page:02x}, {allocation}");
        let answered = after.with_buffer(1, &mode_block(page, said), &[], 300);
        assert_eq!(answered.reply, exact.reply, "{page:02x}, {allocation}");
        assert_eq!(answered.returned(), &whole[..count], "{page:02x}");
        assert_eq!(exact.answer, &whole[..count], "{page:02x}");
    }
}

#[test]
fn all_pages_of_the_small_library() {
    let mut library = Library::small();
    let answered = library.command(1, &mode_block(ALL_PAGES, 255));
    assert_eq!(answered.reply, good(48));
    assert_eq!(answered.returned(), SMALL_WHOLE);
    let answered = library.command(1, &mode_block(ALL_PAGES, 5));
    assert_eq!(answered.reply, good(5));
    assert_eq!(answered.returned(), [0x2F, 0x00, 0x00, 0x00, 0x1D]);
    assert_eq!(library, Library::small());
}

#[test]
fn each_page_of_the_small_library_at_each_cut() {
    let header = |bytes: u8| vec![bytes, 0, 0, 0];
    let small = Library::small();
    expect_cuts(&small, ALL_PAGES, &SMALL_WHOLE);
    let addresses = [header(0x17), SMALL_WHOLE[4..24].to_vec()].concat();
    expect_cuts(&small, ADDRESSES, &addresses);
    expect_cuts(&small, GEOMETRY, &[0x07, 0, 0, 0, 0x1E, 0x02, 0x00, 0x00]);
    let capabilities = [header(0x17), SMALL_WHOLE[28..].to_vec()].concat();
    expect_cuts(&small, CAPABILITIES, &capabilities);
}

#[test]
fn all_pages_of_a_library_with_two_transports() {
    #[rustfmt::skip]
    let whole = [
        0x31, 0x00, 0x00, 0x00,
        0x1D, 0x12, 0x1F, 0x41, 0x00, 0x02, 0x00, 0x01, 0x00, 0x50, 0x0F, 0xA1, 0x00, 0x01, 0x17, 0x71, 0x00, 0x02, 0x00, 0x00,
        0x1E, 0x04, 0x00, 0x00, 0x00, 0x01,
        0x1F, 0x12, 0x0E, 0x00, 0x00, 0x0E, 0x0E, 0x0E, 0x00, 0x00, 0x00, 0x00, 0x00, 0x0E, 0x0E, 0x0E, 0x00, 0x00, 0x00, 0x00,
    ];
    expect_cuts(&gx80(), ALL_PAGES, &whole);
}

/// A type without elements has first address 0 and number 0; what the types can do does not hang on how many there are.
#[test]
fn types_without_elements() {
    let library = with_transports(3);
    let mut addresses = vec![0x17, 0, 0, 0, 0x1D, 0x12, 0, 1, 0, 3, 0, 4, 0, 1];
    addresses.extend([0; 10]);
    expect_cuts(&library, ADDRESSES, &addresses);
    let answered = library.clone().command(1, &mode_block(CAPABILITIES, 255));
    assert_eq!(answered.reply, good(24));
    assert_eq!(answered.returned()[4..], SMALL_WHOLE[28..]);
}

#[test]
fn the_longest_geometry_has_125_transports() {
    for transports in [124, 125] {
        let whole = geometry(transports);
        expect_cuts(&with_transports(transports), GEOMETRY, &whole);
    }
    let longest = with_transports(125).command(1, &mode_block(GEOMETRY, 255));
    assert_eq!(longest.reply, good(255));
    let returned = longest.returned();
    assert_eq!(returned[..8], [0xFF, 0, 0, 0, 0x1E, 0xFA, 0x00, 0x00]);
    assert_eq!(returned[252..], [0x00, 0x7B, 0x00]);
    for transports in [126, 127] {
        for allocation in [0, 1, 4, 255] {
            let block = mode_block(GEOMETRY, allocation);
            with_transports(transports).expect_check(1, &block, &[], INVALID_FIELD);
        }
    }
}

#[test]
fn all_pages_are_refused_from_106_transports_on() {
    for transports in [106, 125, 126, 127] {
        for allocation in 0..=255 {
            let block = mode_block(ALL_PAGES, allocation);
            with_transports(transports).expect_check(1, &block, &[], INVALID_FIELD);
        }
    }
    let alone = with_transports(106).command(1, &mode_block(GEOMETRY, 255));
    assert_eq!(alone.reply, good(218));
    assert_eq!(alone.returned(), geometry(106));
    // The other two pages do not hang on how many transports there are.
    for page in [ADDRESSES, CAPABILITIES] {
        let answered = with_transports(127).command(1, &mode_block(page, 255));
        assert_eq!(answered.reply, good(24));
    }
}

#[test]
fn all_pages_are_256_bytes_with_105_transports() {
    let mut whole = vec![0xFF, 0, 0, 0, 0x1D, 0x12];
    whole.extend([0x00, 0x01, 0x00, 0x69, 0x00, 0x6A, 0x00, 0x01]);
    whole.extend([0; 10]);
    whole.extend(&geometry(105)[4..]);
    whole.extend(&SMALL_WHOLE[28..]);
    assert_eq!(whole.len(), 256);
    expect_cuts(&with_transports(105), ALL_PAGES, &whole);
}

/// "PS is 0, DBD is ignored", and so are bits 5 to 7 of byte 1. No other bit of bytes 1, 3 and 5 has a use.
#[test]
fn bits_of_bytes_1_3_and_5() {
    for bit in 0..8 {
        let mut block = mode_block(ALL_PAGES, 255);
        block[1] = 1 << bit;
        match bit {
            3 | 5 | 6 | 7 => {
                let answered = Library::small().command(1, &block);
                assert_eq!(answered.returned(), SMALL_WHOLE, "{block:02x?}");
            }
            _ => Library::small().expect_check(1, &block, &[], INVALID_FIELD),
        }
        for byte in [3, 5] {
            let mut block = mode_block(ALL_PAGES, 255);
            block[byte] = 1 << bit;
            Library::small().expect_check(1, &block, &[], INVALID_FIELD);
        }
    }
}

#[test]
fn page_controls_other_than_current_values_are_refused() {
    for control in [0x40, 0x80, 0xC0] {
        for page in [ADDRESSES, GEOMETRY, CAPABILITIES, ALL_PAGES, 0x00] {
            for allocation in [0, 255] {
                let block = mode_block(control | page, allocation);
                Library::small().expect_check(1, &block, &[], INVALID_FIELD);
            }
        }
    }
}

#[test]
fn pages_that_there_are_not_are_refused() {
    for page in 0x00..=0x3F {
        if [ADDRESSES, GEOMETRY, CAPABILITIES, ALL_PAGES].contains(&page) {
            continue;
        }
        for allocation in [0, 255] {
            let block = mode_block(page, allocation);
            Library::small().expect_check(1, &block, &[], INVALID_FIELD);
        }
    }
}

/// The blocks that step 4 refuses, each for another reason, and one that it does not.
fn blocks_with_and_without_faults() -> [[u8; 6]; 7] {
    [
        mode_block(ALL_PAGES, 255),
        mode_block(0x1C, 255),
        mode_block(0x40 | ALL_PAGES, 255),
        [0x1A, 0x10, ALL_PAGES, 0, 255, 0],
        [0x1A, 0, ALL_PAGES, 1, 255, 0],
        [0x1A, 0, ALL_PAGES, 0, 255, 1],
        mode_block(0, 0),
    ]
}

#[test]
fn a_unit_held_by_another_host_comes_before_any_fault_of_the_block() {
    for block in blocks_with_and_without_faults() {
        for mut library in [Library::small(), with_transports(106)] {
            library.hold_unit(2);
            library.set_host_record(1, [5, 0x24, 0x00, 0, 0]);
            library.expect_conflict(1, &block, &[]);
        }
    }
    let mut library = Library::small();
    library.hold_unit(1);
    let answered = library.command(1, &mode_block(ALL_PAGES, 255));
    assert_eq!(answered.returned(), SMALL_WHOLE);
}

#[test]
fn attention_comes_before_the_unit_and_is_told_once() {
    for block in blocks_with_and_without_faults() {
        let mut library = Library::small();
        library.hold_unit(2);
        library.set_host_record(1, [0, 0, 0, 0x29, 0x00]);
        let answered = library.command(1, &block);
        assert_eq!(answered.reply, CHECK_CONDITION, "{block:02x?}");
        assert_eq!(library.host_record(1), [6, 0x29, 0x00, 0, 0]);
        library.expect_conflict(1, &block, &[]);
    }
}

#[test]
fn elements_held_by_another_host_and_prevention_do_not_matter() {
    let mut library = Library::small();
    for place in AT_0001..=AT_1003 {
        library.hold(place, 2, 0);
    }
    library.head[17] = 0xFF;
    let before = library.clone();
    let answered = library.command(1, &mode_block(ALL_PAGES, 255));
    assert_eq!(answered.returned(), SMALL_WHOLE);
    assert_eq!(library, before);
}

#[test]
fn good_clears_the_host_s_own_sense_and_no_other() {
    let mut library = Library::small();
    library.set_host_record(1, [5, 0x3B, 0x0D, 0, 0]);
    library.set_host_record(2, [5, 0x3B, 0x0E, 0x28, 0x01]);
    let request = (1, &mode_block(ALL_PAGES, 0)[..], &[][..]);
    let answered = library.entered(Entry::ModeSense, request, 0);
    assert_eq!(answered.reply, GOOD);
    assert_eq!(library.host_record(1), [0; 5]);
    assert_eq!(library.host_record(2), [5, 0x3B, 0x0E, 0x28, 0x01]);
}

#[test]
fn number_4_for_any_parameters_comes_before_attention_and_faults() {
    for block in blocks_with_and_without_faults() {
        let mut library = Library::small();
        library.set_host_record(1, [0, 0, 0, 0x28, 0x01]);
        library.hold_unit(2);
        library.expect_refused(1, &block, &[0], 4);
    }
}

#[test]
fn number_3_for_a_block_that_is_not_of_6_bytes() {
    for length in [1, 5, 7, 10, 12] {
        let mut block = mode_block(ALL_PAGES, 255).to_vec();
        block.resize(length, 0);
        Library::small().expect_refused(1, &block, &[], 3);
    }
}

#[test]
fn number_5_only_where_the_status_would_be_good() {
    let mut library = with_transports(106);
    let refusal = library.with_buffer(1, &mode_block(ALL_PAGES, 255), &[], 0);
    assert_eq!(refusal.reply, CHECK_CONDITION);
    library.hold_unit(2);
    let conflict = library.with_buffer(1, &mode_block(GEOMETRY, 255), &[], 0);
    assert_eq!(conflict.reply, RESERVATION_CONFLICT);
    // It compares with the bytes returned, and not with the allocation.
    let roomy = Library::small().with_buffer(1, &mode_block(ALL_PAGES, 255), &[], 48);
    assert_eq!(roomy.reply, good(48));
}
