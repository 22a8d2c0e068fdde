//! The order of steps 1 to 4, sense, attention and REQUEST SENSE.

use crate::fixture::*;

const REQUEST_SENSE: u8 = 0x03;

/// One block of each command that ends GOOD in the small library.
fn well_formed() -> Vec<Vec<u8>> {
    vec![
        vec![0x00, 0, 0, 0, 0, 0],
        vec![REQUEST_SENSE, 0, 0, 0, 18, 0],
        vec![0x16, 0, 0, 0, 0, 0],
        vec![0x17, 0, 0, 0, 0, 0],
        vec![0x1E, 0, 0, 0, 1, 0],
        move_block(0x1000, 0x0100).to_vec(),
        exchange_block(0x1000, 0x1002, 0x1000).to_vec(),
        vec![0xB8, 0, 0, 0, 0xFF, 0xFF, 0, 0, 1, 0, 0, 0],
    ]
}

/// For each byte after the first, the bits that have a use, bits 5 to 7 of byte 1 included.
fn used_bits(first: u8) -> &'static [u8] {
    match first {
        0x00 => &[0xE0, 0, 0, 0, 0],
        0x03 => &[0xE0, 0, 0, 0xFF, 0],
        0x16 => &[0xE1, 0xFF, 0xFF, 0xFF, 0],
        0x17 => &[0xE1, 0xFF, 0, 0, 0],
        0x1E => &[0xE0, 0, 0, 0x01, 0],
        0xA5 => &[0xE0, 0xFF, 0xFF, 0xFF, 0xFF, 0xFF, 0xFF, 0, 0, 0, 0],
        0xA6 => &[0xE0, 0xFF, 0xFF, 0xFF, 0xFF, 0xFF, 0xFF, 0xFF, 0xFF, 0, 0],
        // Bit 3 of byte 1 alone would be type 8.
        0xB8 => &[0xF7, 0xFF, 0xFF, 0xFF, 0xFF, 0, 0xFF, 0xFF, 0xFF, 0, 0],
        _ => unreachable!(),
    }
}

#[test]
fn every_bit_without_a_use_is_an_invalid_field() {
    for block in well_formed() {
        for (byte, used) in used_bits(block[0]).iter().enumerate() {
            for bit in (0..8).map(|bit| 1 << bit).filter(|bit| used & bit == 0) {
                let mut stray = block.clone();
                stray[byte + 1] |= bit;
                Library::small().expect_check(1, &stray, &[], [5, 0x24, 0x00]);
            }
        }
    }
}

#[test]
fn no_bit_with_a_use_is_an_invalid_field() {
    for block in well_formed() {
        for (byte, used) in used_bits(block[0]).iter().enumerate() {
            for bit in (0..8).map(|bit| 1 << bit).filter(|bit| used & bit != 0) {
                let mut changed = block.clone();
                changed[byte + 1] ^= bit;
                let mut library = Library::small();
                let reply = library.command(1, &changed).reply;
                let list_missing = changed[0] == 0x16 && [2, 3].contains(&byte);
                assert_eq!(reply.number, if list_missing { 4 } else { 0 });
                assert_ne!(library.host_record(1)[..2], [5, 0x24], "{changed:02x?}");
            }
        }
    }
}

#[test]
fn third_party_and_types_above_4_are_invalid_fields() {
    for third_party in [0x02, 0x04, 0x08, 0x10, 0x1E] {
        let list = descriptor(1, 0x1000);
        let reserve = [0x16, third_party | 1, 0, 0, 6, 0];
        Library::small().expect_check(1, &reserve, &list, [5, 0x24, 0x00]);
        let release = [0x17, third_party, 0, 0, 0, 0];
        Library::small().expect_check(1, &release, &[], [5, 0x24, 0x00]);
    }
    for kind in 0..=15 {
        let block = [0xB8, kind, 0, 0, 0, 1, 0, 0, 0, 8, 0, 0];
        match kind {
            0..=4 => assert_eq!(Library::small().command(1, &block).reply, good(8)),
            _ => Library::small().expect_check(1, &block, &[], [5, 0x24, 0x00]),
        }
    }
}

#[test]
fn step_1_comes_before_attention_and_reservation() {
    for first in [0x01, 0x12, 0x15, 0x18, 0x1F] {
        let mut library = Library::small();
        library.hold_unit(2);
        library.set_host_record(1, [6, 0x29, 0x00, 0x28, 0x01]);
        let block = [first, 0xFF, 0xFF, 0xFF, 0xFF, 0xFF];
        library.expect_check(1, &block, &[], [5, 0x20, 0x00]);
        assert_eq!(library.host_record(1), [5, 0x20, 0x00, 0x28, 0x01]);
    }
}

#[test]
fn unknown_first_bytes_of_every_group_are_told_as_such() {
    for (first, length) in [(0x37, 10), (0x5E, 10), (0x88, 16), (0xB4, 12)] {
        let mut block = vec![0; length];
        block[0] = first;
        Library::small().expect_check(1, &block, &[], [5, 0x20, 0x00]);
    }
    for first in [0x60, 0x7F, 0xC0, 0xE7] {
        for length in [1, 2, 13, 300] {
            let block = vec![first; length];
            Library::small().expect_check(1, &block, &[], [5, 0x20, 0x00]);
        }
    }
}

#[test]
fn attention_is_told_once_by_every_command_but_request_sense() {
    for block in well_formed()
        .into_iter()
        .filter(|block| block[0] != REQUEST_SENSE)
    {
        for [asc, ascq] in [[0x28, 0x01], [0x29, 0x00]] {
            let mut library = Library::small();
            library.hold(AT_0010, 1, 3);
            library.set_host_record(1, [5, 0x3B, 0x0D, asc, ascq]);
            let mut expected = library.clone();
            expected.set_host_record(1, [6, asc, ascq, 0, 0]);
            let answered = library.command(1, &block);
            assert_eq!(answered.reply, CHECK_CONDITION, "{block:02x?}");
            assert_eq!(answered.returned(), []);
            assert_eq!(library, expected, "{block:02x?}");
            assert_eq!(library.command(1, &block).reply.status, 0x00);
        }
    }
}

#[test]
fn attention_comes_before_the_unit_holder_and_before_a_stray_bit() {
    let mut library = Library::small();
    library.hold_unit(2);
    library.set_host_record(1, [0, 0, 0, 0x29, 0x00]);
    let stray = [0x00, 0, 0, 0, 0, 1];
    assert_eq!(library.command(1, &stray).reply, CHECK_CONDITION);
    assert_eq!(library.host_record(1), [6, 0x29, 0x00, 0, 0]);
    assert_eq!(library.command(1, &stray).reply, RESERVATION_CONFLICT);
    assert_eq!(library.host_record(1), [0; 5]);
}

#[test]
fn a_unit_of_another_host_is_a_conflict_but_for_release_and_request_sense() {
    for block in well_formed() {
        let mut library = Library::small();
        library.hold_unit(2);
        if block[0] == 0x17 {
            assert_eq!(library.command(1, &block).reply, GOOD);
        } else if block[0] == REQUEST_SENSE {
            assert_eq!(library.command(1, &block).reply, good(18));
        } else {
            library.expect_conflict(1, &block, &[]);
        }
        assert_eq!(library.unit_holder(), 2);
    }
}

#[test]
fn allow_is_no_exception_under_a_unit_of_another_host() {
    let mut library = Library::small();
    library.head[17] = 1;
    library.hold_unit(2);
    library.expect_conflict(1, &[0x1E, 0, 0, 0, 0, 0], &[]);
    assert_eq!(library.prevent_mask(), 1);
}

#[test]
fn step_3_comes_before_4() {
    let mut library = Library::small();
    library.hold_unit(2);
    let malformed = [0xB8, 0x0F, 0, 0, 0, 0, 0xFF, 0, 0, 0, 0, 0xFF];
    library.expect_conflict(1, &malformed, &[]);
}

#[test]
fn the_holder_of_the_unit_is_not_hindered() {
    for block in well_formed() {
        let mut library = Library::small();
        library.hold_unit(1);
        assert_eq!(
            library.command(1, &block).reply.status,
            0x00,
            "{block:02x?}"
        );
    }
}

#[test]
fn good_and_conflict_clear_the_hosts_own_sense_only() {
    for block in well_formed()
        .into_iter()
        .filter(|block| block[0] != REQUEST_SENSE)
    {
        let mut library = Library::small();
        library.set_host_record(1, [5, 0x24, 0x00, 0, 0]);
        library.set_host_record(2, [5, 0x21, 0x01, 0x28, 0x01]);
        assert_eq!(library.command(1, &block).reply.status, 0x00);
        assert_eq!(library.host_record(1), [0; 5]);
        assert_eq!(library.host_record(2), [5, 0x21, 0x01, 0x28, 0x01]);
    }
    let mut library = Library::small();
    library.set_host_record(1, [5, 0x24, 0x00, 0, 0]);
    library.hold_unit(3);
    library.expect_conflict(1, &[0; 6], &[]);
    assert_eq!(library.host_record(1), [0; 5]);
}

/// REQUEST SENSE with this allocation; what it returned and the host's record afterwards.
fn request(library: &mut Library, allocation: u8) -> (Vec<u8>, [u8; 5]) {
    let answered = library.command(1, &[REQUEST_SENSE, 0, 0, 0, allocation, 0]);
    assert_eq!((answered.reply.number, answered.reply.status), (0, 0));
    (answered.returned().to_vec(), library.host_record(1))
}

#[test]
fn sense_is_told_first_then_attention_then_nothing() {
    let mut library = Library::small();
    library.set_host_record(1, [5, 0x3B, 0x0E, 0x29, 0x00]);
    let sense = [
        0x70, 0, 5, 0, 0, 0, 0, 0x0A, 0, 0, 0, 0, 0x3B, 0x0E, 0, 0, 0, 0,
    ];
    let attention = [
        0x70, 0, 6, 0, 0, 0, 0, 0x0A, 0, 0, 0, 0, 0x29, 0x00, 0, 0, 0, 0,
    ];
    let nothing = [0x70, 0, 0, 0, 0, 0, 0, 0x0A, 0, 0, 0, 0, 0, 0, 0, 0, 0, 0];
    let waiting = [0, 0, 0, 0x29, 0x00];
    assert_eq!(request(&mut library, 18), (sense.to_vec(), waiting));
    assert_eq!(request(&mut library, 18), (attention.to_vec(), [0; 5]));
    assert_eq!(request(&mut library, 18), (nothing.to_vec(), [0; 5]));
}

#[test]
fn sense_is_returned_up_to_the_allocation_and_cleared_whatever_it_is() {
    let whole = [
        0x70, 0, 5, 0, 0, 0, 0, 0x0A, 0, 0, 0, 0, 0x24, 0x00, 0, 0, 0, 0,
    ];
    for allocation in 0..=255 {
        let mut library = Library::small();
        library.set_host_record(1, [5, 0x24, 0x00, 0, 0]);
        let told = &whole[..usize::from(allocation.min(18))];
        assert_eq!(request(&mut library, allocation), (told.to_vec(), [0; 5]));
    }
}

#[test]
fn a_key_without_codes_is_sense_too() {
    let mut library = Library::small();
    library.set_host_record(1, [1, 0, 0, 0x28, 0x01]);
    assert_eq!(
        request(&mut library, 3),
        (vec![0x70, 0, 1], [0, 0, 0, 0x28, 0x01])
    );
}

#[test]
fn a_malformed_request_sense_stores_over_what_was_stored() {
    let mut library = Library::small();
    library.set_host_record(1, [5, 0x3B, 0x0E, 0x28, 0x01]);
    library.hold_unit(2);
    let malformed = [REQUEST_SENSE, 1, 0, 0, 18, 0];
    library.expect_check(1, &malformed, &[], [5, 0x24, 0x00]);
    assert_eq!(library.host_record(1), [5, 0x24, 0x00, 0x28, 0x01]);
}
