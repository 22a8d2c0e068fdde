//! Request Eight: find by label.

use reference::{check, Clause, Entry};

use crate::fixture::*;

const PORT: u16 = 0x0010;
const DRIVE: u16 = 0x0100;

/// SEND VOLUME TAG for all types from address 0 on, with a list of 40 bytes.
fn send_block(action: u8) -> [u8; 12] {
    [0xB6, 0, 0, 0, 0, action, 0, 0, 0, 40, 0, 0]
}

/// A template filled with blanks, and a range of sequence numbers.
fn list(template: &[u8], least: u16, greatest: u16) -> Vec<u8> {
    let mut list = template.to_vec();
    list.resize(32, 0x20);
    list.extend([0, 0]);
    list.extend(least.to_be_bytes());
    list.extend([0, 0]);
    list.extend(greatest.to_be_bytes());
    list
}

/// REQUEST VOLUME ELEMENT ADDRESS.
fn request_block(byte_1: u8, start: u16, most: u16, allocation: u16) -> [u8; 12] {
    let [s, t] = start.to_be_bytes();
    let [m, n] = most.to_be_bytes();
    let [a, b] = allocation.to_be_bytes();
    [0xB5, byte_1, s, t, m, n, 0, a, b, 0, 0, 0]
}

fn all(allocation: u16) -> [u8; 12] {
    request_block(0, 0, 0xFFFF, allocation)
}

fn send(library: &mut Library, action: u8, template: &[u8]) {
    let list = list(template, 0, 0xFFFF);
    let answered = library.with_list(1, &send_block(action), &list);
    assert_eq!(answered.reply, GOOD);
}

/// The addresses that a request for all tells, with room for all.
fn found(library: &mut Library) -> Vec<u16> {
    let answered = library.with_buffer(1, &all(600), &[], 600);
    assert_eq!((answered.reply.number, answered.reply.status), (0, 0));
    addresses(answered.returned())
}

/// The addresses of the descriptors without tags in an answer.
fn addresses(answer: &[u8]) -> Vec<u16> {
    let mut found = Vec::new();
    let mut page = 8;
    while page < answer.len() {
        let bytes = usize::from(answer[page + 6]) << 8 | usize::from(answer[page + 7]);
        let end = (page + 8 + bytes).min(answer.len());
        let descriptors = answer[page + 8..end].chunks(16);
        found.extend(descriptors.map(|one| u16::from_be_bytes([one[0], one[1]])));
        page = end;
    }
    found
}

fn next(library: &Library) -> [u8; 3] {
    library.search[38..].try_into().unwrap()
}

/// The small library with a third volume in its drive: ABC123L1 at 1000h, ABC124L1 at 1002h, ABC125L1 at 0100h.
fn three() -> Library {
    let mut library = Library::small();
    library.set_element(AT_0100, [0, 3, 0, 0, 0, 0, 0, 0]);
    library
}

#[test]
fn a_search_is_kept_as_it_was_sent() {
    let mut library = Library::small();
    let mut expected = Library::small();
    let list = list(b"ABC*", 0x0102, 0x0304);
    let block = [0xB6, 0x02, 0x10, 0x01, 0, 0x01, 0, 0, 0, 40, 0, 0];
    let answered = library.with_list(1, &block, &list);
    assert_eq!(answered.reply, GOOD);
    expected.search = [
        &b"ABC*"[..],
        &[0x20; 28],
        &[2, 1, 0x01, 0x02, 0x03, 0x04, 0x00, 0x10, 0x01],
    ]
    .concat();
    assert_eq!(library, expected);
}

#[test]
fn under_action_5_the_range_is_kept_too() {
    let mut library = Library::small();
    let list = list(b"*", 9, 7);
    library.with_list(1, &send_block(5), &list);
    assert_eq!(library.search[32..], [0, 5, 0, 9, 0, 7, 0, 0, 0]);
}

#[test]
fn the_whole_answer() {
    let mut library = three();
    send(&mut library, 1, b"ABC12?L1");
    let answered = library.with_buffer(1, &all(0xFFFF), &[], 72);
    assert_eq!(answered.reply, good(72));
    let header = [0x01, 0x00, 0, 3, 1, 0, 0, 0x40];
    let drive = [&[4, 0, 0, 16, 0, 0, 0, 16, 0x01, 0x00, 0x09][..], &[0; 13]].concat();
    let shelves = [
        &[2, 0, 0, 16, 0, 0, 0, 32, 0x10, 0x00, 0x09][..],
        &[0; 13],
        &[0x10, 0x02, 0x09],
        &[0; 13],
    ]
    .concat();
    assert_eq!(
        answered.returned(),
        [&header[..], &drive, &shelves].concat()
    );
    assert_eq!(next(&library), [0, 0x10, 0x03]);
}

#[test]
fn with_tags_the_label_is_shown() {
    let mut library = three();
    send(&mut library, 5, b"ABC124L1");
    let block = request_block(0x10, 0, 0xFFFF, 68);
    let answered = library.with_buffer(1, &block, &[], 68);
    assert_eq!(answered.reply, good(68));
    let expected = [
        &[0x10, 0x02, 0, 1, 5, 0, 0, 60, 2, 0x80, 0, 52, 0, 0, 0, 52][..],
        &[0x10, 0x02, 0x09],
        &[0; 9],
        &label(b"ABC124L1"),
        &[0; 4],
    ]
    .concat();
    assert_eq!(answered.returned(), expected);
}

#[test]
fn without_a_search_there_is_a_header_of_zeros() {
    let mut library = Library::small();
    let answered = library.with_buffer(1, &all(600), &[], 64);
    assert_eq!(answered.reply, good(8));
    assert_eq!(answered.returned(), [0; 8]);
    assert_eq!(library, Library::small());
}

#[test]
fn a_request_is_read_elements_by_its_own_action_and_reads_stay_as_they_were() {
    let mut library = three();
    send(&mut library, 5, b"*");
    let block = [0xB8, 0, 0, 0, 0xFF, 0xFF, 0, 0, 0, 8, 0, 0];
    let listed = library.command(1, &block);
    assert_eq!(listed.returned(), [0x00, 0x01, 0, 7, 0, 0, 0, 0x90]);
    let found = library.command(1, &all(8));
    assert_eq!(found.returned(), [0x01, 0x00, 0, 3, 5, 0, 0, 0x40]);
}

#[test]
fn wild_cards() {
    let found_by = |label: &[u8], template: &[u8]| {
        let mut library = Library::small();
        library.tags[..32].fill(0x20);
        library.tags[..label.len()].copy_from_slice(label);
        send(&mut library, 5, template);
        found(&mut library).contains(&0x1000)
    };
    let matches: [(&[u8], &[u8]); 13] = [
        (b"FILM0001", b"FILM0001"),
        (b"FILM0001", b"FILM*"),
        (b"FILM", b"FILM*"),
        (b"FILM0001", b"*"),
        (b"", b"*"),
        (b"FILM0001", b"????0001"),
        (b"FILM", b"FILM????????????????????????????"),
        (b"FILM0001", b"F?L?*"),
        (b"FILM0001", b"FILM*0002"),
        (b"FILM?", b"FILM?"),
        (b"FILM*", b"FILM*"),
        (b"\0\x01\xFF", b"\0\x01\xFF"),
        (b"\0\x01\xFF", b"??\xFF"),
    ];
    for (label, template) in matches {
        assert!(found_by(label, template), "{label:?} {template:?}");
    }
    let others: [(&[u8], &[u8]); 8] = [
        (b"FILM0001", b"FILM"),
        (b"FILM0001", b"FILM000"),
        (b"FILM", b"FILM0001"),
        (b"film0001", b"FILM*"),
        (b"XFILM", b"FILM*"),
        (b"FILM0001", b""),
        (b"FILM0001", b"?FILM*"),
        (b"FILM\0", b"FILM"),
    ];
    for (label, template) in others {
        assert!(!found_by(label, template), "{label:?} {template:?}");
    }
}

#[test]
fn all_32_characters_are_compared_and_no_more() {
    let mut library = Library::small();
    library.tags[..36].copy_from_slice(b"0123456789ABCDEFGHIJKLMNOPQRSTUVxyz!");
    send(&mut library, 5, b"0123456789ABCDEFGHIJKLMNOPQRSTUV");
    assert_eq!(found(&mut library), [0x1000]);
    send(&mut library, 5, b"0123456789ABCDEFGHIJKLMNOPQRSTU ");
    assert_eq!(found(&mut library), []);
    send(&mut library, 5, b"0123456789ABCDEFGHIJKLMNOPQRSTU*");
    assert_eq!(found(&mut library), [0x1000]);
}

/// "only full elements match": the blank label goes with the template, and nobody shows it.
#[test]
fn empty_elements_do_not_match() {
    let mut library = Library::small();
    let blank = library.blank[..32].to_vec();
    send(&mut library, 5, &blank);
    assert_eq!(found(&mut library), []);
    send(&mut library, 5, b"*");
    assert_eq!(found(&mut library), [0x1000, 0x1002]);
}

#[test]
fn sequence_numbers() {
    let found_in = |action: u8, least: u16, greatest: u16, number: u16| {
        let mut library = Library::small();
        library.tags[34..36].copy_from_slice(&number.to_be_bytes());
        library.tags[32..34].copy_from_slice(&[0x7F, 0x7F]);
        let list = list(b"ABC123L1", least, greatest);
        let answered = library.with_list(1, &send_block(action), &list);
        assert_eq!(answered.reply, GOOD);
        !found(&mut library).is_empty()
    };
    for (least, greatest, number, within) in [
        (0, 0, 0, true),
        (0, 0, 1, false),
        (5, 7, 4, false),
        (5, 7, 5, true),
        (5, 7, 6, true),
        (5, 7, 7, true),
        (5, 7, 8, false),
        (0x0100, 0x01FF, 0x00FF, false),
        (0x0100, 0x01FF, 0x0180, true),
        (0x0100, 0x01FF, 0x0200, false),
        (0xFFFF, 0xFFFF, 0xFFFF, true),
        (7, 5, 6, false),
        (7, 5, 7, false),
        (7, 5, 5, false),
    ] {
        assert_eq!(found_in(1, least, greatest, number), within, "{number}");
        assert!(found_in(5, least, greatest, number), "{number}");
    }
}

#[test]
fn types_of_search_and_request() {
    let mut library = three();
    library.set_element(AT_0010, [0, 2, 0, 0, 0, 0, 1, 0]);
    library.set_element(AT_1002, EMPTY);
    let of_type: [&[u16]; 5] = [
        &[0x0010, 0x0100, 0x1000],
        &[],
        &[0x1000],
        &[0x0010],
        &[0x0100],
    ];
    for (searched, requested) in (0..5).flat_map(|one| (0..5).map(move |other| (one, other))) {
        let list = list(b"*", 0, 0xFFFF);
        let block = [0xB6, searched, 0, 0, 0, 1, 0, 0, 0, 40, 0, 0];
        library.with_list(1, &block, &list);
        let block = request_block(requested, 0, 0xFFFF, 600);
        let answered = library.with_buffer(1, &block, &[], 600);
        let by_search = of_type[usize::from(searched)];
        let both = of_type[usize::from(requested)].iter();
        let both: Vec<u16> = both
            .copied()
            .filter(|one| by_search.contains(one))
            .collect();
        assert_eq!(
            addresses(answered.returned()),
            both,
            "{searched} {requested}"
        );
    }
}

#[test]
fn starts_of_search_and_request() {
    for (start, of_request, expected) in [
        (0, 0, &[DRIVE, 0x1000, 0x1002][..]),
        (0x0100, 0, &[DRIVE, 0x1000, 0x1002]),
        (0x0101, 0, &[0x1000, 0x1002]),
        (0, 0x1001, &[0x1002]),
        (0x1002, 0x0100, &[0x1002]),
        (0x0100, 0x1003, &[]),
        (0xFFFF, 0, &[]),
    ] {
        let mut library = three();
        let [high, low] = u16::to_be_bytes(start);
        let block = [0xB6, 0, high, low, 0, 1, 0, 0, 0, 40, 0, 0];
        library.with_list(1, &block, &list(b"*", 0, 0xFFFF));
        let block = request_block(0, of_request, 0xFFFF, 600);
        let answered = library.with_buffer(1, &block, &[], 600);
        assert_eq!(
            addresses(answered.returned()),
            expected,
            "{start} {of_request}"
        );
    }
}

/// "no address is told twice in one search"
#[test]
fn what_was_told_is_not_told_again() {
    let mut library = three();
    send(&mut library, 1, b"*");
    assert_eq!(found(&mut library), [DRIVE, 0x1000, 0x1002]);
    let told = library.clone();
    let answered = library.with_buffer(1, &all(600), &[], 64);
    assert_eq!(answered.returned(), [0, 0, 0, 0, 1, 0, 0, 0]);
    assert_eq!(library, told);
    send(&mut library, 1, b"*");
    assert_eq!(found(&mut library), [DRIVE, 0x1000, 0x1002]);
}

/// "only descriptors returned whole count as told": the count is of all that match, and the next request goes on behind those told.
#[test]
fn an_answer_that_is_cut() {
    for (allocation, count, behind) in [
        (0, 0, [0, 0, 0]),
        (7, 7, [0, 0, 0]),
        (8, 8, [0, 0, 0]),
        (31, 8, [0, 0, 0]),
        (32, 32, [0, 0x01, 0x01]),
        (55, 32, [0, 0x01, 0x01]),
        (56, 56, [0, 0x10, 0x01]),
        (71, 56, [0, 0x10, 0x01]),
        (72, 72, [0, 0x10, 0x03]),
        (73, 72, [0, 0x10, 0x03]),
    ] {
        let mut library = three();
        send(&mut library, 1, b"*");
        let answered = library.with_buffer(1, &all(allocation), &[], 80);
        assert_eq!(answered.reply, good(count), "{allocation}");
        let header = [0x01, 0x00, 0, 3, 1, 0, 0, 0x40];
        let shown = usize::from(allocation.min(8));
        assert_eq!(answered.returned()[..shown], header[..shown]);
        assert_eq!(next(&library), behind, "{allocation}");
    }
}

#[test]
fn the_number_limits_what_is_counted_too() {
    let mut library = three();
    send(&mut library, 1, b"*");
    let block = request_block(0, 0, 1, 600);
    let answered = library.with_buffer(1, &block, &[], 64);
    assert_eq!(answered.returned()[..8], [0x01, 0x00, 0, 1, 1, 0, 0, 24]);
    let answered = library.with_buffer(1, &request_block(0, 0, 0, 600), &[], 64);
    assert_eq!(answered.returned(), [0, 0, 0, 0, 1, 0, 0, 0]);
    assert_eq!(found(&mut library), [0x1000, 0x1002]);
}

/// Matches that a request's type or start passes over lie below the next address, and are lost for this search.
#[test]
fn only_higher_addresses_are_told_later() {
    let mut library = three();
    send(&mut library, 1, b"*");
    let answered = library.with_buffer(1, &request_block(2, 0, 1, 600), &[], 64);
    assert_eq!(addresses(answered.returned()), [0x1000]);
    assert_eq!(found(&mut library), [0x1002]);
}

#[test]
fn number_5_tells_nothing() {
    let mut library = three();
    send(&mut library, 1, b"*");
    let before = library.clone();
    let answered = library.with_buffer(1, &all(600), &[], 71);
    assert_eq!(answered.reply, refused(5));
    assert_eq!(library, before);
    assert_eq!(found(&mut library), [DRIVE, 0x1000, 0x1002]);
}

/// "Matches are judged when reported"
#[test]
fn a_reel_that_is_carried_is_found_where_it_stands() {
    let mut library = Library::small();
    send(&mut library, 1, b"ABC12*");
    let moved = library.command(1, &move_block(0x1002, 0x0100));
    assert_eq!(moved.reply, GOOD);
    assert_eq!(found(&mut library), [DRIVE, 0x1000]);
    let back = library.command(1, &move_block(0x0100, 0x1003));
    assert_eq!(back.reply, GOOD);
    // It stands higher now, and is told once more as another address.
    assert_eq!(found(&mut library), [0x1003]);
    let lower = library.command(1, &move_block(0x1003, 0x1001));
    assert_eq!(lower.reply, GOOD);
    assert_eq!(found(&mut library), []);
}

#[test]
fn import_export_and_moves_keep_the_search_and_reset_ends_it() {
    let mut library = Library::small();
    send(&mut library, 1, b"ABC12*");
    let kept = library.search.clone();
    library.import(PORT.into(), 3);
    library.command(1, &[0; 6]);
    library.command(1, &move_block(0x1000, 0x1001));
    assert_eq!(library.search, kept);
    assert_eq!(found(&mut library), [PORT, 0x1001, 0x1002]);
    library.export(PORT.into());
    assert_ne!(library.search, [0; 41]);
    library.reset();
    assert_eq!(library.search, [0; 41]);
}

#[test]
fn the_last_address_there_can_be() {
    let mut library = Library::small();
    library.head[4..8].copy_from_slice(&[0xFF, 0xFC, 0, 4]);
    library.set_element(AT_1003, [0, 3, 0, 0, 0, 0, 0, 0]);
    send(&mut library, 1, b"ABC125*");
    assert_eq!(found(&mut library), [0xFFFF]);
    assert_eq!(next(&library), [1, 0, 0]);
    assert_eq!(found(&mut library), []);
    assert_eq!(check(&library.lend()), Ok(()));
}

#[test]
fn list_lengths() {
    let mut library = three();
    send(&mut library, 1, b"ABC*");
    for length in [0_u8, 1, 39, 41, 255] {
        let block = [0xB6, 0, 0, 0, 0, 1, 0, 0, 0, length, 0, 0];
        let mut list = list(b"*", 0, 0xFFFF);
        list.resize(length.into(), 0xFF);
        library.expect_check(1, &block, &list, [5, 0x1A, 0x00]);
        // Number 4 reads the block, and not what the list should be.
        list.push(0);
        library.expect_refused(1, &block, &list, 4);
    }
    let long = [0xB6, 0, 0, 0, 0, 1, 0, 0, 1, 40, 0, 0];
    library.expect_check(1, &long, &[0; 296], [5, 0x1A, 0x00]);
    library.expect_refused(1, &long, &[0; 40], 4);
    library.expect_refused(1, &all(600), &[0], 4);
}

#[test]
fn reserved_bytes_of_the_list() {
    let mut library = three();
    send(&mut library, 1, b"ABC*");
    for at in [32, 33, 36, 37] {
        for byte in [1, 0x80] {
            let mut list = list(b"*", 0, 0xFFFF);
            list[at] = byte;
            library.expect_check(1, &send_block(1), &list, [5, 0x26, 0x00]);
        }
    }
}

#[test]
fn actions_types_and_bits_of_the_blocks() {
    let list = list(b"*", 0, 0xFFFF);
    let mut library = three();
    send(&mut library, 1, b"ABC*");
    for action in (0..=255).filter(|action| ![1, 5].contains(action)) {
        library.expect_check(1, &send_block(action), &list, [5, 0x24, 0x00]);
    }
    let used = [0xE0, 0xFF, 0xFF, 0, 0, 0, 0, 0, 0, 0, 0];
    for (at, used) in used.into_iter().enumerate() {
        // The list's length stands in bytes 8-9.
        for bit in (0..8).filter(|bit| used >> bit & 1 == 0 && ![7, 8].contains(&at)) {
            let mut block = send_block(1);
            block[at + 1] ^= 1 << bit;
            if at == 0 && bit < 3 || at == 4 && bit == 2 {
                continue; // a type, and action 5
            }
            library.expect_check(1, &block, &list, [5, 0x24, 0x00]);
        }
    }
    for byte_1 in [5, 15, 0x15] {
        let block = request_block(byte_1, 0, 0xFFFF, 600);
        library.expect_check(1, &block, &[], [5, 0x24, 0x00]);
    }
    for at in [6, 9, 10, 11] {
        for bit in 0..8 {
            let mut block = all(600);
            block[at] = 1 << bit;
            library.expect_check(1, &block, &[], [5, 0x24, 0x00]);
        }
    }
    // "Bits 5 to 7 of byte 1 are ignored."
    let answered = library.with_buffer(1, &request_block(0xE0, 0, 0xFFFF, 8), &[], 8);
    assert_eq!(answered.reply, good(8));
}

/// "B5h and B6h give 18h if any other host holds unit or element, at step 3": behind attention, before the bits.
#[test]
fn other_hosts_hold_something() {
    let list = list(b"*", 0, 0xFFFF);
    let wrong = [0xB6, 0x0F, 0, 0, 0, 0, 0, 0, 0, 40, 0, 1];
    let hold: [&dyn Fn(&mut Library); 4] = [
        &|l| l.hold_unit(2),
        &|l| l.hold(AT_0001, 2, 0),
        &|l| l.hold(AT_1003, 8, 9),
        &|l| l.hold(AT_0100, 2, 1),
    ];
    for hold in hold {
        let mut library = three();
        send(&mut library, 1, b"ABC*");
        hold(&mut library);
        library.expect_conflict(1, &send_block(1), &list);
        library.expect_conflict(1, &wrong, &list);
        library.expect_conflict(1, &all(600), &[]);
        library.expect_refused(1, &wrong, &[], 4);
        let mut told = library.clone();
        told.set_host_record(1, [0, 0, 0, 0x28, 0x01]);
        let answered = told.with_list(1, &send_block(1), &list);
        assert_eq!(answered.reply, CHECK_CONDITION);
        assert_eq!(told.host_record(1), [6, 0x28, 0x01, 0, 0]);
    }
    for own in [1, 0] {
        let mut library = three();
        library.hold_unit(own);
        library.hold(AT_1003, 1, 7);
        send(&mut library, 1, b"ABC*");
        assert_eq!(found(&mut library), [DRIVE, 0x1000, 0x1002]);
    }
}

/// "One search is kept for the unit": whoever asks.
#[test]
fn the_search_is_the_units() {
    let mut library = three();
    send(&mut library, 1, b"*");
    let answered = library.with_buffer(2, &request_block(0, 0, 1, 600), &[], 64);
    assert_eq!(addresses(answered.returned()), [DRIVE]);
    assert_eq!(found(&mut library), [0x1000, 0x1002]);
    let list = list(b"ABC123L1", 0, 0xFFFF);
    library.with_list(3, &send_block(5), &list);
    assert_eq!(found(&mut library), [0x1000]);
}

#[test]
fn sense_is_cleared_and_nothing_else_is_written() {
    for block in [send_block(1), all(0)] {
        let mut library = three();
        library.set_host_record(1, [5, 0x24, 0x00, 0, 0]);
        let list = match block[0] {
            0xB6 => list(b"*", 0, 0xFFFF),
            _ => Vec::new(),
        };
        let answered = library.with_list(1, &block, &list);
        assert_eq!(answered.reply, GOOD);
        let mut expected = three();
        expected.search = library.search.clone();
        assert_eq!(library, expected);
    }
}

#[test]
fn what_a_search_could_leave_is_sound() {
    let expect = |changes: &[(usize, u8)], expected: Result<(), Clause>| {
        let mut library = Library::small();
        for &(at, byte) in changes {
            library.search[at] = byte;
        }
        assert_eq!(check(&library.lend()), expected, "{changes:?}");
        let number = library.command(1, &[0; 6]).reply.number;
        assert_eq!(number, u8::from(expected.is_err()), "{changes:?}");
    };
    for action in [1, 5] {
        expect(&[(33, action)], Ok(()));
        expect(&[(33, action), (32, 4)], Ok(()));
        expect(&[(33, action), (32, 5)], Err(Clause::SearchType));
        expect(&[(33, action), (32, 255)], Err(Clause::SearchType));
        expect(&[(33, action), (38, 1)], Ok(()));
        let above = Err(Clause::SearchNext);
        expect(&[(33, action), (38, 1), (40, 1)], above);
        expect(&[(33, action), (38, 1), (39, 1)], above);
        expect(&[(33, action), (38, 2)], above);
        // Least above greatest, a next address that is no element's, any template.
        expect(&[(33, action), (34, 9), (40, 7), (0, 0xFF), (1, 0)], Ok(()));
    }
    for at in (0..41).filter(|&at| at != 33) {
        expect(&[(at, 1)], Err(Clause::SearchAction));
    }
    for action in (2..=255).filter(|&action| action != 5) {
        expect(&[(33, action)], Err(Clause::SearchAction));
    }
}

#[test]
fn by_every_entry() {
    for entry in Entry::ALL {
        let mut library = three();
        let list = list(b"ABC123*", 0, 0xFFFF);
        let sent = library.entered(entry, (1, &send_block(1), &list), 0);
        assert_eq!(sent.reply, GOOD, "{entry:?}");
        let found = library.entered(entry, (1, &all(600), &[]), 64);
        assert_eq!(addresses(found.returned()), [0x1000], "{entry:?}");
    }
}

/// A replay keeps no answers; what they would have told counts as told.
#[test]
fn replayed_searches() {
    let hex = |bytes: &[u8]| -> String { bytes.iter().map(|b| format!("{b:02X}")).collect() };
    let mut log = format!(
        "1\t1\t{}\t{}\n",
        hex(&send_block(1)),
        hex(&list(b"ABC*", 0, 0xFFFF))
    );
    log += &format!("2\t1\t{}\t\n", hex(&all(32)));
    let mut library = three();
    let told = library.replay(log.as_bytes(), 1, 9);
    assert_eq!((told.number, told.lines), (0, 2));
    assert_eq!(next(&library), [0, 0x01, 0x01]);
    assert_eq!(found(&mut library), [0x1000, 0x1002]);
    log += "3\t0\t03\t\nno line\n";
    let mut library = three();
    let told = library.replay(log.as_bytes(), 1, 9);
    assert_eq!((told.number, told.lines), (10, 3));
    assert_eq!(library.search, [0; 41]);
}
