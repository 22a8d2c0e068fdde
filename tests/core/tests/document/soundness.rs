//! Number 1: each clause of "Sound tables" broken alone, and what is just within it.

use reference::{check, Clause};

use crate::fixture::*;

fn expect(library: &Library, expected: Result<(), Clause>) {
    let mut library = library.clone();
    assert_eq!(check(&library.lend()), expected);
    let before = library.clone();
    let number = library.command(1, &[0; 6]).reply.number;
    match expected {
        Ok(()) => assert_eq!(number, 0),
        Err(_) => assert_eq!((number, library), (1, before)),
    }
}

fn expect_broken(clause: Clause, breaks: impl Fn(&mut Library)) {
    let mut library = Library::small();
    breaks(&mut library);
    expect(&library, Err(clause));
}

fn expect_sound(changes: impl Fn(&mut Library)) {
    let mut library = Library::small();
    changes(&mut library);
    expect(&library, Ok(()));
}

/// An empty library of these ranges: first and count of transport, storage, import/export, drive.
fn library_of(ranges: [(u16, u16); 4]) -> Library {
    let count: usize = ranges.iter().map(|range| usize::from(range.1)).sum();
    let mut library = Library::small();
    for (place, (first, count)) in ranges.into_iter().enumerate() {
        library.head[4 * place..4 * place + 2].copy_from_slice(&first.to_be_bytes());
        library.head[4 * place + 2..4 * place + 4].copy_from_slice(&count.to_be_bytes());
    }
    library.elements = vec![0; 8 * count];
    library.fit_cartridges();
    library.recount();
    library
}

#[test]
fn all_lengths_are_exact() {
    expect_broken(Clause::HeadLength, |l| {
        l.head.pop();
    });
    expect_broken(Clause::HeadLength, |l| l.head.push(0));
    expect_broken(Clause::HeadLength, |l| l.head.clear());
    expect_broken(Clause::BlankLength, |l| {
        l.blank.pop();
    });
    expect_broken(Clause::BlankLength, |l| l.blank.push(0));
    expect_broken(Clause::TagsLength, |l| {
        l.tags.pop();
    });
    expect_broken(Clause::TagsLength, |l| l.tags.push(0));
    expect_broken(Clause::ElementsLength, |l| {
        l.elements.pop();
    });
    expect_broken(Clause::ElementsLength, |l| l.elements.push(0));
    expect_broken(Clause::ElementsLength, |l| l.elements.extend([0; 8]));
    expect_broken(Clause::ElementsLength, |l| l.elements.truncate(48));
    expect_broken(Clause::ElementsLength, |l| l.elements.clear());
    expect_broken(Clause::GenerationsLength, |l| {
        l.generations.pop();
    });
    expect_broken(Clause::GenerationsLength, |l| l.generations.push(1));
    expect_broken(Clause::GenerationsLength, |l| l.generations.clear());
    expect_broken(Clause::MasksLength, |l| l.masks.push(1));
    expect_broken(Clause::MasksLength, |l| l.masks.clear());
    expect_broken(Clause::SearchLength, |l| {
        l.search.pop();
    });
    expect_broken(Clause::SearchLength, |l| l.search.push(0));
    expect_broken(Clause::SearchLength, |l| l.search.clear());
}

#[test]
fn v_is_at_most_512_and_may_be_0() {
    let mut library = library_of([(1, 1), (2, 1), (0, 0), (0, 0)]);
    library.tags = vec![0; 36 * 512];
    library.generations = vec![8; 512];
    expect(&library, Ok(()));
    library.tags = vec![0; 36 * 513];
    library.generations = vec![8; 513];
    expect(&library, Err(Clause::TagCount));
    library.tags.clear();
    library.generations.clear();
    expect(&library, Ok(()));
}

#[test]
fn a_count_of_0_has_first_address_0() {
    expect(&library_of([(1, 1), (2, 1), (0, 0), (0, 0)]), Ok(()));
    expect(
        &library_of([(1, 1), (2, 1), (0, 0), (9, 0)]),
        Err(Clause::EmptyRangeFirst),
    );
}

#[test]
fn each_range_lies_within_1_to_65535() {
    expect(&library_of([(1, 1), (65_534, 2), (0, 0), (0, 0)]), Ok(()));
    for ranges in [
        [(1, 1), (65_534, 3), (0, 0), (0, 0)],
        [(1, 1), (65_535, 2), (0, 0), (0, 0)],
        [(1, 1), (0, 1), (0, 0), (0, 0)],
        [(0, 1), (7, 1), (0, 0), (0, 0)],
    ] {
        expect(&library_of(ranges), Err(Clause::RangeWithin));
    }
}

#[test]
fn no_two_ranges_overlap_but_they_may_touch() {
    expect(&library_of([(5, 2), (3, 2), (7, 1), (1, 2)]), Ok(()));
    for ranges in [
        [(5, 1), (3, 3), (0, 0), (0, 0)],
        [(5, 1), (5, 1), (0, 0), (0, 0)],
        [(5, 2), (6, 2), (0, 0), (0, 0)],
        [(1, 1), (10, 5), (12, 1), (0, 0)],
        [(1, 1), (10, 5), (20, 1), (14, 1)],
    ] {
        expect(&library_of(ranges), Err(Clause::RangeOverlap));
    }
}

#[test]
fn there_are_1_to_512_elements() {
    expect(&library_of([(1, 1), (2, 511), (0, 0), (0, 0)]), Ok(()));
    expect(
        &library_of([(1, 1), (2, 512), (0, 0), (0, 0)]),
        Err(Clause::ElementCount),
    );
    expect(&library_of([(0, 0); 4]), Err(Clause::ElementCount));
}

#[test]
fn there_are_1_to_127_transports() {
    expect(&library_of([(1, 127), (200, 1), (0, 0), (0, 0)]), Ok(()));
    for transports in [(1, 128), (0, 0)] {
        expect(
            &library_of([transports, (200, 1), (0, 0), (0, 0)]),
            Err(Clause::TransportCount),
        );
    }
}

#[test]
fn there_is_a_storage_or_import_export_element() {
    expect(&library_of([(1, 1), (0, 0), (2, 1), (0, 0)]), Ok(()));
    expect(&library_of([(1, 1), (2, 1), (0, 0), (0, 0)]), Ok(()));
    expect(
        &library_of([(1, 1), (0, 0), (0, 0), (2, 1)]),
        Err(Clause::NoShelf),
    );
}

#[test]
fn the_zero_byte_is_0() {
    for place in AT_0001..=AT_1003 {
        expect_broken(Clause::ZeroByte, |l| l.elements[8 * place + 7] = 0x80);
    }
}

#[test]
fn a_volume_number_is_at_most_v_and_stands_once() {
    expect_sound(|l| l.set_element(AT_0100, [0, 3, 0, 0, 0, 0, 0, 0]));
    expect_broken(Clause::VolumeNumber, |l| {
        l.set_element(AT_0100, [0, 4, 0, 0, 0, 0, 0, 0]);
    });
    // 0103h: the high byte counts.
    expect_broken(Clause::VolumeNumber, |l| {
        l.set_element(AT_1003, [1, 3, 0, 0, 0, 0, 0, 0]);
    });
    expect_broken(Clause::VolumeTwice, |l| l.set_element(AT_0010, VOLUME_2));
    expect_broken(Clause::VolumeTwice, |l| l.set_element(AT_1003, VOLUME_1));
}

#[test]
fn transports_are_empty() {
    expect_broken(Clause::TransportFull, |l| {
        l.set_element(AT_0001, [0, 3, 0, 0, 0, 0, 0, 0]);
    });
}

#[test]
fn a_source_is_the_address_of_a_shelf() {
    // Its own, a full one's, an empty one's.
    for source in [[0, 0], [0x10, 0x00], [0x10, 0x02], [0x10, 0x03]] {
        expect_sound(|l| l.set_element(AT_1000, [0, 1, source[0], source[1], 0, 0, 0, 0]));
        expect_sound(|l| l.set_element(AT_0010, [0, 3, source[0], source[1], 0, 0, 0, 0]));
        expect_sound(|l| l.set_element(AT_0100, [0, 3, source[0], source[1], 0, 0, 0, 0]));
    }
    let no_shelf = [[0x00, 0x01], [0x00, 0x10], [0x01, 0x00]];
    let no_element = [[0x00, 0x02], [0x0F, 0xFF], [0x10, 0x04], [0xFF, 0xFF]];
    for source in no_shelf.into_iter().chain(no_element) {
        expect_broken(Clause::SourceAddress, |l| {
            l.set_element(AT_1000, [0, 1, source[0], source[1], 0, 0, 0, 0]);
        });
        expect_broken(Clause::SourceAddress, |l| {
            l.set_element(AT_0010, [0, 3, source[0], source[1], 0, 0, 0, 0]);
        });
        expect_broken(Clause::SourceAddress, |l| {
            l.set_element(AT_0100, [0, 3, source[0], source[1], 0, 0, 0, 0]);
        });
    }
    expect_broken(Clause::SourceWhereEmpty, |l| {
        l.set_element(AT_1001, [0, 0, 0x10, 0x00, 0, 0, 0, 0]);
    });
}

#[test]
fn the_mark_is_1_only_on_a_full_import_export_element() {
    expect_sound(|l| l.set_element(AT_0010, [0, 3, 0, 0, 0, 0, 1, 0]));
    expect_sound(|l| l.set_element(AT_0010, [0, 3, 0, 0, 0, 0, 0, 0]));
    for (place, element) in [
        (AT_0010, [0, 3, 0, 0, 0, 0, 2, 0]),
        (AT_0010, [0, 0, 0, 0, 0, 0, 1, 0]),
        (AT_1000, [0, 1, 0, 0, 0, 0, 1, 0]),
        (AT_0100, [0, 3, 0, 0, 0, 0, 1, 0]),
        (AT_0001, [0, 0, 0, 0, 0, 0, 1, 0]),
    ] {
        expect_broken(Clause::MarkPlace, |l| l.set_element(place, element));
    }
}

#[test]
fn holders_are_at_most_8_and_an_id_needs_one() {
    expect_sound(|l| l.hold(AT_0001, 8, 255));
    expect_broken(Clause::HolderNumber, |l| l.hold(AT_1003, 9, 0));
    expect_broken(Clause::IdWithoutHolder, |l| l.hold(AT_0001, 0, 1));
    expect_broken(Clause::UnitHolder, |l| l.hold_unit(9));
}

#[test]
fn where_the_unit_is_held_no_other_host_holds_an_element() {
    expect_sound(|l| {
        l.hold_unit(8);
        l.hold(AT_1003, 8, 3);
    });
    expect_broken(Clause::UnitHeldAlone, |l| {
        l.hold_unit(8);
        l.hold(AT_1003, 7, 3);
    });
}

#[test]
fn a_sense_key_is_at_most_15_and_key_0_has_no_codes() {
    for host in [1, 8] {
        expect_sound(|l| l.set_host_record(host, [15, 0xFF, 0xFF, 0, 0]));
        expect_sound(|l| l.set_host_record(host, [1, 0, 0, 0, 0]));
        expect_broken(Clause::SenseKey, |l| {
            l.set_host_record(host, [16, 0, 0, 0, 0]);
        });
        expect_broken(Clause::CodesWithoutKey, |l| {
            l.set_host_record(host, [0, 1, 0, 0, 0]);
        });
        expect_broken(Clause::CodesWithoutKey, |l| {
            l.set_host_record(host, [0, 0, 1, 0, 0]);
        });
    }
}

#[test]
fn attention_is_none_or_one_of_two() {
    for host in [1, 8] {
        let mut told = Library::small();
        told.set_host_record(host, [0, 0, 0, 0x29, 0x00]);
        assert_eq!(check(&told.lend()), Ok(()));
        told.set_host_record(host, [0, 0, 0, 0x28, 0x01]);
        assert_eq!(check(&told.lend()), Ok(()));
        for codes in [[0x28, 0x00], [0x29, 0x01], [0x29, 0x02], [0, 1], [0x2A, 0]] {
            expect_broken(Clause::AttentionCodes, |l| {
                l.set_host_record(host, [0, 0, 0, codes[0], codes[1]]);
            });
        }
    }
}

#[test]
fn the_number_of_empty_shelves_is_the_true_one() {
    // Two of the small library's four shelves are empty.
    expect_sound(|l| l.show_empty_shelves(2));
    for number in [0, 1, 3, 4, 0x0102, 0x0200, 0x8002, 0xFFFF] {
        expect_broken(Clause::EmptyShelves, |l| l.show_empty_shelves(number));
    }
    // A shelf that is filled without a word about it; drive and mail slot are no shelves.
    expect_broken(Clause::EmptyShelves, |l| l.elements[8 * AT_1003 + 1] = 3);
    for place in [AT_0010, AT_0100] {
        expect_sound(|l| l.elements[8 * place + 1] = 3);
    }
}

#[test]
fn without_shelves_the_number_is_0() {
    let mut library = library_of([(1, 1), (0, 0), (2, 1), (0, 0)]);
    library.show_empty_shelves(0);
    expect(&library, Ok(()));
    library.show_empty_shelves(1);
    expect(&library, Err(Clause::EmptyShelves));
}

#[test]
fn both_bytes_of_the_number_are_judged() {
    let mut library = library_of([(1, 1), (2, 300), (0, 0), (0, 0)]);
    // 300 is 012Ch.
    library.head[58..].copy_from_slice(&[0x01, 0x2C]);
    expect(&library, Ok(()));
    for wrong in [
        [0x00, 0x2C],
        [0x02, 0x2C],
        [0x01, 0x2B],
        [0x01, 0x2D],
        [0x2C, 0x01],
    ] {
        library.head[58..].copy_from_slice(&wrong);
        expect(&library, Err(Clause::EmptyShelves));
    }
}

#[test]
fn tables_of_any_lengths_are_refused_and_left() {
    for length in 0..130 {
        for bytes in [0x00, 0x01, 0xFF] {
            let mut library = Library::small();
            library.head = vec![bytes; length];
            library.elements = vec![bytes; 129 - length];
            let before = library.clone();
            assert_eq!(library.command(u32::MAX, &[]).reply, refused(1));
            assert_eq!(library.import(u32::MAX, u32::MAX), refused(1));
            assert_eq!(library.export(u32::MAX), refused(1));
            assert_eq!(library.reset(), refused(1));
            assert_eq!(library, before);
        }
    }
}
