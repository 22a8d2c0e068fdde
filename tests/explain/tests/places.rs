//! Each clause broken alone in the small library: the clause, the place and the words.

use differential::scene::Scene;
use explain::{clause_text, clauses, explain, Fault};

fn broken(breaks: impl Fn(&mut Scene)) -> Fault {
    let mut scene = Scene::small_library();
    breaks(&mut scene);
    explain(scene.tables.lend())
}

fn expect(breaks: impl Fn(&mut Scene), expected: Fault, text: &str) {
    let fault = broken(breaks);
    assert_eq!(fault, expected);
    assert_eq!(fault.text(), text);
}

fn fault(clause: u32, value: u64) -> Fault {
    Fault {
        clause,
        value,
        ..Fault::default()
    }
}

fn of_range(clause: u32, range: u8, value: u64) -> Fault {
    Fault {
        range,
        ..fault(clause, value)
    }
}

fn of_host(clause: u32, host: u8, value: u64) -> Fault {
    Fault {
        host,
        ..fault(clause, value)
    }
}

fn of_element(clause: u32, place: u16, value: u64) -> Fault {
    let address = [0x0001, 0x0010, 0x0100, 0x1000, 0x1001, 0x1002, 0x1003][usize::from(place)];
    Fault {
        address,
        place,
        ..fault(clause, value)
    }
}

fn set_range(scene: &mut Scene, range: usize, first: u16, count: u16) {
    let bytes = [first.to_be_bytes(), count.to_be_bytes()].concat();
    scene.tables.head[4 * range..4 * range + 4].copy_from_slice(&bytes);
}

#[test]
fn sound_tables_have_no_fault() {
    expect(|_| {}, Fault::default(), "the tables are sound");
}

#[test]
fn lengths() {
    expect(
        |s| s.tables.head.push(0),
        fault(1, 61),
        "clause 1, the head has 60 bytes: length 61",
    );
    expect(
        |s| s.tables.head.clear(),
        fault(1, 0),
        "clause 1, the head has 60 bytes: length 0",
    );
    expect(
        |s| s.tables.tags.resize(36 * 513, 0),
        fault(12, 513),
        "clause 12, there are at most 512 tags: number 513",
    );
    expect(
        |s| s.tables.tags.push(0),
        fault(13, 109),
        "clause 13, the tags have 36 bytes each: length 109",
    );
    expect(
        |s| s.tables.blank.truncate(35),
        fault(14, 35),
        "clause 14, the blank label has 36 bytes: length 35",
    );
    let elements = Fault {
        other: 56,
        ..fault(15, 48)
    };
    expect(
        |s| s.tables.elements.truncate(48),
        elements,
        "clause 15, the elements have 8 bytes each: length 48 and not 56",
    );
}

#[test]
fn counts() {
    let shelves = |count: u16| move |s: &mut Scene| set_range(s, 1, 0x1000, count);
    expect(
        shelves(510),
        fault(2, 513),
        "clause 2, there are 1 to 512 elements: number 513",
    );
    expect(
        |s| s.tables.head[..16].fill(0),
        fault(2, 0),
        "clause 2, there are 1 to 512 elements: number 0",
    );
    expect(
        |s| set_range(s, 0, 1, 128),
        fault(3, 128),
        "clause 3, there are 1 to 127 transports: number 128",
    );
    let no_shelf = |s: &mut Scene| {
        set_range(s, 1, 0, 0);
        set_range(s, 2, 0, 0);
    };
    expect(
        no_shelf,
        fault(4, 0),
        "clause 4, there is a storage or import/export element",
    );
}

#[test]
fn ranges() {
    expect(
        |s| set_range(s, 3, 9, 0),
        of_range(5, 4, 9),
        "clause 5, a range with count 0 has first address 0: the drive range: first address 0009h",
    );
    expect(
        |s| set_range(s, 2, 0, 1),
        of_range(6, 3, 0),
        "clause 6, each range lies within 1 to 65535: the import/export range: address 0",
    );
    expect(
        |s| set_range(s, 1, 65_534, 3),
        of_range(6, 2, 65_536),
        "clause 6, each range lies within 1 to 65535: the storage range: address 65536",
    );
    let overlap = Fault {
        other: 4,
        ..of_range(7, 2, 0)
    };
    expect(
        |s| set_range(s, 3, 0x1003, 1),
        overlap,
        "clause 7, no two ranges overlap: the storage range and the drive range",
    );
}

#[test]
fn hosts() {
    let record =
        |host: u8, bytes: [u8; 5]| move |s: &mut Scene| s.host_record(host).copy_from_slice(&bytes);
    expect(
        |s| s.hold_unit(9),
        fault(8, 9),
        "clause 8, the unit holder is at most 8: unit holder 9",
    );
    expect(
        record(8, [16, 0, 0, 0, 0]),
        of_host(9, 8, 16),
        "clause 9, a sense key is at most 15: host 8: key 16",
    );
    expect(
        record(1, [0, 0, 1, 0, 0]),
        of_host(10, 1, 1),
        "clause 10, sense key 0 has codes 0: host 1: codes 0001h",
    );
    expect(
        record(3, [0, 0, 0, 0x29, 1]),
        of_host(11, 3, 0x2901),
        "clause 11, attention is none, 2801h or 2900h: host 3: codes 2901h",
    );
}

#[test]
fn elements() {
    let with = |place: usize, bytes: [u8; 8]| {
        move |s: &mut Scene| {
            s.element(place).copy_from_slice(&bytes);
            s.recount();
        }
    };
    expect(with(2, [0, 4, 0, 0, 0, 0, 0, 0]), of_element(16, 2, 4), "clause 16, a volume number is at most the number of tags: element 0100h (place 2): volume 4");
    expect(
        with(0, [0, 3, 0, 0, 0, 0, 0, 0]),
        of_element(17, 0, 3),
        "clause 17, transports are empty: element 0001h (place 0): volume 3",
    );
    expect(
        with(4, [0, 0, 0x10, 0, 0, 0, 0, 0]),
        of_element(18, 4, 0x1000),
        "clause 18, an empty element has source 0: element 1001h (place 4): source 1000h",
    );
    expect(
        with(3, [0, 1, 0x10, 4, 0, 0, 0, 0]),
        of_element(19, 3, 0x1004),
        "clause 19, a source is 0 or a storage element's address: element 1000h (place 3): source 1004h",
    );
    for (high, low) in [(0x00, 0x01), (0x00, 0x10), (0x01, 0x00)] {
        let source = u16::from_be_bytes([high, low]);
        expect(
            with(5, [0, 2, high, low, 0, 0, 0, 0]),
            of_element(19, 5, source.into()),
            &format!("clause 19, a source is 0 or a storage element's address: element 1002h (place 5): source {source:04X}h"),
        );
    }
    expect(with(6, [0, 3, 0, 0, 0, 0, 1, 0]), of_element(20, 6, 1), "clause 20, the mark is 1 only on a full import/export element, else 0: element 1003h (place 6): mark 1");
    expect(
        with(1, [0, 0, 0, 0, 0, 0, 0, 7]),
        of_element(24, 1, 7),
        "clause 24, the last byte of an element is 0: element 0010h (place 1): byte 7",
    );
    let twice = Fault {
        other: 0x1000,
        ..of_element(25, 5, 1)
    };
    expect(with(5, [0, 1, 0, 0, 0, 0, 0, 0]), twice, "clause 25, a volume stands in one element at most: element 1002h (place 5): volume 1 stands in element 1000h too");
}

#[test]
fn holders() {
    expect(
        |s| s.hold(6, 9, 0),
        of_element(21, 6, 9),
        "clause 21, a holder is at most 8: element 1003h (place 6): holder 9",
    );
    expect(|s| s.hold(0, 0, 5), of_element(22, 0, 5), "clause 22, the reservation id is 0 where there is no holder: element 0001h (place 0): id 5");
    let alone = Fault {
        other: 8,
        ..of_element(23, 6, 7)
    };
    let held = |s: &mut Scene| {
        s.hold_unit(8);
        s.hold(6, 7, 3);
    };
    expect(held, alone, "clause 23, if the unit is held, no other host holds an element: element 1003h (place 6): holder 7, and host 8 holds the unit");
}

#[test]
fn empty_shelves() {
    let wrong = |number: u64, empty: u64| Fault {
        other: empty,
        ..fault(26, number)
    };
    expect(|s| s.show_empty_shelves(1), wrong(1, 2), "clause 26, the head's last two bytes are the number of empty storage elements: number 1 and not 2");
    expect(|s| s.show_empty_shelves(0x0102), wrong(258, 2), "clause 26, the head's last two bytes are the number of empty storage elements: number 258 and not 2");
    expect(|s| s.set_volume(6, 3), wrong(2, 1), "clause 26, the head's last two bytes are the number of empty storage elements: number 2 and not 1");
}

#[test]
fn cartridges() {
    let against = |clause: u32, value: u64, other: u64| Fault {
        other,
        ..fault(clause, value)
    };
    expect(
        |s| s.tables.generations.push(1),
        against(27, 4, 3),
        "clause 27, there is a generation for each tag: length 4 and not 3",
    );
    expect(
        |s| s.tables.generations.clear(),
        against(27, 0, 3),
        "clause 27, there is a generation for each tag: length 0 and not 3",
    );
    for wrong in [0, 9, 255] {
        expect(
            |s| s.set_generation(3, wrong),
            against(28, wrong.into(), 3),
            &format!("clause 28, a generation is 1 to 8: generation {wrong} of volume 3"),
        );
    }
    expect(
        |s| s.tables.masks.push(0),
        against(29, 2, 1),
        "clause 29, there is a mask for each drive: length 2 and not 1",
    );
    expect(
        |s| s.tables.masks.clear(),
        against(29, 0, 1),
        "clause 29, there is a mask for each drive: length 0 and not 1",
    );
    let unfit = |generation: u8, mask: u8| {
        move |s: &mut Scene| {
            s.set_volume(2, 3);
            s.set_generation(3, generation);
            s.tables.masks[0] = mask;
        }
    };
    for (generation, mask) in [(1, 0xFE), (2, 0x01), (8, 0x7F), (8, 0x00)] {
        let expected = Fault {
            other: mask.into(),
            ..of_element(30, 2, generation.into())
        };
        expect(unfit(generation, mask), expected, &format!("clause 30, a full drive takes its volume's generation: element 0100h (place 2): generation {generation}, and the mask is {mask:02X}h"));
    }
    for (generation, mask) in [(1, 0x01), (2, 0x02), (8, 0x80), (5, 0xFF)] {
        expect(
            unfit(generation, mask),
            Fault::default(),
            "the tables are sound",
        );
    }
}

#[test]
fn searches() {
    for length in [0, 40, 42] {
        expect(
            |s| s.tables.search.resize(length, 0),
            fault(31, length as u64),
            &format!("clause 31, the search has 41 bytes: length {length}"),
        );
    }
    let set = |bytes: &'static [(usize, u8)]| {
        move |s: &mut Scene| {
            for &(at, byte) in bytes {
                s.tables.search[at] = byte;
            }
        }
    };
    // A template, a type, a range or a next address alone is no search.
    for alone in [[(0, b'*')], [(32, 1)], [(35, 1)], [(40, 1)]] {
        expect(
            |s| s.tables.search[alone[0].0] = alone[0].1,
            fault(32, 0),
            "clause 32, a search is all zeros or has action 1 or 5: action 0",
        );
    }
    for action in [2, 3, 4, 6, 0x11, 255] {
        expect(
            |s| s.tables.search[33] = action,
            fault(32, action.into()),
            &format!("clause 32, a search is all zeros or has action 1 or 5: action {action}"),
        );
    }
    expect(
        set(&[(33, 5), (32, 5)]),
        fault(33, 5),
        "clause 33, the type of a search is at most 4: type 5",
    );
    expect(
        set(&[(33, 1), (38, 1), (40, 1)]),
        fault(34, 0x1_0001),
        "clause 34, the next address of a search is at most 10000h: address 10001h",
    );
    let sound: [&'static [(usize, u8)]; 5] = [
        &[(33, 1)],
        &[(33, 5), (32, 4)],
        &[(33, 1), (38, 1)],
        &[(33, 1), (34, 0xFF)],
        &[(0, b'?'), (33, 5), (39, 0xFF), (40, 0xFF)],
    ];
    for bytes in sound {
        expect(set(bytes), Fault::default(), "the tables are sound");
    }
}

#[test]
fn the_text_is_cut_to_the_buffer() {
    let fault = broken(|s| s.hold_unit(9));
    let whole = fault.text();
    for size in 0..whole.len() + 3 {
        let (text, length) = fault.text_within(size);
        assert_eq!(length, whole.len());
        if size > 0 {
            assert_eq!(text, whole[..whole.len().min(size - 1)]);
        }
    }
}

#[test]
fn a_number_that_is_no_clause_has_a_text_too() {
    assert_eq!(clause_text(0), "the tables are sound");
    assert_eq!(clause_text(25), "a volume stands in one element at most");
    assert_eq!(
        clause_text(26),
        "the head's last two bytes are the number of empty storage elements"
    );
    assert_eq!(
        clause_text(30),
        "a full drive takes its volume's generation"
    );
    assert_eq!(
        clause_text(34),
        "the next address of a search is at most 10000h"
    );
    for clause in [clauses().len() as u32 + 1, 1_000, u32::MAX] {
        assert_eq!(clause_text(clause), "no clause has this number");
        assert_eq!(fault(clause, 1).text(), "no clause has this number");
    }
}
