//! Document 02, Five: the lines of a log, what each does, where a replay stops and how it goes on.

use reference::Replayed;

use crate::fixture::*;

const READY: &str = "000000000000";
const LARGEST: u32 = 999_999_999;

/// The text of these lines from this number on, each given as host, command and parameters.
fn log(first: u32, lines: &[(u32, &str, &str)]) -> Vec<u8> {
    let numbered = (first..).zip(lines);
    let line = |(number, (host, command, parameters)): (u32, &(u32, &str, &str))| {
        format!("{number}\t{host}\t{command}\t{parameters}\n")
    };
    numbered.map(line).collect::<String>().into_bytes()
}

fn ended(number: u32, lines: u32, place: usize, expected: u32) -> Replayed {
    Replayed {
        number,
        lines,
        place,
        expected,
    }
}

/// A line of number 1, by itself: applied as a readiness test is, which changes nothing.
fn is_taken(line: &str) {
    let mut library = Library::small();
    let text = format!("{line}\n");
    let told = library.replay(text.as_bytes(), 1, 2);
    assert_eq!(told, ended(0, 1, text.len(), 2), "{line:?}");
    assert_eq!(library, Library::small(), "{line:?}");
}

/// A line of another form or number: it is not applied, nor is the one behind it.
fn is_refused(line: &[u8]) {
    let mut library = Library::small();
    let text = [line, b"\n2\t0\t03\t\n"].concat();
    let shown = line.escape_ascii();
    assert_eq!(library.replay(&text, 1, 5), ended(10, 0, 0, 1), "{shown}");
    assert_eq!(library, Library::small(), "{shown}");
}

/// An import, a readiness test that is told of it, a MOVE into the drive, an import of what is there already, a MOVE to a full shelf: 16, 18, 31,
/// 17 and 31 bytes with their line feeds.
fn morning() -> Vec<u8> {
    log(
        8,
        &[
            (0, "01", "00100003"),
            (1, READY, ""),
            (1, "A50000000010010000000000", ""),
            (0, "01", "00100003"),
            (1, "A50000000100100200000000", ""),
        ],
    )
}

#[test]
fn a_morning_is_replayed() {
    let mut library = Library::small();
    let text = morning();
    assert_eq!(library.replay(&text, 8, 5), ended(0, 5, text.len(), 13));
    let mut expected = Library::small();
    expected.set_element(AT_0100, [0, 3, 0, 0, 0, 0, 0, 0]);
    // Host 1 was told the import; its last MOVE found the shelf full. The second import was refused: volume 3 is in the drive.
    expected.set_host_record(1, [5, 0x3B, 0x0D, 0, 0]);
    for host in 2..=8 {
        expected.set_host_record(host, [0, 0, 0, 0x28, 0x01]);
    }
    assert_eq!(library, expected);
}

#[test]
fn a_budget_cuts_and_the_next_call_goes_on() {
    let text = morning();
    let places = [0, 16, 34, 65, 82, 113];
    assert_eq!(places[5], text.len());
    for (lines, place) in (0..).zip(places) {
        let mut library = Library::small();
        let told = library.replay(&text, 8, lines);
        assert_eq!(told, ended(0, lines, place, 8 + lines));
        let rest = library.replay(&text[place..], 8 + lines, u32::MAX);
        assert_eq!(rest, ended(0, 5 - lines, 113 - place, 13));
        let mut whole = Library::small();
        whole.replay(&text, 8, 5);
        assert_eq!(library, whole, "{lines}");
    }
}

#[test]
fn number_10_keeps_what_earlier_lines_did_and_their_count() {
    let mut text = morning();
    // The host of the fourth line.
    text[65 + 3] = b'x';
    let mut library = Library::small();
    assert_eq!(library.replay(&text, 8, 5), ended(10, 3, 65, 11));
    assert_eq!(library.element(AT_0100), [0, 3, 0, 0, 0, 0, 0, 0]);
    let kept = library.clone();
    assert_eq!(library.replay(&text[65..], 11, 5), ended(10, 0, 0, 11));
    assert_eq!(library, kept);
    let whole = morning();
    assert_eq!(library.replay(&whole[65..], 11, 5), ended(0, 2, 48, 13));
}

#[test]
fn the_line_behind_the_budget_is_not_looked_at() {
    let text = [&log(1, &[(1, READY, "")])[..], b"no line at all"].concat();
    let mut library = Library::small();
    assert_eq!(library.replay(&text, 1, 1), ended(0, 1, 18, 2));
    assert_eq!(library.replay(&text, 1, 2), ended(10, 1, 18, 2));
    assert_eq!(library.replay(b"no line at all", 1, 0), ended(0, 0, 0, 1));
}

#[test]
fn number_1_comes_first() {
    for (text, budget) in [
        (morning(), 5),
        (morning(), 0),
        (Vec::new(), 5),
        (Vec::new(), 0),
        (b"no line".to_vec(), 1),
    ] {
        for expected in [0, 8, u32::MAX] {
            let mut library = Library::small();
            library.show_empty_shelves(3);
            let before = library.clone();
            let told = library.replay(&text, expected, budget);
            assert_eq!(told, ended(1, 0, 0, expected));
            assert_eq!(library, before);
        }
    }
}

#[test]
fn an_empty_log_is_at_its_end() {
    for expected in [0, 1, LARGEST, LARGEST + 1, u32::MAX] {
        for budget in [0, 1, u32::MAX] {
            let mut library = Library::small();
            assert_eq!(
                library.replay(b"", expected, budget),
                ended(0, 0, 0, expected)
            );
            assert_eq!(library, Library::small());
        }
    }
}

#[test]
fn numbers_go_from_1_to_999999999() {
    let mut library = Library::small();
    let line = |number: u64| format!("{number}\t1\t{READY}\t\n").into_bytes();
    let mut replay = |text: &[u8], expected: u32| library.replay(text, expected, 9);
    assert_eq!(replay(&line(1), 1), ended(0, 1, 18, 2));
    let last = line(LARGEST.into());
    assert_eq!(replay(&last, LARGEST), ended(0, 1, 26, 1_000_000_000));
    let beyond = [last, line(1_000_000_000)].concat();
    assert_eq!(replay(&beyond, LARGEST), ended(10, 1, 26, 1_000_000_000));
    // No line can have these.
    for expected in [0, 1_000_000_000, 1_000_000_001, u32::MAX] {
        let text = line(expected.into());
        assert_eq!(replay(&text, expected), ended(10, 0, 0, expected));
    }
    for other in [
        0,
        6,
        8,
        70,
        77,
        107,
        4_294_967_303,
        18_446_744_073_709_551_615,
    ] {
        assert_eq!(replay(&line(other), 7), ended(10, 0, 0, 7), "{other}");
    }
    // 2 to the power of 64, and 7.
    let twenty = format!("18446744073709551623\t1\t{READY}\t\n");
    assert_eq!(replay(twenty.as_bytes(), 7), ended(10, 0, 0, 7));
}

#[test]
fn four_fields_are_parted_by_three_tabs() {
    is_taken("1\t1\t000000000000\t");
    is_refused(b"");
    is_refused(b"1");
    is_refused(b"1\t1");
    is_refused(b"1\t1\t000000000000");
    is_refused(b"1\t1\t000000000000\t\t");
    is_refused(b"1\t1\t000000000000\t00\t");
    is_refused(b"\t1\t1\t000000000000\t");
    is_refused(b"1\t\t1\t000000000000\t");
    is_refused(b"1 1\t000000000000\t");
    is_refused(b"1\t1 000000000000\t");
    is_refused(b"1\t1\t000000000000 ");
    is_refused(b"1\t1\t000000000000\t\r");
    is_refused(b"1\t1\t000000000000\t\0");
    is_refused(b"1\t1\t0000\x0000000000\t");
    is_refused(b"\xFF\xFE\x00\x01");
}

#[test]
fn the_number_and_the_host_are_of_digits() {
    for number in [
        "", "01", "001", "+1", "-1", " 1", "1 ", "A", "1A", "1.", "0x1", "0",
    ] {
        is_refused(format!("{number}\t1\t{READY}\t").as_bytes());
    }
    for host in [
        "", "01", "10", "11", "A", "F", "a", " ", "1 ", "-", "/", ":",
    ] {
        is_refused(format!("1\t{host}\t{READY}\t").as_bytes());
    }
    for host in 1..=9 {
        is_taken(&format!("1\t{host}\t{READY}\t"));
    }
}

#[test]
fn bytes_are_in_upper_case_and_whole() {
    for bytes in [
        "0", "000", "c0", "C0a0", "G0", "0G", "C0/0", "C0:0", "C0@0", "C0`0", "C0 0", "0x", "C0h0",
    ] {
        is_refused(format!("1\t1\t{bytes}\t").as_bytes());
        is_refused(format!("1\t1\tC0\t{bytes}").as_bytes());
    }
    // What has the form and is no command is told so to the host, or refused by number; then it counts.
    let mut library = Library::small();
    let text = b"1\t1\tC0FF19AF\t0123456789ABCDEF\n";
    assert_eq!(library.replay(text, 1, 1), ended(0, 1, 30, 2));
    assert_eq!(library.host_record(1), [5, 0x20, 0x00, 0, 0]);
}

#[test]
fn a_line_that_the_core_refuses_by_number_counts() {
    // Hosts 9, an empty block, blocks and parameters of wrong length; each with more beside it.
    for line in [
        "1\t9\t000000000000\t",
        "1\t9\t\t",
        "1\t1\t\t",
        "1\t1\t\t00",
        "1\t1\t00\t",
        "1\t1\t00000000000000\t",
        "1\t1\t000000000000\t00",
        "1\t1\t160100000600\t00",
        // Events: no import/export element, no volume, an element that is empty.
        "1\t0\t01\t10000003",
        "1\t0\t01\t00100000",
        "1\t0\t01\t00100001",
        "1\t0\t01\t00100004",
        "1\t0\t02\t0010",
        "1\t0\t02\t1000",
    ] {
        is_taken(line);
    }
    let mut library = Library::small();
    library.head[17] = 0x80;
    let before = library.clone();
    let text = b"1\t0\t01\t00100003\n";
    assert_eq!(library.replay(text, 1, 1), ended(0, 1, 16, 2));
    assert_eq!(library, before);
}

#[test]
fn events_have_their_own_parameters() {
    for (code, parameters) in [
        ("00", ""),
        ("04", ""),
        ("04", "0010"),
        ("10", ""),
        ("", ""),
        ("", "00100003"),
        ("0101", "00100003"),
        ("0300", ""),
        ("01", ""),
        ("01", "0010"),
        ("01", "001000"),
        ("01", "0010000300"),
        ("02", ""),
        ("02", "00"),
        ("02", "00100003"),
        ("03", "00"),
        ("03", "0010"),
        ("1", "00100003"),
        ("A50000001000010000000000", ""),
    ] {
        is_refused(format!("1\t0\t{code}\t{parameters}").as_bytes());
    }
}

#[test]
fn events_do_what_they_do() {
    let text = log(
        1,
        &[(0, "01", "00100003"), (0, "02", "0010"), (0, "03", "")],
    );
    let mut library = Library::small();
    assert_eq!(library.replay(&text, 1, 1), ended(0, 1, 16, 2));
    assert_eq!(library.element(AT_0010), [0, 3, 0, 0, 0, 0, 1, 0]);
    assert_eq!(library.replay(&text[16..], 2, 1), ended(0, 1, 12, 3));
    assert_eq!(library.element(AT_0010), EMPTY);
    assert_eq!(library.host_record(8), [0, 0, 0, 0x28, 0x01]);
    assert_eq!(library.replay(&text[28..], 3, 1), ended(0, 1, 8, 4));
    assert_eq!(library.host_record(8), [0, 0, 0, 0x29, 0x00]);
}

#[test]
fn a_reserve_takes_its_list_from_the_parameters() {
    let text = log(1, &[(2, "160105000C00", "000000021001000000010100")]);
    let mut library = Library::small();
    assert_eq!(library.replay(&text, 1, 1), ended(0, 1, 42, 2));
    for place in [AT_1001, AT_1002, AT_0100] {
        assert_eq!(library.holder_and_id(place), [2, 5]);
    }
    assert_eq!(library.holder_and_id(AT_1000), [0, 0]);
}

#[test]
fn answers_are_not_kept_and_number_5_does_not_arise() {
    let mut library = Library::small();
    for host in 1..=3 {
        library.set_host_record(host, [5, 0x24, 0x00, 0, 0]);
    }
    // A whole listing with tags clears its host's sense, mode pages do, and REQUEST SENSE tells it to nobody.
    let text = log(
        1,
        &[
            (1, "B8100000FFFF00FFFFFF0000", ""),
            (2, "1A003F00FF00", ""),
            (3, "030000001200", ""),
        ],
    );
    assert_eq!(library.replay(&text, 1, 3), ended(0, 3, text.len(), 4));
    assert_eq!(library, Library::small());
}

/// 4 bytes beside the number's digits and the two fields of bytes.
fn line_of(number: u32, length: usize) -> Vec<u8> {
    let front = format!("{number}\t1\tC0\t");
    let rest = "0".repeat(length - front.len());
    [front, rest, "\n".into()].concat().into_bytes()
}

#[test]
fn a_line_has_at_most_512_bytes_before_its_line_feed() {
    // With a number of two digits an even length has whole bytes, with one digit an odd one.
    for (number, length, number_10) in [
        (7, 509, false),
        (7, 511, false),
        (7, 513, true),
        (42, 510, false),
        (42, 512, false),
        (42, 514, true),
        (42, 1_024, true),
        (42, 100_000, true),
        // Half a byte.
        (7, 512, true),
        (42, 511, true),
        (42, 513, true),
    ] {
        let mut library = Library::small();
        let told = library.replay(&line_of(number, length), number, 1);
        let expected = match number_10 {
            true => ended(10, 0, 0, number),
            false => ended(0, 1, length + 1, number + 1),
        };
        assert_eq!(told, expected, "{number}, {length} bytes");
    }
}

#[test]
fn a_rest_without_a_line_feed_is_no_line() {
    let text = log(1, &[(1, READY, ""), (1, READY, "")]);
    for length in 0..=text.len() {
        let mut library = Library::small();
        let expected = match length {
            0 => ended(0, 0, 0, 1),
            1..=17 => ended(10, 0, 0, 1),
            18 => ended(0, 1, 18, 2),
            19..=35 => ended(10, 1, 18, 2),
            _ => ended(0, 2, 36, 3),
        };
        let told = library.replay(&text[..length], 1, 9);
        assert_eq!(told, expected, "{length} bytes");
    }
}
