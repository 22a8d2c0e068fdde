//! The library file, read by its description.

use reference::{TableBytes, TABLES};

const HEADER: usize = 36;
const NAME: usize = 24;

/// A library file's numbers and tables.
pub struct File {
    pub first: u32,
    pub next: u32,
    pub place: u64,
    pub now: TableBytes,
    /// As they were when the log began.
    pub then: TableBytes,
}

fn number(bytes: &[u8]) -> u64 {
    bytes
        .iter()
        .fold(0, |sum, byte| sum << 8 | u64::from(*byte))
}

fn check_sum(bytes: &[u8]) -> u32 {
    let mut sum = u32::MAX;
    for byte in bytes {
        sum ^= u32::from(*byte);
        for _ in 0..8 {
            let odd = sum & 1 == 1;
            sum >>= 1;
            if odd {
                sum ^= 0xEDB8_8320;
            }
        }
    }
    !sum
}

/// The parts by name, in the order of the file.
fn parts(bytes: &[u8]) -> Vec<(String, Vec<u8>)> {
    let count = number(&bytes[32..36]);
    let mut at = HEADER;
    let mut found = Vec::new();
    for _ in 0..count {
        let name: Vec<u8> = bytes[at..at + NAME]
            .iter()
            .copied()
            .take_while(|b| *b != 0)
            .collect();
        let length = number(&bytes[at + NAME..at + NAME + 4]) as usize;
        at += NAME + 4;
        found.push((
            String::from_utf8(name).expect("a name"),
            bytes[at..at + length].to_vec(),
        ));
        at += length;
    }
    assert_eq!(at + 4, bytes.len(), "bytes behind the last table");
    found
}

pub fn read(bytes: &[u8]) -> File {
    assert_eq!(bytes[..8], *b"\x8CLOFT\r\n\x1A");
    assert_eq!(number(&bytes[12..16]) as usize, bytes.len());
    let sum = bytes.len() - 4;
    assert_eq!(number(&bytes[sum..]) as u32, check_sum(&bytes[..sum]));
    let parts = parts(bytes);
    let part = |name: &str| {
        parts
            .iter()
            .find(|part| part.0 == name)
            .map(|part| part.1.clone())
    };
    let mut now = TableBytes::default();
    let mut then = TableBytes::default();
    for (place, name) in TABLES.iter().enumerate() {
        let bytes = part(name).unwrap_or_default(); // a table that is not in the file is empty
        *then.each()[place] = part(&format!("opening.{name}")).unwrap_or_else(|| bytes.clone());
        *now.each()[place] = bytes;
    }
    File {
        first: number(&bytes[16..20]) as u32,
        next: number(&bytes[20..24]) as u32,
        place: number(&bytes[24..32]),
        now,
        then,
    }
}
