//! "fields are high byte first"

pub(crate) fn two(bytes: &[u8], at: usize) -> u16 {
    u16::from_be_bytes([bytes[at], bytes[at + 1]])
}

pub(crate) fn three(bytes: &[u8], at: usize) -> usize {
    usize::from(bytes[at]) << 16 | usize::from(two(bytes, at + 1))
}

/// The low three bytes of a count.
pub(crate) fn as_three(count: usize) -> [u8; 3] {
    [(count >> 16) as u8, (count >> 8) as u8, count as u8]
}
