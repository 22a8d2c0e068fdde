//! A lent slice inside a bigger buffer, so that a byte written beside it is seen.

pub const MARGIN: usize = 16;

#[derive(Clone, Debug)]
pub struct Guarded {
    bytes: Vec<u8>,
    margin: [u8; MARGIN],
}

impl Guarded {
    /// The margin's bytes should differ from call to call: then a byte read beside the slice is seen too,
    /// as an outcome that differs.
    pub fn new(content: &[u8], margin: [u8; MARGIN]) -> Guarded {
        Guarded {
            bytes: [&margin, content, &margin].concat(),
            margin,
        }
    }

    pub fn content(&self) -> &[u8] {
        &self.bytes[MARGIN..self.bytes.len() - MARGIN]
    }

    pub fn content_mut(&mut self) -> &mut [u8] {
        let end = self.bytes.len() - MARGIN;
        &mut self.bytes[MARGIN..end]
    }

    pub fn margins_kept(&self) -> bool {
        self.bytes.starts_with(&self.margin) && self.bytes.ends_with(&self.margin)
    }
}

#[cfg(test)]
mod tests {
    use super::*;

    #[test]
    fn a_byte_written_beside_the_slice_is_seen() {
        let slice = Guarded::new(&[1, 2, 3], [9; MARGIN]);
        assert_eq!(slice.content(), [1, 2, 3]);
        assert!(slice.margins_kept());
        for beside in [0, MARGIN - 1, MARGIN + 3, 2 * MARGIN + 2] {
            let mut written = slice.clone();
            written.bytes[beside] ^= 1;
            assert!(!written.margins_kept(), "{beside}");
        }
    }

    #[test]
    fn a_byte_written_into_the_slice_leaves_the_margins() {
        let mut slice = Guarded::new(&[1, 2, 3], [9; MARGIN]);
        slice.content_mut().copy_from_slice(&[4, 5, 6]);
        assert!(slice.margins_kept());
        assert_eq!(slice.content(), [4, 5, 6]);
    }
}
