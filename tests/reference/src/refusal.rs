//! The house numbers.

use crate::interface::Reply;
use crate::soundness::Clause;

#[derive(Clone, Copy, Debug, PartialEq, Eq)]
pub enum Refusal {
    NotSound(Clause),
    NoSuchHost,
    BlockLength,
    ParameterBytes,
    AnswerBufferTooShort,
    NoImportExportElement,
    Prevented { preventers: u8, lowest: u8 },
    ElementFullOrEmpty,
    VolumeNumber,
}

impl Refusal {
    pub fn number(self) -> u8 {
        match self {
            Refusal::NotSound(_) => 1,
            Refusal::NoSuchHost => 2,
            Refusal::BlockLength => 3,
            Refusal::ParameterBytes => 4,
            Refusal::AnswerBufferTooShort => 5,
            Refusal::NoImportExportElement => 6,
            Refusal::Prevented { .. } => 7,
            Refusal::ElementFullOrEmpty => 8,
            Refusal::VolumeNumber => 9,
        }
    }

    pub fn reply(self) -> Reply {
        let (preventers, lowest) = match self {
            Refusal::Prevented { preventers, lowest } => (preventers, lowest),
            _ => (0, 0),
        };
        Reply {
            number: self.number(),
            preventers,
            lowest,
            ..Reply::default()
        }
    }
}
