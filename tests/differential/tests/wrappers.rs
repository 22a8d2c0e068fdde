//! Code between a front end and the core that is wrong only for long slices and large numbers, the largest listing or the last of
//! many transports. Each must be found within a run of the default size.

use std::mem::take;

use differential::harness::{Limits, Subject};
use differential::scene::HEAD_LENGTH;
use differential::{scenarios, DEFAULT_CALLS, DEFAULT_SEED};
use reference::{Entry, Implementation, Reference, Replayed, Reply, Request, Tables};

#[derive(Clone, Copy, Debug)]
enum Mistake {
    BlockCutToOneByte,
    BlockCutToTwoBytes,
    ParametersCutToTwoBytes,
    AnswerCutToTwoBytes,
    HeadCutToOneByte,
    HeadCutToTwoBytes,
    ElementsCutToTwoBytes,
    TagsCutToTwoBytes,
    BlankCutToTwoBytes,
    GenerationsCutToOneByte,
    GenerationsCutToTwoBytes,
    MasksCutToOneByte,
    MasksCutToTwoBytes,
    SearchCutToOneByte,
    SearchCutToTwoBytes,
    LargestListingSpoiled,
    LastTransportRefused,
    LogCutToOneByte,
    LogCutToTwoBytes,
    ExpectedCutToTwoBytes,
    BudgetCutToOneByte,
    BudgetCutToTwoBytes,
    PlaceCutToTwoBytes,
}

const MISTAKES: [Mistake; 23] = [
    Mistake::BlockCutToOneByte,
    Mistake::BlockCutToTwoBytes,
    Mistake::ParametersCutToTwoBytes,
    Mistake::AnswerCutToTwoBytes,
    Mistake::HeadCutToOneByte,
    Mistake::HeadCutToTwoBytes,
    Mistake::ElementsCutToTwoBytes,
    Mistake::TagsCutToTwoBytes,
    Mistake::BlankCutToTwoBytes,
    Mistake::GenerationsCutToOneByte,
    Mistake::GenerationsCutToTwoBytes,
    Mistake::MasksCutToOneByte,
    Mistake::MasksCutToTwoBytes,
    Mistake::SearchCutToOneByte,
    Mistake::SearchCutToTwoBytes,
    Mistake::LargestListingSpoiled,
    Mistake::LastTransportRefused,
    Mistake::LogCutToOneByte,
    Mistake::LogCutToTwoBytes,
    Mistake::ExpectedCutToTwoBytes,
    Mistake::BudgetCutToOneByte,
    Mistake::BudgetCutToTwoBytes,
    Mistake::PlaceCutToTwoBytes,
];

struct Wrapper {
    mistake: Mistake,
}

/// As many bytes as a length of one byte, or of two, can say.
fn cut(bytes: &[u8], limit: usize) -> &[u8] {
    &bytes[..bytes.len() % limit]
}

fn cut_mut(bytes: &mut &mut [u8], limit: usize) {
    let length = bytes.len() % limit;
    *bytes = &mut take(bytes)[..length];
}

impl Wrapper {
    fn hand_on<'a>(&self, mut tables: Tables<'a>) -> Tables<'a> {
        match self.mistake {
            Mistake::HeadCutToOneByte => cut_mut(&mut tables.head, 256),
            Mistake::HeadCutToTwoBytes => cut_mut(&mut tables.head, 65_536),
            Mistake::ElementsCutToTwoBytes => cut_mut(&mut tables.elements, 65_536),
            Mistake::TagsCutToTwoBytes => tables.tags = cut(tables.tags, 65_536),
            Mistake::BlankCutToTwoBytes => tables.blank = cut(tables.blank, 65_536),
            Mistake::GenerationsCutToOneByte => tables.generations = cut(tables.generations, 256),
            Mistake::GenerationsCutToTwoBytes => {
                tables.generations = cut(tables.generations, 65_536)
            }
            Mistake::MasksCutToOneByte => tables.masks = cut(tables.masks, 256),
            Mistake::MasksCutToTwoBytes => tables.masks = cut(tables.masks, 65_536),
            Mistake::SearchCutToOneByte => cut_mut(&mut tables.search, 256),
            Mistake::SearchCutToTwoBytes => cut_mut(&mut tables.search, 65_536),
            _ => {}
        }
        tables
    }
}

fn names_last_transport(head: &[u8], block: &[u8]) -> bool {
    let two = |bytes: &[u8], at: usize| u32::from(u16::from_be_bytes([bytes[at], bytes[at + 1]]));
    let readable = head.len() == HEAD_LENGTH && block.len() == 12 && block[0] == 0xA5;
    readable && two(head, 2) == 127 && two(block, 2) == two(head, 0) + 126
}

impl Implementation for Wrapper {
    fn enter(&self, entry: Entry, tables: Tables, request: Request) -> Reply {
        let Request {
            host,
            mut block,
            mut parameters,
            mut answer,
        } = request;
        let last_transport = names_last_transport(tables.head, block);
        match self.mistake {
            Mistake::BlockCutToOneByte => block = cut(block, 256),
            Mistake::BlockCutToTwoBytes => block = cut(block, 65_536),
            Mistake::ParametersCutToTwoBytes => parameters = cut(parameters, 65_536),
            Mistake::AnswerCutToTwoBytes => cut_mut(&mut answer, 65_536),
            _ => {}
        }
        let request = Request {
            host,
            block,
            parameters,
            answer: &mut *answer,
        };
        let mut reply = Reference::default().enter(entry, self.hand_on(tables), request);
        match self.mistake {
            Mistake::LargestListingSpoiled if reply.count == 26_664 => answer[26_663] ^= 1,
            Mistake::LastTransportRefused if last_transport => reply.status = 0x02,
            _ => {}
        }
        reply
    }

    fn import(&self, tables: Tables, address: u32, volume: u32) -> Reply {
        Reference::default().import(self.hand_on(tables), address, volume)
    }

    fn export(&self, tables: Tables, address: u32) -> Reply {
        Reference::default().export(self.hand_on(tables), address)
    }

    fn reset(&self, tables: Tables) -> Reply {
        Reference::default().reset(self.hand_on(tables))
    }

    fn replay(&self, tables: Tables, log: &[u8], expected: u32, budget: u32) -> Replayed {
        let (mut log, mut expected, mut budget) = (log, expected, budget);
        match self.mistake {
            Mistake::LogCutToOneByte => log = cut(log, 256),
            Mistake::LogCutToTwoBytes => log = cut(log, 65_536),
            Mistake::ExpectedCutToTwoBytes => expected %= 65_536,
            Mistake::BudgetCutToOneByte => budget %= 256,
            Mistake::BudgetCutToTwoBytes => budget %= 65_536,
            _ => {}
        }
        let mut told = Reference::default().replay(self.hand_on(tables), log, expected, budget);
        if let Mistake::PlaceCutToTwoBytes = self.mistake {
            told.place %= 65_536;
        }
        told
    }
}

#[test]
fn every_wrapper_is_found() {
    for mistake in MISTAKES {
        let subject = Subject {
            name: "wrapper",
            implementation: &Wrapper { mistake },
        };
        let limits = Limits {
            calls: DEFAULT_CALLS,
            stop_at_first_difference: true,
            trace: false,
        };
        let report = scenarios::run(&Reference::default(), &[subject], limits, DEFAULT_SEED);
        assert!(report.first_difference.is_some(), "{mistake:?}");
    }
}
