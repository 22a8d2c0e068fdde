//! The rules of document 01, with requests One to Eight of document 02, over plain records.
//!
//! The lent bytes are read into a [`library::Library`], the rules work on that, and the result is written
//! back. It is meant to be read beside these documents and to be compared with the command core; it is not
//! meant to be fast.

mod arms;
mod bytes;
mod cartridges;
mod command;
mod element_status;
mod events;
mod interface;
pub mod library;
mod mode_sense;
mod moves;
mod panel;
mod records;
mod refusal;
mod replay;
mod reservations;
mod rules;
mod search;
mod sense;
mod soundness;

pub use interface::{Entry, Implementation, Replayed, Reply, Request, TableBytes, Tables, TABLES};
pub use refusal::Refusal;
pub use rules::{Mutation, Rules};
pub use search::Search;
pub use soundness::{check, fails_alone, Clause};

use cartridges::Cartridges;
use command::{Outcome, Unsuccessful};
use library::{Labels, Library};

/// The reference: faithful by default, with one mistake if its rules say so.
#[derive(Clone, Copy, Debug, Default)]
pub struct Reference {
    pub rules: Rules,
}

impl Reference {
    fn read(&self, tables: &Tables) -> Result<Library, Refusal> {
        let records = soundness::judge(tables, self.rules).map_err(Refusal::NotSound)?;
        Ok(records.library())
    }

    fn try_command(&self, tables: &mut Tables, request: Request) -> Result<Reply, Refusal> {
        let mut library = self.read(tables)?;
        let call = command::accept(&request, lent(tables), self.rules)?;
        let before = library.clone();
        let outcome = command::execute(&mut library, &call);
        let room = command::accept_answer_buffer(&call, &outcome, request.answer.len());
        let writes_anyway = Mutation::BufferTooShortStillClearsSense;
        if room.is_ok() || self.rules.broken_by(writes_anyway) {
            let shown = panel::shown(&before, &library, call.command(), self.rules);
            records::write(&library, shown, tables);
        }
        if self.rules.broken_by(Mutation::ToldWithoutRoom) {
            records::write_search(&library, tables);
        }
        room?;
        Ok(finish(outcome, request.answer))
    }

    /// An event that changes the library, or is refused and changes nothing.
    fn event(
        &self,
        mut tables: Tables,
        happens: impl FnOnce(&mut Library, Lent) -> Result<(), Refusal>,
    ) -> Reply {
        let result = self.read(&tables).and_then(|mut library| {
            let before = library.clone();
            happens(&mut library, lent(&tables))?;
            let shown = panel::shown(&before, &library, None, self.rules);
            records::write(&library, shown, &mut tables);
            Ok(Reply::default())
        });
        result.unwrap_or_else(Refusal::reply)
    }
}

/// What the tables that are only read say of volumes and drives.
#[derive(Clone, Copy, Debug)]
struct Lent<'a> {
    labels: Labels<'a>,
    cartridges: Cartridges<'a>,
}

fn lent<'a>(tables: &Tables<'a>) -> Lent<'a> {
    Lent {
        labels: Labels {
            tags: tables.tags,
            blank: tables.blank,
        },
        cartridges: Cartridges {
            generations: tables.generations,
            masks: tables.masks,
        },
    }
}

/// "An answer buffer keeps every byte past the count returned."
fn finish(outcome: Outcome, answer: &mut [u8]) -> Reply {
    let (status, returned) = match outcome {
        Ok(bytes) => (0x00, bytes),
        Err(Unsuccessful::CheckCondition(_)) => (0x02, Vec::new()),
        Err(Unsuccessful::ReservationConflict) => (0x18, Vec::new()),
    };
    for (place, byte) in answer.iter_mut().zip(&returned) {
        *place = *byte;
    }
    Reply {
        status,
        count: returned.len() as u32,
        ..Reply::default()
    }
}

impl Implementation for Reference {
    /// A named entry handed any block answers what the entry for any block answers.
    fn enter(&self, _: Entry, mut tables: Tables, request: Request) -> Reply {
        self.try_command(&mut tables, request)
            .unwrap_or_else(Refusal::reply)
    }

    fn import(&self, tables: Tables, address: u32, volume: u32) -> Reply {
        self.event(tables, |library, lent| {
            events::import(library, lent, (address, volume), self.rules)
        })
    }

    fn export(&self, tables: Tables, address: u32) -> Reply {
        self.event(tables, |library, _| {
            events::export(library, address, self.rules)
        })
    }

    fn reset(&self, tables: Tables) -> Reply {
        self.event(tables, |library, _| {
            events::reset(library, self.rules);
            Ok(())
        })
    }

    fn replay(&self, tables: Tables, log: &[u8], expected: u32, budget: u32) -> Replayed {
        replay::replay(self, tables, log, (expected, budget))
    }
}
