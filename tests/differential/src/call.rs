//! One call, and how it is made on an implementation.

use std::fmt;

use reference::{Entry, Implementation, Replayed, Reply, Request, Tables};

#[derive(Clone, Debug)]
pub enum Call {
    Command {
        entry: Entry,
        host: u32,
        block: Vec<u8>,
        parameters: Vec<u8>,
        /// The buffer as it is lent.
        answer: Vec<u8>,
    },
    Import {
        address: u32,
        volume: u32,
    },
    Export {
        address: u32,
    },
    Reset,
    Replay {
        log: Vec<u8>,
        expected: u32,
        budget: u32,
    },
}

/// What a call hands back beside the lent bytes.
#[derive(Clone, Copy, Debug, PartialEq, Eq)]
pub enum Ending {
    Replied(Reply),
    Replayed(Replayed),
}

impl Ending {
    pub fn number(&self) -> u32 {
        match self {
            Ending::Replied(reply) => reply.number.into(),
            Ending::Replayed(replayed) => replayed.number,
        }
    }

    /// The fields by name.
    pub fn fields(&self) -> Vec<(&'static str, usize)> {
        match self {
            Ending::Replied(reply) => vec![
                ("number", reply.number.into()),
                ("status", reply.status.into()),
                ("preventers", reply.preventers.into()),
                ("lowest", reply.lowest.into()),
                ("count", reply.count as usize),
            ],
            Ending::Replayed(replayed) => vec![
                ("number", replayed.number as usize),
                ("lines", replayed.lines as usize),
                ("place", replayed.place),
                ("expected", replayed.expected as usize),
            ],
        }
    }
}

/// The slices that a call only reads.
#[derive(Clone, Copy)]
pub struct Lent<'a> {
    pub block: &'a [u8],
    pub parameters: &'a [u8],
    pub log: &'a [u8],
}

impl Call {
    /// Empty ones where the call has none.
    pub fn lent(&self) -> Lent<'_> {
        let none = Lent {
            block: &[],
            parameters: &[],
            log: &[],
        };
        match self {
            Call::Command {
                block, parameters, ..
            } => Lent {
                block,
                parameters,
                ..none
            },
            Call::Replay { log, .. } => Lent { log, ..none },
            _ => none,
        }
    }

    /// The answer buffer as it is lent, empty where the call has none.
    pub fn answer(&self) -> &[u8] {
        match self {
            Call::Command { answer, .. } => answer,
            _ => &[],
        }
    }

    /// Makes the call with these slices in place of the call's own.
    pub fn make(
        &self,
        implementation: &dyn Implementation,
        tables: Tables,
        lent: Lent,
        answer: &mut [u8],
    ) -> Ending {
        let reply = match *self {
            Call::Command { entry, host, .. } => {
                let request = Request {
                    host,
                    block: lent.block,
                    parameters: lent.parameters,
                    answer,
                };
                implementation.enter(entry, tables, request)
            }
            Call::Import { address, volume } => implementation.import(tables, address, volume),
            Call::Export { address } => implementation.export(tables, address),
            Call::Reset => implementation.reset(tables),
            Call::Replay {
                expected, budget, ..
            } => {
                let replayed = implementation.replay(tables, lent.log, expected, budget);
                return Ending::Replayed(replayed);
            }
        };
        Ending::Replied(reply)
    }
}

pub fn hex(bytes: &[u8]) -> String {
    if bytes.is_empty() {
        return "(none)".into();
    }
    let pairs: Vec<String> = bytes.iter().map(|byte| format!("{byte:02x}")).collect();
    pairs.join(" ")
}

impl fmt::Display for Call {
    fn fmt(&self, out: &mut fmt::Formatter) -> fmt::Result {
        match self {
            Call::Command {
                entry,
                host,
                block,
                parameters,
                answer,
            } => {
                writeln!(out, "  entry {entry:?}, host {host}")?;
                writeln!(out, "  block ({}): {}", block.len(), hex(block))?;
                writeln!(
                    out,
                    "  parameters ({}): {}",
                    parameters.len(),
                    hex(parameters)
                )?;
                writeln!(out, "  answer buffer: {} bytes", answer.len())
            }
            Call::Import { address, volume } => {
                writeln!(out, "  import, address {address:#x}, volume {volume}")
            }
            Call::Export { address } => writeln!(out, "  export, address {address:#x}"),
            Call::Reset => writeln!(out, "  reset"),
            Call::Replay {
                log,
                expected,
                budget,
            } => {
                writeln!(out, "  replay, expected {expected}, budget {budget}")?;
                writeln!(out, "  log ({}):", log.len())?;
                for line in log.split_inclusive(|&byte| byte == b'\n') {
                    writeln!(out, "    {}", line.escape_ascii())?;
                }
                Ok(())
            }
        }
    }
}
