//! Sense, attention and REQUEST SENSE.

use crate::command::{Call, Command, Unsuccessful};
use crate::library::{Host, HostNumber, Library, Sense};
use crate::rules::Mutation;

pub(crate) fn store(library: &mut Library, call: &Call, sense: Sense) {
    library.host(call.host).sense = Some(sense);
    if call.broken_by(Mutation::SenseSharedByAllHosts) {
        for host in HostNumber::all() {
            library.host(host).sense = Some(sense);
        }
    }
}

/// "Attention pending and not REQUEST SENSE: 6 with its codes, attention cleared."
pub(crate) fn tell_attention(library: &mut Library, call: &Call) -> Result<(), Unsuccessful> {
    if call.command() == Some(Command::RequestSense) {
        return Ok(());
    }
    match library.host(call.host).attention.take() {
        Some(attention) => Err(Unsuccessful::CheckCondition(attention.sense())),
        None => Ok(()),
    }
}

pub(crate) fn request_sense(library: &mut Library, call: &Call) -> Vec<u8> {
    let host = library.host(call.host);
    let before = *host;
    let told = if call.broken_by(Mutation::AttentionToldBeforeSense) {
        take_attention(host).or_else(|| host.sense.take())
    } else {
        host.sense.take().or_else(|| take_attention(host))
    };
    // "What was told is cleared, allocation 0 included."
    if call.broken_by(Mutation::ToldSenseStays) {
        *host = before;
    }
    let mut bytes = sense_bytes(told);
    bytes.truncate(call.allocation());
    bytes
}

fn take_attention(host: &mut Host) -> Option<Sense> {
    host.attention.take().map(|attention| attention.sense())
}

fn sense_bytes(told: Option<Sense>) -> Vec<u8> {
    let (key, asc, ascq) = told.map_or((0, 0, 0), |sense| (sense.key, sense.asc, sense.ascq));
    let mut bytes = vec![0x70, 0, key, 0, 0, 0, 0, 0x0A];
    bytes.extend([0, 0, 0, 0, asc, ascq, 0, 0, 0, 0]);
    bytes
}
