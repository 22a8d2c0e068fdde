//! Import, export and reset.

use crate::library::{Attention, Element, Host, HostNumber, Kind, Labels, Library};
use crate::refusal::Refusal;
use crate::rules::{Mutation, Rules};
use crate::Lent;

pub(crate) fn import(
    library: &mut Library,
    lent: Lent,
    (address, volume): (u32, u32),
    rules: Rules,
) -> Result<(), Refusal> {
    let address = import_export_element(library, address, rules)?;
    let late = rules.broken_by(Mutation::PreventionJudgedAfterOccupancy);
    if late && library.elements[&address].is_full() {
        return Err(Refusal::ElementFullOrEmpty);
    }
    judge_prevention(library, rules)?;
    if library.elements[&address].is_full() {
        return Err(Refusal::ElementFullOrEmpty);
    }
    let volume = new_volume(library, lent.labels, volume, rules)?;
    // "Import isn't affected."
    let judged = rules.broken_by(Mutation::ImportNeedsADrive);
    if judged && !lent.cartridges.has_drive_for(volume, rules) {
        return Err(Refusal::VolumeNumber);
    }
    change(library, address, |element| {
        element.volume = Some(volume);
        element.source = None;
        element.hand_mark = true;
        if rules.broken_by(Mutation::ImportFreesTheElement) {
            element.reservation = None;
        }
    });
    let over_all = rules.broken_by(Mutation::ImportOverwritesResetAttention);
    set_attention(library, |host| host.attention.is_none() || over_all);
    if rules.broken_by(Mutation::ImportEndsSearch) {
        library.search = None;
    }
    Ok(())
}

pub(crate) fn export(library: &mut Library, address: u32, rules: Rules) -> Result<(), Refusal> {
    let address = import_export_element(library, address, rules)?;
    judge_prevention(library, rules)?;
    if !library.elements[&address].is_full() {
        return Err(Refusal::ElementFullOrEmpty);
    }
    change(library, address, |element| {
        element.leave();
    });
    let tells_none = rules.broken_by(Mutation::ExportTellsNoHost);
    set_attention(library, |host| host.attention.is_none() && !tells_none);
    Ok(())
}

pub(crate) fn reset(library: &mut Library, rules: Rules) {
    library.unit_holder = None;
    // "A new search replaces it; reset clears it."
    if !rules.broken_by(Mutation::ResetKeepsSearch) {
        library.search = None;
    }
    for element in library.elements.values_mut() {
        element.reservation = None;
    }
    if !rules.broken_by(Mutation::ResetKeepsPreventMask) {
        library.preventing.clear();
    }
    let keeps_older = rules.broken_by(Mutation::ResetKeepsOlderAttention);
    for number in HostNumber::all() {
        let host = library.host(number);
        let older = host.attention.filter(|_| keeps_older);
        *host = Host {
            sense: None,
            attention: older.or(Some(Attention::Reset)),
        };
    }
}

fn import_export_element(library: &Library, address: u32, rules: Rules) -> Result<u16, Refusal> {
    let address = match rules.broken_by(Mutation::EventAddressCutToTwoBytes) {
        true => Some(address as u16),
        false => u16::try_from(address).ok(),
    };
    address
        .filter(|&address| library.kind_at(address) == Some(Kind::ImportExport))
        .ok_or(Refusal::NoImportExportElement)
}

fn judge_prevention(library: &Library, rules: Rules) -> Result<(), Refusal> {
    let preventing = &library.preventing;
    let told = match rules.broken_by(Mutation::HighestPreventerTold) {
        true => preventing.last(),
        false => preventing.first(),
    };
    match told {
        None => Ok(()),
        Some(host) => Err(Refusal::Prevented {
            preventers: preventing.len() as u8,
            lowest: host.number(),
        }),
    }
}

/// "volume number 0, above V, or already in the library"
fn new_volume(
    library: &Library,
    labels: Labels,
    volume: u32,
    rules: Rules,
) -> Result<u16, Refusal> {
    let volume = match rules.broken_by(Mutation::ImportedVolumeCutToTwoBytes) {
        true => Some(volume as u16),
        false => u16::try_from(volume).ok(),
    };
    let is_new = |&volume: &u16| {
        let known = volume >= 1 && usize::from(volume) <= labels.volumes();
        known && !library.contains_volume(volume)
    };
    volume.filter(is_new).ok_or(Refusal::VolumeNumber)
}

fn change(library: &mut Library, address: u16, how: impl FnOnce(&mut Element)) {
    if let Some(element) = library.elements.get_mut(&address) {
        how(element);
    }
}

fn set_attention(library: &mut Library, is_told: impl Fn(&Host) -> bool) {
    for number in HostNumber::all() {
        let host = library.host(number);
        if is_told(host) {
            host.attention = Some(Attention::ImportOrExport);
        }
    }
}
