//! What a run goes through, round after round until its calls are used up.

mod arms;
mod blocks;
mod cartridges;
mod cuts;
mod events;
mod libraries;
mod modes;
mod panel;
mod replays;
mod reserving;
mod searches;
mod shelves;
mod unsound;
mod wide;

use std::any::Any;
use std::panic::{catch_unwind, AssertUnwindSafe};

use reference::Implementation;

use crate::harness::{Harness, Limits, Report, Subject};
use crate::random::Random;

type Scenario = fn(&mut Harness, &mut Random, usize);

macro_rules! named {
    ($($family:ident::$name:ident),* $(,)?) => { [$((stringify!($name), $family::$name as Scenario)),*] };
}

const SCENARIOS: [(&str, Scenario); 62] = named![
    libraries::small_library,
    libraries::plausible_calls,
    libraries::history,
    libraries::moves,
    libraries::most_transports,
    shelves::moves_of_each_kind,
    shelves::exchanges_of_each_kind,
    shelves::sources_of_each_kind,
    panel::past_255_and_back,
    panel::wrong_numbers,
    cartridges::moves_to_drives,
    cartridges::exchanges_by_drives,
    cartridges::order_of_refusals,
    cartridges::unfit_tables,
    cartridges::imports_and_replays,
    arms::each_holder,
    arms::whatever_is_wrong_besides,
    arms::replayed,
    searches::bit_by_bit,
    searches::cuts,
    searches::edges_of_descriptors,
    searches::templates,
    searches::wild_cards,
    searches::one_byte_differs,
    searches::holders,
    searches::fields,
    searches::requests,
    searches::last_address,
    searches::between,
    searches::replayed,
    searches::any_search,
    blocks::early_steps,
    unsound::each_clause_broken,
    unsound::pairs_of_clauses_broken,
    unsound::one_bit_of_the_tables_flipped,
    unsound::ragged_tables,
    wide::tables,
    blocks::bits_of_blocks_flipped,
    blocks::block_lengths,
    blocks::parameter_lengths,
    wide::requests,
    reserving::reserve_lists,
    reserving::reserve_conflicts,
    cuts::listing_cuts,
    cuts::largest_listing,
    cuts::sense_cuts,
    modes::mode_cuts,
    modes::mode_fields,
    modes::many_transports,
    blocks::hosts,
    events::events_at_the_edges,
    events::preventers,
    replays::cut_logs,
    replays::line_by_line,
    replays::each_command,
    replays::broken_logs,
    replays::first_numbers,
    replays::long_lines,
    replays::wide_logs,
    replays::one_byte_changed,
    replays::no_logs,
    replays::unsound_tables,
];

/// Compares the subjects with what is expected. The same seed gives the same calls. A scenario that panics is
/// noted, and the run goes on with the next one.
pub fn run(
    expected: &dyn Implementation,
    subjects: &[Subject],
    limits: Limits,
    seed: u64,
) -> Report {
    let mut harness = Harness::new(expected, subjects, limits);
    let mut random = Random::new(seed);
    for round in 0.. {
        for (name, scenario) in SCENARIOS {
            // Each scenario makes its own tables, so nothing half done is used again.
            let went = AssertUnwindSafe(|| scenario(&mut harness, &mut random, round));
            if let Err(panic) = catch_unwind(went) {
                harness.break_off(name, words(&*panic));
            }
            if harness.is_done() {
                return harness.into_report();
            }
        }
    }
    unreachable!("every round makes calls or breaks off")
}

/// What a panic said.
fn words(panic: &dyn Any) -> &str {
    let literal = panic.downcast_ref::<&str>().copied();
    let formatted = panic.downcast_ref::<String>().map(String::as_str);
    literal.or(formatted).unwrap_or("no reason was given")
}

fn pairs<A: Copy, B: Copy>(some: &[A], others: &[B]) -> Vec<(A, B)> {
    let with_each = |one: &A| {
        others
            .iter()
            .map(|other| (*one, *other))
            .collect::<Vec<_>>()
    };
    some.iter().flat_map(with_each).collect()
}
