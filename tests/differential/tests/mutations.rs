//! A comparison is worth as much as the mistakes it finds. Each of these must be found within a run of the
//! default size.

use differential::harness::{Limits, Report, Subject};
use differential::{scenarios, DEFAULT_CALLS, DEFAULT_SEED};
use reference::{Clause, Mutation, Reference, Rules};

fn compare_with(rules: Rules) -> Report {
    let subject = Subject {
        name: "mutation",
        implementation: &Reference { rules },
    };
    let limits = Limits {
        calls: DEFAULT_CALLS,
        stop_at_first_difference: true,
        trace: false,
    };
    scenarios::run(&Reference::default(), &[subject], limits, DEFAULT_SEED)
}

/// The mutations that a default run does not find.
fn not_found(mutations: impl Iterator<Item = Mutation>) -> Vec<Mutation> {
    let is_missed = |mutation: &Mutation| {
        let report = compare_with(Rules::with(*mutation));
        match report.first_difference {
            Some(call) => println!("{mutation:?}: found by call {call}"),
            None => println!("{mutation:?}: not found"),
        }
        report.first_difference.is_none()
    };
    mutations.filter(is_missed).collect()
}

#[test]
fn every_single_mutation_is_found() {
    assert_eq!(not_found(Mutation::SINGLE.into_iter()), []);
}

/// Without the head's length nothing else of the head can be read, so that clause can not be left out.
#[test]
fn every_clause_that_is_not_judged_is_found() {
    let clauses = Clause::ALL.into_iter();
    let left_out = clauses.filter(|&clause| clause != Clause::HeadLength);
    assert_eq!(not_found(left_out.map(Mutation::NotJudged)), []);
}
