//! Makes each call on every implementation and keeps count.

use std::time::{Duration, Instant};

use reference::{Implementation, Reply, TableBytes};

use crate::call::{Call, Ending};
use crate::compare::{describe, differences, make};
use crate::guarded::MARGIN;
use crate::random::Random;
use crate::tally::{Outcome, Tally};

const MOST_SHOWN: usize = 5;
/// A run that breaks off this often is over.
const MOST_BROKEN_OFF: usize = 20;

/// An implementation to be compared with what is expected.
pub struct Subject<'a> {
    pub name: &'a str,
    pub implementation: &'a dyn Implementation,
}

/// When a run ends, and what it tells on the way.
#[derive(Clone, Copy)]
pub struct Limits {
    pub calls: usize,
    pub stop_at_first_difference: bool,
    /// Each call on standard error before it is made, for a subject that does not come back from one.
    pub trace: bool,
}

#[derive(Default)]
pub struct Report {
    pub calls: usize,
    pub failed: usize,
    /// The number of the first call that differed.
    pub first_difference: Option<usize>,
    /// The shortest few differences in readable form.
    pub shown: Vec<String>,
    /// The scenarios that could not be gone through, and why.
    pub broken_off: Vec<String>,
    pub tally: Tally,
}

pub struct Harness<'a> {
    expected: &'a dyn Implementation,
    subjects: &'a [Subject<'a>],
    limits: Limits,
    margins: Random,
    progress: Progress,
    report: Report,
}

impl<'a> Harness<'a> {
    pub fn new(
        expected: &'a dyn Implementation,
        subjects: &'a [Subject<'a>],
        limits: Limits,
    ) -> Harness<'a> {
        Harness {
            expected,
            subjects,
            limits,
            margins: Random::new(0x6D61_7267_696E),
            progress: Progress::new(),
            report: Report::default(),
        }
    }

    pub fn is_done(&self) -> bool {
        let stopped =
            self.limits.stop_at_first_difference && self.report.first_difference.is_some();
        let broken_off = self.report.broken_off.len() >= MOST_BROKEN_OFF;
        stopped || broken_off || self.report.calls >= self.limits.calls
    }

    /// Notes that a scenario broke off with these words.
    pub fn break_off(&mut self, scenario: &str, why: &str) {
        let after = self.report.calls;
        let text = format!("{scenario}, after {after} calls: {why}");
        self.report.broken_off.push(text);
    }

    pub fn into_report(self) -> Report {
        self.report
    }

    /// Makes the call and carries the tables on to what is expected after it. Does nothing and tells nothing once
    /// the run is done.
    pub fn call(&mut self, tables: &mut TableBytes, call: &Call) -> Option<Ending> {
        if self.is_done() {
            return None;
        }
        let margin = self.next_margin();
        let number = self.report.calls + 1;
        if self.limits.trace {
            eprint!("call {number}\n{call}");
        }
        let expected = make(self.expected, tables, call, margin);
        let mut agrees = true;
        for subject in self.subjects {
            let found = make(subject.implementation, tables, call, margin);
            if !differences(&expected, &found).is_empty() {
                agrees = false;
                let text = describe(tables, call, &expected, &found);
                self.note(number, subject.name, &text);
            }
        }
        // A call that breaks off is none of these.
        self.report.calls = number;
        self.report.failed += usize::from(!agrees);
        self.report.tally.count(tables, call, &expected);
        self.progress.tell(self.report.calls, self.limits.calls);
        expected.carry_on(tables);
        Some(expected.ending)
    }

    /// Notes what a scenario alone can tell of the calls that it made.
    pub fn reach(&mut self, outcome: Outcome) {
        self.report.tally.reach(outcome);
    }

    /// What is expected of the call, without making it part of the run.
    pub fn expect(&mut self, tables: &TableBytes, call: &Call) -> Reply {
        make(self.expected, tables, call, [0; MARGIN]).reply()
    }

    fn next_margin(&mut self) -> [u8; MARGIN] {
        let mut margin = [0; MARGIN];
        for half in margin.chunks_mut(8) {
            half.copy_from_slice(&self.margins.word().to_be_bytes());
        }
        margin
    }

    fn note(&mut self, call: usize, subject: &str, text: &str) {
        self.report.first_difference.get_or_insert(call);
        let shown = &mut self.report.shown;
        shown.push(format!("call {call}, {subject}, differs\n{text}"));
        shown.sort_by_key(String::len);
        shown.truncate(MOST_SHOWN);
    }
}

/// A line on standard error about once a second, from the second second on.
struct Progress {
    started: Instant,
    told: Instant,
}

impl Progress {
    fn new() -> Progress {
        let now = Instant::now();
        Progress {
            started: now,
            told: now,
        }
    }

    fn tell(&mut self, calls: usize, of: usize) {
        if calls.is_multiple_of(64) && self.told.elapsed() >= Duration::from_secs(1) {
            self.told = Instant::now();
            let percent = 100 * calls / of.max(1);
            let seconds = self.started.elapsed().as_secs();
            eprintln!("{percent:>3}%  {calls} of {of} calls, {seconds} s");
        }
    }
}
