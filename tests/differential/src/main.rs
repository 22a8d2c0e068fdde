//! Compares the command core with the reference: `differential [--calls N] [--seed S] [--trace]`, `differential --help`.

use std::env;
use std::process::ExitCode;

use core_ffi::EmptySlices;
use differential::harness::{Limits, Report, Subject};
use differential::{scenarios, DEFAULT_CALLS, DEFAULT_SEED};
use reference::Reference;

const USAGE: &str = "usage: differential [--calls N] [--seed S] [--trace]";

const HELP: &str = "Makes the same calls on the command core and on the reference and compares every byte.

  --calls N   how many calls; 200000 if not given
  --seed S    the calls to make, a number such as 31 or 0x1F
  --trace     write each call to standard error before it is made
  --help      this text

Exit code: 0 all calls agree and every required outcome was reached; 1 not so; 2 the arguments are wrong.";

struct Arguments {
    calls: usize,
    seed: u64,
    trace: bool,
}

fn main() -> ExitCode {
    if env::args()
        .skip(1)
        .any(|word| word == "--help" || word == "-h")
    {
        println!("{USAGE}\n\n{HELP}");
        return ExitCode::SUCCESS;
    }
    let Some(arguments) = arguments(env::args().skip(1)) else {
        eprintln!("{USAGE}");
        return ExitCode::from(2);
    };
    let with_pointers = core_ffi::core(EmptySlices::Pointer);
    let with_nulls = core_ffi::core(EmptySlices::Null);
    let subjects = [
        Subject {
            name: "core",
            implementation: &with_pointers,
        },
        Subject {
            name: "core with null pointers for empty slices",
            implementation: &with_nulls,
        },
    ];
    println!(
        "seed {0} ({0:#X}), {1} calls",
        arguments.seed, arguments.calls
    );
    let limits = Limits {
        calls: arguments.calls,
        stop_at_first_difference: false,
        trace: arguments.trace,
    };
    let report = scenarios::run(&Reference::default(), &subjects, limits, arguments.seed);
    conclude(&report)
}

fn arguments(mut given: impl Iterator<Item = String>) -> Option<Arguments> {
    let mut arguments = Arguments {
        calls: DEFAULT_CALLS,
        seed: DEFAULT_SEED,
        trace: false,
    };
    while let Some(name) = given.next() {
        match name.as_str() {
            "--calls" => arguments.calls = given.next()?.parse().ok().filter(|&calls| calls > 0)?,
            "--seed" => arguments.seed = number(&given.next()?)?,
            "--trace" => arguments.trace = true,
            _ => return None,
        }
    }
    Some(arguments)
}

/// In decimal, or in hexadecimal behind 0x.
fn number(text: &str) -> Option<u64> {
    let lower = text.to_ascii_lowercase();
    match lower.strip_prefix("0x") {
        // A sign would be taken too.
        Some(digits) if digits.starts_with(|first: char| first.is_ascii_hexdigit()) => {
            u64::from_str_radix(digits, 16).ok()
        }
        Some(_) => None,
        None => text.parse().ok(),
    }
}

/// An outcome that was never reached is a failure like a call that differs, and so is a scenario that broke off.
fn conclude(report: &Report) -> ExitCode {
    println!("outcomes reached:\n{}", report.tally);
    for text in &report.shown {
        println!("{text}");
    }
    for text in &report.broken_off {
        println!("broke off: {text}");
    }
    let missing = report.tally.missing();
    for outcome in &missing {
        println!("never reached: {outcome}");
    }
    let failed = report.failed + report.broken_off.len() + missing.len();
    println!("{} passed, {failed} failed", report.calls - report.failed);
    match failed {
        0 => ExitCode::SUCCESS,
        _ => ExitCode::FAILURE,
    }
}
