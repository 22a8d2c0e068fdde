//! Nanoseconds per call of the command core beside plain C, and lines in a second of a replay: `bench`.

use std::process::ExitCode;

use bench::days::{days, go_on, Day};
use bench::plain::plain;
use bench::rows::{rows, Row};
use bench::timing::{in_turns, median, side_by_side, Times, ROUNDS};
use core_ffi::{core, EmptySlices, Linked};

const SIZES: [u16; 3] = [7, 64, 512];
/// The lines of a log, how many of them a round replays, and how many calls it makes one by one: few, so that a sample is short.
const LINES: u32 = 1_000_000;
const LINES_A_ROUND: u32 = 2_000;
const CALLS_A_ROUND: u32 = 100;
/// The lines that are compared with the calls one by one, and with the reference.
const LINES_COMPARED: (u32, u32) = (20_000, 1_000);

fn main() -> ExitCode {
    let core = core(EmptySlices::Pointer);
    let plain = plain(EmptySlices::Pointer);
    let by_size = SIZES.map(rows);
    for (size, row) in SIZES.iter().zip(&by_size).flat_map(each_with_size) {
        if !row.agrees(&core) || !row.agrees(&plain) {
            println!("{} at {size} elements: not the outcome of the rules, so no time would mean anything", row.name);
            return ExitCode::FAILURE;
        }
    }
    let days = days();
    for day in &days {
        let (lines, on_reference) = LINES_COMPARED;
        let agree = |on: &Linked| day.agrees(on, lines, on_reference);
        if !agree(&core) || !agree(&plain) {
            println!(
                "a log of {}: not the outcome of the rules, so no time would mean anything",
                day.name
            );
            return ExitCode::FAILURE;
        }
    }
    print(&by_size, (core, plain));
    match print_replays(&days, (core, plain)) {
        true => ExitCode::SUCCESS,
        false => ExitCode::FAILURE,
    }
}

fn each_with_size<'a>(
    (size, rows): (&'a u16, &'a Vec<Row>),
) -> impl Iterator<Item = (u16, &'a Row)> {
    rows.iter().map(|row| (*size, row))
}

fn print(by_size: &[Vec<Row>; 3], (core, plain): (Linked, Linked)) {
    println!(
        "nanoseconds per call, medians of {ROUNDS} rounds in which core and plain C take turns"
    );
    println!("ratio: core to plain C; growth: 512 elements to 64, where 8 is in proportion\n");
    print!("{:<24}", "elements");
    for size in SIZES {
        print!("{:>9}{:>9}{:>7}", format!("{size} core"), "C", "ratio");
    }
    println!("{:>13}{:>7}", "growth core", "C");
    let [small, middle, large] = by_size;
    for ((small, middle), large) in small.iter().zip(middle).zip(large) {
        let times = [small, middle, large].map(|row| {
            let core = row.repeated(core.entries);
            side_by_side(core, row.repeated(plain.entries))
        });
        print!("{:<24}", small.name);
        for time in times {
            print!("{:>9.0}{:>9.0}{:>7.2}", time.one, time.other, time.ratio);
        }
        let growth = |of: fn(Times) -> f64| of(times[2]) / of(times[1]);
        let (core, plain) = (growth(|time| time.one), growth(|time| time.other));
        println!("{core:>13.1}{plain:>7.1}");
    }
}

/// Whether core and plain C ended alike.
fn print_replays(days: &[Day], (core, plain): (Linked, Linked)) -> bool {
    let rounds = LINES / LINES_A_ROUND;
    println!("\nthousands of lines in a second: a log of {LINES} lines on 512 elements, {LINES_A_ROUND} lines a call of replay");
    println!("medians of {rounds} rounds in which replay, plain C and {CALLS_A_ROUND} of the same calls by smc_command take turns");
    println!("times: lines by replay to lines by single calls; ratio: time of replay to that of plain C\n");
    println!(
        "{:<24}{:>9}{:>9}{:>7}{:>9}{:>7}",
        "lines", "replay", "single", "times", "C", "ratio"
    );
    for day in days {
        let Some(rounds) = replayed(day, (core, plain), rounds) else {
            println!("{}: core and plain C did not end alike", day.name);
            return false;
        };
        let nanoseconds = |of: fn(&[f64; 3]) -> f64| median(rounds.iter().map(of).collect());
        let [replay, single, plain] = [
            nanoseconds(|each| each[0]),
            nanoseconds(|each| each[1]),
            nanoseconds(|each| each[2]),
        ]
        .map(|nanoseconds| 1e6 / nanoseconds);
        let times = nanoseconds(|each| each[1] / each[0]);
        let ratio = nanoseconds(|each| each[0] / each[2]);
        println!(
            "{:<24}{replay:>9.0}{single:>9.0}{times:>7.1}{plain:>9.0}{ratio:>7.2}",
            day.name
        );
    }
    true
}

/// Nanoseconds a line in each round of a log: replayed, by single calls, replayed by plain C. Each goes on with its own tables; none where
/// the two replays do not end alike.
fn replayed(day: &Day, (core, plain): (Linked, Linked), rounds: u32) -> Option<Vec<[f64; 3]>> {
    let log = day.log(rounds * LINES_A_ROUND);
    let [mut ours, mut made, mut theirs] = [0; 3].map(|_| day.tables());
    let [mut here, mut there] = [0, 0];
    let expected = |round: u32| round * LINES_A_ROUND + 1;
    let seconds = in_turns(
        rounds,
        [
            &mut |round| {
                let from = (here, expected(round));
                here = go_on(core.entries, &mut ours, &log, from, LINES_A_ROUND);
            },
            &mut |round| {
                let from = round * CALLS_A_ROUND;
                day.one_by_one(core.entries, &mut made, from, CALLS_A_ROUND);
            },
            &mut |round| {
                let from = (there, expected(round));
                there = go_on(plain.entries, &mut theirs, &log, from, LINES_A_ROUND);
            },
        ],
    );
    let a_line = |[ours, single, theirs]: [f64; 3]| {
        let [lines, calls] = [LINES_A_ROUND, CALLS_A_ROUND].map(|many| f64::from(many) / 1e9);
        [ours / lines, single / calls, theirs / lines]
    };
    let alike = (here, &ours) == (there, &theirs) && here == log.len();
    alike.then(|| seconds.into_iter().map(a_line).collect())
}
