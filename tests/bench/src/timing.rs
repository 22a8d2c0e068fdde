//! Nanoseconds per call.

use std::time::{Duration, Instant};

pub const ROUNDS: usize = 301;
/// Short, so that on a busy machine most samples are not interrupted.
const SAMPLE: Duration = Duration::from_micros(150);

/// Nanoseconds per call of both, and how many times as long the one takes as the other.
#[derive(Clone, Copy)]
pub struct Times {
    pub one: f64,
    pub other: f64,
    pub ratio: f64,
}

/// The medians of many rounds. In each round one is timed after the other, and the next round begins with the other
/// one: what slows the machine down slows both down, and the ratio is that of one round. A closure makes as many
/// calls as it returns.
pub fn side_by_side(mut one: impl FnMut(u32) -> u32, mut other: impl FnMut(u32) -> u32) -> Times {
    let times = (enough(&mut one), enough(&mut other));
    let mut rounds = Vec::new();
    for round in 0..ROUNDS {
        if round % 2 == 0 {
            let first = sample(&mut one, times.0);
            rounds.push((first, sample(&mut other, times.1)));
        } else {
            let first = sample(&mut other, times.1);
            rounds.push((sample(&mut one, times.0), first));
        }
    }
    let median_of = |of: fn(&(f64, f64)) -> f64| median(rounds.iter().map(of).collect());
    Times {
        one: median_of(|round| round.0),
        other: median_of(|round| round.1),
        ratio: median_of(|round| round.0 / round.1),
    }
}

/// Seconds of each in each round. The next round begins with the next one.
pub fn in_turns<const N: usize>(rounds: u32, mut each: [&mut dyn FnMut(u32); N]) -> Vec<[f64; N]> {
    let timed = |round: u32| {
        let mut seconds = [0.0; N];
        for turn in 0..N {
            let one = (turn + round as usize) % N;
            let started = Instant::now();
            each[one](round);
            seconds[one] = started.elapsed().as_secs_f64();
        }
        seconds
    };
    (0..rounds).map(timed).collect()
}

/// How many times fill a sample; finding out warms up, too.
fn enough(calls: &mut impl FnMut(u32) -> u32) -> u32 {
    let mut times = 1;
    loop {
        let started = Instant::now();
        calls(times);
        if started.elapsed() >= SAMPLE {
            return times;
        }
        times *= 2;
    }
}

fn sample(calls: &mut impl FnMut(u32) -> u32, times: u32) -> f64 {
    let started = Instant::now();
    let made = calls(times);
    started.elapsed().as_secs_f64() * 1e9 / f64::from(made)
}

pub fn median(mut samples: Vec<f64>) -> f64 {
    samples.sort_by(f64::total_cmp);
    samples[samples.len() / 2]
}
