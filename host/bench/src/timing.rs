//! Times of calls that take turns, so that differences and ratios come from the same moments.

use std::time::{Duration, Instant};

/// Many short runs: some of them are undisturbed.
pub const ROUNDS: usize = 200;
pub const RUN: Duration = Duration::from_millis(1);

/// A number over all rounds: from the fastest runs of what it is made of, and its median and quartiles.
#[derive(Clone, Copy)]
pub struct Spread {
    pub fastest: f64,
    pub lower: f64,
    pub median: f64,
    pub upper: f64,
}

impl Spread {
    pub fn scaled(self, scale: f64) -> Spread {
        Spread {
            fastest: scale * self.fastest,
            lower: scale * self.lower,
            median: scale * self.median,
            upper: scale * self.upper,
        }
    }
}

/// Times of each call in each round, in microseconds where they are not scaled.
pub struct Times {
    rounds: Vec<Vec<f64>>,
}

impl Times {
    /// Times calls in turn: a run of each makes a round.
    pub fn of(calls: Vec<Box<dyn FnMut() + '_>>) -> Times {
        Times::of_rounds(calls, ROUNDS)
    }

    /// The same for so many rounds, where a call is longer than a run.
    pub fn of_rounds(mut calls: Vec<Box<dyn FnMut() + '_>>, rounds: usize) -> Times {
        let counts: Vec<u32> = calls.iter_mut().map(|call| calls_in_run(call)).collect();
        let round = |_| {
            let turns = calls.iter_mut().zip(&counts);
            turns.map(|(call, &count)| run(call, count)).collect()
        };
        Times {
            rounds: (0..rounds).map(round).collect(),
        }
    }

    /// The same in another unit.
    pub fn scaled(mut self, scale: f64) -> Times {
        let all = self.rounds.iter_mut().flatten();
        all.for_each(|time| *time *= scale);
        self
    }

    pub fn call(&self, call: usize) -> Spread {
        self.pair(call, call, |time, _| time)
    }

    pub fn difference(&self, call: usize, base: usize) -> Spread {
        self.pair(call, base, |time, base| time - base)
    }

    pub fn ratio(&self, call: usize, base: usize) -> Spread {
        self.pair(call, base, |time, base| time / base)
    }

    /// A number made of two calls' times in the same round.
    fn pair(&self, a: usize, b: usize, number: fn(f64, f64) -> f64) -> Spread {
        let fastest = |call: usize| {
            let times = self.rounds.iter().map(|round| round[call]);
            times.fold(f64::INFINITY, f64::min)
        };
        let pairs = self.rounds.iter().map(|round| number(round[a], round[b]));
        let mut numbers: Vec<f64> = pairs.collect();
        numbers.sort_by(f64::total_cmp);
        Spread {
            fastest: number(fastest(a), fastest(b)),
            lower: numbers[numbers.len() / 4],
            median: numbers[numbers.len() / 2],
            upper: numbers[numbers.len() * 3 / 4],
        }
    }
}

/// How many calls fill a run.
fn calls_in_run(call: &mut dyn FnMut()) -> u32 {
    let start = Instant::now();
    let mut count = 0;
    while start.elapsed() < RUN {
        call();
        count += 1;
    }
    count
}

/// Microseconds a call in one run, after a call that is not timed.
fn run(call: &mut dyn FnMut(), count: u32) -> f64 {
    call();
    let start = Instant::now();
    for _ in 0..count {
        call();
    }
    1e6 * start.elapsed().as_secs_f64() / f64::from(count)
}
