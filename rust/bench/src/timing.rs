//! Times of calls that take turns.

use std::hint::black_box;
use std::ops::{Add, Sub};
use std::time::{Duration, Instant};

/// How many rounds there are.
pub const ROUNDS: usize = 31;
/// How many there are of calls that take long.
pub const FEW_ROUNDS: usize = 5;
/// What is long.
const LONG: Duration = Duration::from_millis(500);
/// A round repeats a short call until it has taken about this long.
const ROUND_TIME: Duration = Duration::from_millis(4);

/// A call that is measured. Its answer only keeps the compiler from leaving it out.
pub type Call<'a> = &'a mut dyn FnMut() -> usize;

/// Seconds for one call: the median over the rounds, the least, and the quartile above the median.
#[derive(Clone, Copy)]
pub struct Time {
    pub least: f64,
    pub median: f64,
    pub high: f64,
}

impl Time {
    fn of(mut times: Vec<f64>) -> Time {
        times.sort_by(f64::total_cmp);
        let at = |quarter: usize| times[(times.len() - 1) * quarter / 4];
        Time {
            least: at(0),
            median: at(2),
            high: at(3),
        }
    }
}

impl Add for Time {
    type Output = Time;

    fn add(self, other: Time) -> Time {
        Time {
            least: self.least + other.least,
            median: self.median + other.median,
            high: self.high + other.high,
        }
    }
}

impl Sub for Time {
    type Output = Time;

    /// What is left of a time without a part that was measured beside it.
    fn sub(self, other: Time) -> Time {
        Time {
            least: self.least - other.least,
            median: self.median - other.median,
            high: self.high - other.median,
        }
    }
}

/// How long `times` calls take.
fn time(times: u32, call: Call) -> Duration {
    let start = Instant::now();
    for _ in 0..times {
        black_box(call());
    }
    start.elapsed()
}

/// The time of each call. In each round all are called in turn, and the one that goes first changes.
pub fn times<const N: usize>(mut calls: [Call; N]) -> [Time; N] {
    let long = calls.iter_mut().any(|call| time(1, *call) > LONG);
    times_of(if long { FEW_ROUNDS } else { ROUNDS }, calls)
}

/// The same over so many rounds, for calls that take seconds.
pub fn times_of<const N: usize>(rounds: usize, mut calls: [Call; N]) -> [Time; N] {
    let repeats = calls.each_mut().map(|call| repeats(*call));
    let mut lists = [(); N].map(|()| Vec::with_capacity(rounds));
    for round in 0..rounds {
        for turn in 0..N {
            let chosen = (round + turn) % N;
            let taken = time(repeats[chosen], calls[chosen]).as_secs_f64();
            lists[chosen].push(taken / f64::from(repeats[chosen]));
        }
    }
    lists.map(Time::of)
}

/// How often a call is repeated in a round.
fn repeats(call: Call) -> u32 {
    let once = time(1, &mut *call)
        .min(time(1, call))
        .max(Duration::from_nanos(20));
    (ROUND_TIME.as_nanos() / once.as_nanos()).clamp(1, 100_000) as u32
}

/// The times of the library and of what stands beside it, which answer alike.
pub fn compare(
    mut library: impl FnMut() -> usize,
    mut other: impl FnMut() -> usize,
) -> (Time, Time) {
    // The first calls also see to it that the output's pages are there.
    assert_eq!(library(), other(), "the two answer alike");
    let [library, other] = times([&mut library, &mut other]);
    (library, other)
}
