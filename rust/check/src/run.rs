//! How many inputs a test takes, and its threads.

use std::env;
use std::ops::Range;
use std::panic;
use std::thread;

/// The number in an environment variable, or the default.
///
/// # Panics
///
/// Where the variable is set and is no number.
pub fn variable(name: &str, default: u64) -> u64 {
    let Ok(text) = env::var(name) else {
        return default;
    };
    let number = match text.strip_prefix("0x") {
        Some(digits) => u64::from_str_radix(digits, 16),
        None => text.parse(),
    };
    number.unwrap_or_else(|_| panic!("{name} is no number: {text}"))
}

/// The share `part` of `parts` of a number of inputs.
pub fn share(total: u64, part: u64, parts: u64) -> Range<u64> {
    total * part / parts..total * (part + 1) / parts
}

/// Runs `work` on every share of a number of inputs, a thread for each processor.
pub fn in_threads<T: Send>(total: u64, work: impl Fn(Range<u64>) -> T + Sync) -> Vec<T> {
    in_parts(|part, parts| work(share(total, part, parts)))
}

/// Runs `work` with the number of each part and how many there are, a thread for each processor.
pub fn in_parts<T: Send>(work: impl Fn(u64, u64) -> T + Sync) -> Vec<T> {
    let parts = thread::available_parallelism().map_or(2, |n| n.get() as u64);
    thread::scope(|scope| {
        let work = &work;
        let run = |part| scope.spawn(move || work(part, parts));
        let threads: Vec<_> = (0..parts).map(run).collect();
        let joined = threads.into_iter().map(|thread| match thread.join() {
            Ok(done) => done,
            Err(panic) => panic::resume_unwind(panic),
        });
        joined.collect()
    })
}
