//! fuzz SECONDS SEED [COUNT]: the cases of a seed for so many seconds, or so many cases if that
//! comes first; then how often each call gave each refusal. It stops at the first case in which the
//! library and the reference differ, and says which it was.

use std::process::exit;
use std::time::{Duration, Instant};

fn main() {
    let numbers: Option<Vec<u64>> = std::env::args().skip(1).map(|a| a.parse().ok()).collect();
    let (seconds, seed, count) = match numbers.as_deref() {
        Some(&[seconds, seed]) => (seconds, seed, u64::MAX),
        Some(&[seconds, seed, count]) => (seconds, seed, count),
        _ => {
            eprintln!("usage: fuzz SECONDS SEED [COUNT]");
            exit(2);
        }
    };
    let begin = Instant::now();
    let limit = Duration::from_secs(seconds);
    let figures = fuzz::run(seed, |number| number < count && begin.elapsed() < limit);
    print!("{figures}");
}
