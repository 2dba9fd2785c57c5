//! Calls of the library with anything at all: files, tables, assignments, tallies, settings and
//! lists, lawful, damaged and random, in buffers of any length with guard bytes around them. Each
//! answer and each byte left is compared with the reference.
//!
//! A case is made from its number and the seed alone, so that one that fails can be made again.

pub mod calls;
pub mod figures;
pub mod loading;
pub mod making;
pub mod mapping;
pub mod racing;
pub mod reading;
pub mod searching;
pub mod squeezing;
pub mod trials;
pub mod writing;

use figures::Figures;
use reference::random::Random;

/// The calls, in the order in which the figures show them.
pub const CALLS: [&str; 11] = [
    "load", "read", "open", "flip", "counts", "search", "squeeze", "map", "runs", "races", "write",
];

/// One call. It panics where the library and the reference differ.
fn case(random: &mut Random, figures: &mut Figures) {
    let call = random.below(CALLS.len());
    match CALLS[call] {
        "load" => figures.count(call, loading::case(random)),
        "read" => figures.count(call, reading::case(random)),
        "squeeze" => figures.count(call, squeezing::case(random)),
        "runs" => figures.count(call, trials::case(random).refusal),
        "races" => figures.count(call, racing::case(random)),
        "map" => figures.count(call, mapping::case(random)),
        "write" => figures.count(call, writing::case(random)),
        "search" => {
            let answer = searching::case(random, figures);
            figures.count(call, answer.refusal);
            figures.end(answer.ending);
        }
        name => {
            let refusal = calls::case(random, name, figures);
            figures.count(call, refusal);
        }
    }
}

/// The cases of a seed by their numbers, from 0, for as long as `more` says so.
pub fn run(seed: u64, mut more: impl FnMut(u64) -> bool) -> Figures {
    let mut figures = Figures::new();
    let mut number = 0;
    while more(number) {
        // The number stands above the bits of any seed likely to be given, so that two seeds have
        // no case in common.
        let mut random = Random::new(seed ^ number.rotate_right(24));
        let told = Telling { seed, number };
        case(&mut random, &mut figures);
        std::mem::forget(told);
        number += 1;
    }
    figures
}

/// Tells which case it was, if it is dropped by a panic.
struct Telling {
    seed: u64,
    number: u64,
}

impl Drop for Telling {
    fn drop(&mut self) {
        eprintln!("in case {} of seed {}", self.number, self.seed);
    }
}
