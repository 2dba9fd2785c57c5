//! How often each call gave each refusal, each search its ending, and what else came up.

use crate::CALLS;
use std::collections::BTreeMap;
use std::fmt;

pub struct Figures {
    refusals: [BTreeMap<u32, u64>; CALLS.len()],
    endings: [u64; 6],
    cases: [u64; CASES.len()],
}

/// What a fuzz run is to come upon: cases of locks, of the order, of flips, of picks, of counts, of
/// the least among them, and of the choice by Novelty+.
pub const CASES: [&str; 32] = [
    "stuck",
    "found with locks",
    "opened against locks",
    "counts of a locked variable",
    "changed locks refused",
    "changed order refused",
    "flip of an unnamed variable",
    "flip that one rule names",
    "flip that several rules name",
    "discarded",
    "noise discarded",
    "ended among discards",
    "kept below a limit",
    "kept at the top",
    "high starts",
    "cut count",
    "uncut count at the cap",
    "count below the cap",
    "least cut alone",
    "least cut ties",
    "least below the cap",
    "least uncut at the cap",
    "uncut at the cap beside cut",
    "uncut beside cut",
    "novelty walk",
    "novelty alone",
    "novelty first",
    "novelty first again",
    "novelty second",
    "novelty tie by age",
    "novelty tie by number",
    "novelty cut",
];

/// By the numbers of the C interface.
const ENDINGS: [&str; 6] = [
    "refused",
    "floor",
    "ended",
    "none",
    "short-found",
    "short-none",
];

impl Figures {
    pub fn new() -> Figures {
        Figures {
            refusals: Default::default(),
            endings: [0; 6],
            cases: [0; CASES.len()],
        }
    }

    pub fn count(&mut self, call: usize, refusal: u32) {
        *self.refusals[call].entry(refusal).or_default() += 1;
    }

    pub fn end(&mut self, ending: u32) {
        self.endings[ending as usize] += 1;
    }

    /// Counts one of the cases where it came up.
    pub fn note(&mut self, case: &str, came_up: bool) {
        let case = CASES.iter().position(|&name| name == case).unwrap();
        self.cases[case] += came_up as u64;
    }

    /// How often one of the cases came up.
    pub fn noted(&self, case: &str) -> u64 {
        let case = CASES.iter().position(|&name| name == case).unwrap();
        self.cases[case]
    }

    /// How often a call gave a refusal, or 0 for none.
    pub fn met(&self, call: &str, refusal: u32) -> u64 {
        let call = CALLS.iter().position(|&name| name == call).unwrap();
        self.refusals[call].get(&refusal).copied().unwrap_or(0)
    }

    /// How often a search came to an ending.
    pub fn ended(&self, ending: &str) -> u64 {
        let ending = ENDINGS.iter().position(|&name| name == ending).unwrap();
        self.endings[ending]
    }
}

impl Default for Figures {
    fn default() -> Figures {
        Figures::new()
    }
}

impl fmt::Display for Figures {
    fn fmt(&self, f: &mut fmt::Formatter) -> fmt::Result {
        for (call, refusals) in CALLS.iter().zip(&self.refusals) {
            let total: u64 = refusals.values().sum();
            write!(f, "{call:7}{total:9} calls:")?;
            for (refusal, count) in refusals {
                match refusal {
                    0 => write!(f, " accepted: {count}")?,
                    refusal => write!(f, " {refusal}: {count}")?,
                }
            }
            writeln!(f)?;
        }
        write!(f, "endings of searches:")?;
        for (name, count) in ENDINGS.iter().zip(self.endings) {
            write!(f, " {name}: {count}")?;
        }
        write!(f, "\nlocks, order, flips, picks, counts and choices:")?;
        for (name, count) in CASES.iter().zip(self.cases) {
            write!(f, " {name}: {count}")?;
        }
        writeln!(f)
    }
}
