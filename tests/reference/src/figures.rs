//! Figures over many runs (document 02, T-11; Marsaglia, "Xorshift RNGs", 2003).

use crate::plan::Plan;
use crate::walk::{self, Answer, Settings};

/// The most runs, and the most numbers that each takes.
pub const MOST_RUNS: u32 = 1_000;
pub const MOST_NUMBERS: u32 = 16_384;

/// The bytes of the most numbers of a run.
pub const NUMBERS: usize = 4 * MOST_NUMBERS as usize;

/// Marsaglia's xorwow: five words, and a counter that rises by 362,437 and begins again past
/// 4,294,967,295.
#[derive(Clone, Copy, Debug, PartialEq, Eq)]
pub struct Xorwow {
    pub words: [u32; 5],
    pub counter: u32,
}

impl Xorwow {
    /// "t=(x^(x>>2)); x=y; y=z; z=w; w=v; v=(v^(v<<4))^(t^(t<<1)); return (d+=362437)+v;"
    pub fn draw(&mut self) -> u32 {
        let [x, y, z, w, v] = self.words;
        let t = x ^ (x >> 2);
        let newest = (v ^ (v << 4)) ^ (t ^ (t << 1));
        self.words = [y, z, w, v, newest];
        self.counter = self.counter.wrapping_add(362_437);
        self.counter.wrapping_add(newest)
    }
}

/// What is tried: a state, so many runs, and so many numbers for each.
#[derive(Clone, Copy, Debug, PartialEq, Eq)]
pub struct Trial {
    pub state: Xorwow,
    pub runs: u32,
    pub count: u32,
}

impl Trial {
    /// "41 for five zero state words, 42 for run count, 43 for numbers per run, in that order".
    pub fn refusal(&self) -> Option<u32> {
        if self.state.words == [0; 5] {
            Some(41)
        } else if self.runs == 0 || self.runs > MOST_RUNS {
            Some(42)
        } else if self.count == 0 || self.count > MOST_NUMBERS {
            Some(43)
        } else {
            None
        }
    }
}

/// A fraction in lowest terms with positive denominator.
pub type Fraction = (i64, u64);

fn reduced(top: i64, bottom: usize) -> Fraction {
    let bottom = bottom as u64;
    let common = (1..=bottom)
        .rev()
        .find(|&d| bottom.is_multiple_of(d) && top.unsigned_abs().is_multiple_of(d))
        .unwrap();
    (top / common as i64, bottom / common)
}

/// "The share of runs with a find, mean flips over all runs, and mean cost over the runs that found
/// one, absent with no find."
#[derive(Clone, Copy, Debug, PartialEq, Eq)]
pub struct Figures {
    pub share: Fraction,
    pub flips: Fraction,
    pub cost: Option<Fraction>,
}

/// The answer of each run, a search of its own over its numbers.
pub fn answers(plan: &Plan, settings: &Settings, trial: &Trial) -> Vec<Answer> {
    let mut state = trial.state;
    let run = |_| {
        let numbers: Vec<u32> = (0..trial.count).map(|_| state.draw()).collect();
        walk::search(plan, settings, &numbers).unwrap()
    };
    (0..trial.runs).map(run).collect()
}

/// The figures of some runs, at least one.
pub fn figures(answers: &[Answer]) -> Figures {
    let found: Vec<&Answer> = answers.iter().filter(|a| a.found().is_some()).collect();
    let flips: u64 = answers.iter().map(|answer| answer.flips).sum();
    let cost: i64 = found.iter().map(|answer| answer.cost).sum();
    Figures {
        share: reduced(found.len() as i64, answers.len()),
        flips: reduced(flips as i64, answers.len()),
        cost: (!found.is_empty()).then(|| reduced(cost, found.len())),
    }
}
