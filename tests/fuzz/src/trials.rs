//! Many runs on any tables, under any settings, from any state.

use crate::making;
use crate::searching::settings;
use harness::planner::Figures;
use harness::searching::{Lent, SIZES};
use reference::figures::{Trial, Xorwow, MOST_NUMBERS, MOST_RUNS, NUMBERS};
use reference::random::Random;

/// A state: any words, few of them set at times, or none.
fn state(random: &mut Random) -> Xorwow {
    let set = [100, 30, 0][random.below(10).saturating_sub(7)];
    let words = [0; 5].map(|zero: u32| match random.percent(set) {
        true => making::word(random),
        false => zero,
    });
    Xorwow {
        words,
        counter: making::word(random),
    }
}

/// A small number, or at times one outside 1 to the most.
fn asked(random: &mut Random, small: u32, most: u32) -> u32 {
    match random.percent(8) {
        true => [0, most + 1, making::word(random).max(most + 1)][random.below(3)],
        false => 1 + random.number() % small,
    }
}

pub fn case(random: &mut Random) -> Figures {
    let plan = making::plan(random);
    let (tables, terms) = making::tables(random, &plan);
    let lengths = SIZES.map(|size| making::length(random, size));
    let room = making::length(random, NUMBERS);
    let lent = Lent::sized(random, &tables, &terms, &vec![0x3c; room], lengths);
    let trial = Trial {
        state: state(random),
        runs: asked(random, 6, MOST_RUNS),
        count: asked(random, 40, MOST_NUMBERS),
    };
    lent.check_runs(&trial, &settings(random))
}
