//! Searches on any tables, under any settings, over lists of any length.

use crate::figures::Figures;
use crate::making;
use harness::layout;
use harness::planner::Searched;
use harness::searching::{Lent, SIZES};
use reference::file::write_numbers;
use reference::random::{self, Random};
use reference::walk::Settings;

/// Settings: lawful ones, of which one or more may have been replaced by any number.
pub fn settings(random: &mut Random) -> Settings {
    let mut settings = random::settings(random);
    if random.percent(50) {
        settings.tries = 1 + settings.tries % 3;
        settings.flips = 1 + settings.flips % 12;
    }
    if random.percent(20) {
        let Settings {
            noise,
            tries,
            flips,
            mode,
            heuristic,
            chance,
        } = &mut settings;
        for setting in [noise, tries, flips, mode, heuristic, chance] {
            if random.percent(40) {
                *setting = making::word(random);
            }
        }
    }
    settings
}

/// A list of any length in bytes. Its numbers are any, or many lie around the limits of picks, or all
/// are from a few.
fn list(random: &mut Random) -> Vec<u8> {
    let most = [10, 60, 250][random.below(3)];
    let count = random.below(most);
    let mut numbers = random.any_numbers(count);
    if random.percent(20) {
        let few = [0, 1, u32::MAX, making::word(random)];
        numbers.fill_with(|| few[random.below(few.len())]);
    }
    let mut bytes = write_numbers(&numbers);
    for _ in 0..random.below(4) {
        bytes.push(random.number() as u8);
    }
    bytes
}

pub fn case(random: &mut Random, figures: &mut Figures) -> Searched {
    let plan = making::plan(random);
    let (tables, terms) = making::tables(random, &plan);
    let lengths = SIZES.map(|size| making::length(random, size));
    let numbers = list(random);
    let lent = Lent::sized(random, &tables, &terms, &numbers, lengths);
    let (answer, seen) = lent.check_seen(&settings(random));
    figures.note("stuck", seen.stuck > 0);
    let named = seen.picks.named().into_iter().chain(seen.leasts.named());
    for (name, count) in named.chain(seen.ways.named()) {
        figures.note(name, count > 0);
    }
    let locked = || layout::loaded(&tables, &terms).is_some_and(|plan| !plan.locks.is_empty());
    figures.note("found with locks", answer.finds > 0 && locked());
    answer
}
