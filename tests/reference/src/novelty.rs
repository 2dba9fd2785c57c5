//! The second way to choose (document 02, T-09): Novelty+ (Hoos, 1999).

use crate::counts::Count;
use crate::walk::{Numbers, Settings, Short, NOISE_PLACES};
use std::cmp::Reverse;

/// A variable of the clause, as the ranking sees it.
#[derive(Clone, Copy, Debug, PartialEq, Eq)]
pub struct Candidate {
    pub variable: usize,
    pub make: Count,
    pub break_count: Count,
    /// How many flips of this try came before its last one, if it has been flipped in this try.
    pub flipped: Option<u64>,
}

impl Candidate {
    /// "Make minus break, where a cut count stands as 4,294,967,295."
    pub fn score(&self) -> i64 {
        self.make.value as i64 - self.break_count.value as i64
    }
}

/// How Novelty+ came to a variable.
#[derive(Clone, Copy, Debug, PartialEq, Eq)]
pub enum Way {
    /// By the walk chance: a pick among all.
    Walk,
    /// The first in the ranking, which is alone.
    Alone,
    /// The first, which is not the one most recently flipped.
    First,
    /// The first, although it is the one most recently flipped: the noise number did not take the
    /// second.
    FirstAgain,
    /// The second, by the noise number.
    Second,
}

/// A variable, how it was chosen, and what the ranking had to decide.
#[derive(Clone, Copy, Debug, PartialEq, Eq)]
pub struct Chosen {
    pub variable: usize,
    pub way: Way,
    /// The first two are equal in make minus break, and how long they are unflipped decides.
    pub by_age: bool,
    /// .. and so does their number.
    pub by_number: bool,
    /// Some count among those ranked is cut.
    pub cut: bool,
}

/// "Rank them by make minus break ..., highest first, equals by longest unflipped in this try (never
/// flipped first), then by number." None comes before any flip.
pub fn rank(candidates: &[Candidate]) -> Vec<Candidate> {
    let mut ranked = candidates.to_vec();
    ranked.sort_by_key(|each| (Reverse(each.score()), each.flipped, each.variable));
    ranked
}

/// "One number under the walk chance, per 1,000, leads to a pick among the clause's unlocked
/// variables. Otherwise rank them .... If the first is not the one most recently flipped in this try
/// among them, or it is alone, flip it. Otherwise a number under noise takes the second, else the
/// first. Numbers are judged as in T-06."
pub fn choose(
    candidates: &[Candidate],
    settings: &Settings,
    numbers: &mut Numbers,
) -> Result<Chosen, Short> {
    if numbers.pick(NOISE_PLACES)? < settings.chance as usize {
        return Ok(Chosen {
            variable: candidates[numbers.pick(candidates.len())?].variable,
            way: Way::Walk,
            by_age: false,
            by_number: false,
            cut: false,
        });
    }
    let ranked = rank(candidates);
    let first = ranked[0];
    let most_recent = ranked.iter().filter_map(|each| each.flipped).max();
    let newest = most_recent.is_some() && first.flipped == most_recent;
    let (variable, way) = match ranked.get(1) {
        None => (first.variable, Way::Alone),
        Some(_) if !newest => (first.variable, Way::First),
        Some(second) if numbers.pick(NOISE_PLACES)? < settings.noise as usize => {
            (second.variable, Way::Second)
        }
        Some(_) => (first.variable, Way::FirstAgain),
    };
    let tied = |second: &Candidate| second.score() == first.score();
    let by_age = ranked.get(1).is_some_and(tied);
    let same_age = |second: &Candidate| second.flipped == first.flipped;
    Ok(Chosen {
        variable,
        way,
        by_age,
        by_number: by_age && ranked.get(1).is_some_and(same_age),
        cut: ranked
            .iter()
            .any(|each| each.make.cut || each.break_count.cut),
    })
}

/// What came up in the choices of Novelty+, so that a test can tell whether it tried what it is for.
#[derive(Clone, Copy, Debug, Default, PartialEq, Eq)]
pub struct Ways {
    pub walk: u64,
    pub alone: u64,
    pub first: u64,
    pub first_again: u64,
    pub second: u64,
    /// Ties in make minus break decided by how long the two are unflipped, and by number.
    pub by_age: u64,
    pub by_number: u64,
    /// Rankings with a cut count.
    pub cut: u64,
}

impl Ways {
    /// Each count with its name.
    pub fn named(&self) -> [(&'static str, u64); 8] {
        [
            ("novelty walk", self.walk),
            ("novelty alone", self.alone),
            ("novelty first", self.first),
            ("novelty first again", self.first_again),
            ("novelty second", self.second),
            ("novelty tie by age", self.by_age),
            ("novelty tie by number", self.by_number),
            ("novelty cut", self.cut),
        ]
    }

    pub fn count(&mut self, chosen: &Chosen) {
        match chosen.way {
            Way::Walk => self.walk += 1,
            Way::Alone => self.alone += 1,
            Way::First => self.first += 1,
            Way::FirstAgain => self.first_again += 1,
            Way::Second => self.second += 1,
        }
        self.by_age += (chosen.by_age && !chosen.by_number) as u64;
        self.by_number += chosen.by_number as u64;
        self.cut += chosen.cut as u64;
    }
}

impl std::ops::AddAssign for Ways {
    fn add_assign(&mut self, more: Ways) {
        self.walk += more.walk;
        self.alone += more.alone;
        self.first += more.first;
        self.first_again += more.first_again;
        self.second += more.second;
        self.by_age += more.by_age;
        self.by_number += more.by_number;
        self.cut += more.cut;
    }
}
