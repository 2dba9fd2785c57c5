//! The walk (document 01, "The walk"; document 02, T-01, T-06, T-08 and T-09; paper 004, Algorithms 1
//! and 2; paper 000, Algorithm 1).

use crate::counts::{Count, Counter};
use crate::file::Refusal;
use crate::novelty::{self, Candidate, Ways};
use crate::plan::{flipped, Clause, Plan};
use crate::tallies::Tallies;

pub const LINEAR: u32 = 0;
pub const LBS: u32 = 1;

/// "A heuristic byte (0 SKC, 1 this)."
pub const SKC: u32 = 0;
pub const NOVELTY: u32 = 1;

/// What walk.bin gives.
#[derive(Clone, Copy, Debug, PartialEq, Eq)]
pub struct Settings {
    pub noise: u32,
    pub tries: u32,
    pub flips: u32,
    pub mode: u32,
    pub heuristic: u32,
    /// The walk chance of Novelty+, per 1,000.
    pub chance: u32,
}

impl Settings {
    /// "11: noise outside 0 to 1,000. 12: tries outside 1 to 1,000. 13: flips outside 1 to
    /// 1,000,000. 14: mode other than 0 (linear) or 1 (LBS)." "15 for another heuristic, 16 for a
    /// chance above 1,000, after 14." In this order.
    pub fn refusal(&self) -> Option<u32> {
        if self.noise > 1_000 {
            Some(11)
        } else if !(1..=1_000).contains(&self.tries) {
            Some(12)
        } else if !(1..=1_000_000).contains(&self.flips) {
            Some(13)
        } else if self.mode != LINEAR && self.mode != LBS {
            Some(14)
        } else if self.heuristic != SKC && self.heuristic != NOVELTY {
            Some(15)
        } else if self.chance > 1_000 {
            Some(16)
        } else {
            None
        }
    }
}

/// "Endings: floor (v = l(O)), ended, none (first call failed), short-found, short-none (numbers
/// gone)."
#[derive(Clone, Copy, Debug, PartialEq, Eq)]
pub enum Ending {
    Floor,
    Ended,
    None,
    ShortFound,
    ShortNone,
}

impl Ending {
    pub fn name(self) -> &'static str {
        match self {
            Ending::Floor => "floor",
            Ending::Ended => "ended",
            Ending::None => "none",
            Ending::ShortFound => "short-found",
            Ending::ShortNone => "short-none",
        }
    }
}

/// "The answer also holds cost, finds, flips made and numbers used; cost is 0 with nothing found."
#[derive(Clone, Debug, PartialEq, Eq)]
pub struct Answer {
    pub ending: Ending,
    pub cost: i64,
    /// Every assignment found, in order; the last is the one handed out.
    pub finds: Vec<Vec<bool>>,
    pub flips: u64,
    pub used: usize,
}

impl Answer {
    /// The last assignment found, if any.
    pub fn found(&self) -> Option<&[bool]> {
        self.finds.last().map(Vec::as_slice)
    }
}

/// "When fewer numbers are left than the next need, the search ends and takes none of them."
#[derive(Clone, Copy, Debug, PartialEq, Eq)]
pub struct Short;

/// How many numbers of 32 bits there are.
const ALL_NUMBERS: u64 = 4_294_967_296;

/// "The noise number follows the same rule with 1,000."
pub const NOISE_PLACES: usize = 1_000;

/// "The largest multiple of m up to 4,294,967,296": that number itself where m divides it.
pub fn limit(m: usize) -> u64 {
    ALL_NUMBERS / m as u64 * m as u64
}

/// What came up in the picks of a search.
#[derive(Clone, Copy, Debug, Default, PartialEq, Eq)]
pub struct Picks {
    /// Numbers discarded for a place.
    pub discarded: u64,
    /// Numbers discarded for the noise number.
    pub noise_discarded: u64,
    /// Picks for which the list ended right behind a number that they discarded.
    pub ended_among_discards: u64,
    /// Picks that kept one of the m numbers right below a limit that is not 4,294,967,296.
    pub kept_below_limit: u64,
    /// Picks that kept one of the last m of all numbers, since m divides 4,294,967,296.
    pub kept_at_the_top: u64,
    /// Starts that took a number that the noise number would discard.
    pub high_starts: u64,
}

impl Picks {
    /// Each count with its name.
    pub fn named(&self) -> [(&'static str, u64); 6] {
        [
            ("discarded", self.discarded),
            ("noise discarded", self.noise_discarded),
            ("ended among discards", self.ended_among_discards),
            ("kept below a limit", self.kept_below_limit),
            ("kept at the top", self.kept_at_the_top),
            ("high starts", self.high_starts),
        ]
    }

    fn discard(&mut self, m: usize) {
        match m {
            NOISE_PLACES => self.noise_discarded += 1,
            _ => self.discarded += 1,
        }
    }

    fn keep(&mut self, m: usize, r: u32) {
        let nearly = (r as u64 + m as u64 >= limit(m)) as u64;
        match limit(m) {
            ALL_NUMBERS => self.kept_at_the_top += nearly,
            _ => self.kept_below_limit += nearly,
        }
    }

    fn start(&mut self, taken: &[u32]) {
        let high = |&r: &u32| r as u64 >= limit(NOISE_PLACES);
        self.high_starts += taken.iter().any(high) as u64;
    }
}

impl std::ops::AddAssign for Picks {
    fn add_assign(&mut self, more: Picks) {
        self.discarded += more.discarded;
        self.noise_discarded += more.noise_discarded;
        self.ended_among_discards += more.ended_among_discards;
        self.kept_below_limit += more.kept_below_limit;
        self.kept_at_the_top += more.kept_at_the_top;
        self.high_starts += more.high_starts;
    }
}

/// "Numbers are 32 bits, used in list order."
pub struct Numbers<'a> {
    list: &'a [u32],
    used: usize,
    picks: Picks,
}

impl<'a> Numbers<'a> {
    pub fn new(list: &'a [u32]) -> Numbers<'a> {
        Numbers {
            list,
            used: 0,
            picks: Picks::default(),
        }
    }

    pub fn used(&self) -> usize {
        self.used
    }

    /// The next numbers, all that are needed or none.
    pub fn take(&mut self, need: usize) -> Result<&'a [u32], Short> {
        if self.list.len() - self.used < need {
            return Err(Short);
        }
        let taken = &self.list[self.used..self.used + need];
        self.used += need;
        Ok(taken)
    }

    /// "A pick among m uses one number r and takes place r mod m, from 0 ... m = 1 uses one too." "A
    /// pick now discards each number at or above the largest multiple of m up to 4,294,967,296 and
    /// takes the next." "Discarded numbers count as used, also when the list ends among them."
    pub fn pick(&mut self, m: usize) -> Result<usize, Short> {
        let begin = self.used;
        loop {
            let Ok(taken) = self.take(1) else {
                self.picks.ended_among_discards += (self.used > begin) as u64;
                return Err(Short);
            };
            let r = taken[0];
            if (r as u64) < limit(m) {
                self.picks.keep(m, r);
                return Ok(r as usize % m);
            }
            self.picks.discard(m);
        }
    }
}

/// A try's start: "take ⌈n/32⌉ numbers; variable i gets bit (i−1) mod 32, bit 0 being the lowest,
/// of number ⌊(i−1)/32⌋, counted from 0". "A try's start still uses all its numbers, then locked
/// variables take their value." It is no pick, so that none of its numbers is discarded.
pub fn start(plan: &Plan, numbers: &mut Numbers) -> Result<Vec<bool>, Short> {
    let taken = numbers.take(plan.variables.div_ceil(32))?;
    numbers.picks.start(taken);
    let drawn: Vec<bool> = (1..=plan.variables)
        .map(|i| taken[(i - 1) / 32] >> ((i - 1) % 32) & 1 == 1)
        .collect();
    Ok(plan.locked(&drawn))
}

/// The variables a clause offers to the choice, "each once": "Only unlocked variables of a clause
/// may be chosen."
pub fn choosable(plan: &Plan, clause: &Clause) -> Vec<usize> {
    let mut variables = clause.variables();
    variables.retain(|&variable| plan.lock(variable).is_none());
    variables
}

/// How a variable was chosen.
#[derive(Clone, Copy, Debug, PartialEq, Eq)]
pub enum How {
    /// Among those with break count 0.
    Free,
    /// Among the least break counts.
    Least(Least),
    /// Among all.
    Any,
}

/// The least break count, how many variables tie in it, and whether another one's is cut.
#[derive(Clone, Copy, Debug, PartialEq, Eq)]
pub struct Least {
    pub count: Count,
    pub tied: usize,
    pub beside_cut: bool,
}

/// A variable, and how it was chosen.
#[derive(Clone, Copy, Debug, PartialEq, Eq)]
pub struct Chosen {
    pub variable: usize,
    pub how: How,
}

/// "Choice (Algorithm 2, SKC) among the clause's variables, each once: if any has break count 0,
/// pick among those. Otherwise a number r with r mod 1000 < noise leads to a pick among the least
/// break counts, else to a pick among all." That number is a pick among 1,000, so that it discards as
/// picks do. "'Least' in the choice follows this order": that of the counts given out, with their
/// marks.
pub fn choose(
    variables: &[usize],
    break_count: impl Fn(usize) -> Count,
    noise: u32,
    numbers: &mut Numbers,
) -> Result<Chosen, Short> {
    let breaks: Vec<Count> = variables.iter().map(|&v| break_count(v)).collect();
    let least = *breaks.iter().min().expect("there is one to choose");
    let with_least: Vec<usize> = (0..variables.len())
        .filter(|&place| breaks[place] == least)
        .map(|place| variables[place])
        .collect();
    let (among, how) = if least == Count::ZERO {
        (&with_least[..], How::Free)
    } else if numbers.pick(NOISE_PLACES)? < noise as usize {
        let how = Least {
            count: least,
            tied: with_least.len(),
            beside_cut: !least.cut && breaks.iter().any(|count| count.cut),
        };
        (&with_least[..], How::Least(how))
    } else {
        (variables, How::Any)
    };
    let variable = among[numbers.pick(among.len())?];
    Ok(Chosen { variable, how })
}

/// What came up in choices among the least break counts, so that a test can tell whether it tried
/// what the marks of counts are for.
#[derive(Clone, Copy, Debug, Default, PartialEq, Eq)]
pub struct Leasts {
    /// The least is cut and one variable's alone.
    pub cut_alone: u64,
    /// The least is cut, so that all are, and they tie.
    pub cut_ties: u64,
    /// The least is one below the cap.
    pub below_cap: u64,
    /// The least is the cap itself, uncut.
    pub uncut_cap: u64,
    /// Of these, those beside one that is cut: by the numbers given out alone the two would tie.
    pub uncut_cap_beside_cut: u64,
    /// The least is any uncut number, beside one that is cut.
    pub uncut_beside_cut: u64,
}

impl Leasts {
    /// Each count with its name.
    pub fn named(&self) -> [(&'static str, u64); 6] {
        [
            ("least cut alone", self.cut_alone),
            ("least cut ties", self.cut_ties),
            ("least below the cap", self.below_cap),
            ("least uncut at the cap", self.uncut_cap),
            ("uncut at the cap beside cut", self.uncut_cap_beside_cut),
            ("uncut beside cut", self.uncut_beside_cut),
        ]
    }

    fn count(&mut self, least: Least) {
        let Least {
            count,
            tied,
            beside_cut,
        } = least;
        self.cut_alone += (count.cut && tied == 1) as u64;
        self.cut_ties += (count.cut && tied > 1) as u64;
        self.below_cap += (count == Count::uncut(u32::MAX - 1)) as u64;
        self.uncut_cap += (count == Count::CAP) as u64;
        self.uncut_cap_beside_cut += (count == Count::CAP && beside_cut) as u64;
        self.uncut_beside_cut += beside_cut as u64;
    }
}

impl std::ops::AddAssign for Leasts {
    fn add_assign(&mut self, more: Leasts) {
        self.cut_alone += more.cut_alone;
        self.cut_ties += more.cut_ties;
        self.below_cap += more.below_cap;
        self.uncut_cap += more.uncut_cap;
        self.uncut_cap_beside_cut += more.uncut_cap_beside_cut;
        self.uncut_beside_cut += more.uncut_beside_cut;
    }
}

/// What came up in a search, so that a test can tell whether it tried what it is for.
#[derive(Clone, Copy, Debug, Default, PartialEq, Eq)]
pub struct Seen {
    pub free: u64,
    pub least: u64,
    pub any: u64,
    pub leasts: Leasts,
    pub ways: Ways,
    /// Tries that met a clause with no unlocked variable.
    pub stuck: u64,
    /// Choices in a clause that has locked variables too.
    pub partly_locked: u64,
    pub picks: Picks,
}

impl Seen {
    fn count(&mut self, how: How) {
        match how {
            How::Free => self.free += 1,
            How::Any => self.any += 1,
            How::Least(least) => {
                self.least += 1;
                self.leasts.count(least);
            }
        }
    }
}

/// What a search has done so far.
struct Progress<'a> {
    numbers: Numbers<'a>,
    flips: u64,
    finds: Vec<Vec<bool>>,
    seen: Seen,
}

/// One call (paper 004, Algorithm 1): a satisfying assignment, or None where all tries failed.
/// "The look comes before each flip, so what the last flip reaches is not looked at."
fn call(
    plan: &Plan,
    settings: &Settings,
    progress: &mut Progress,
) -> Result<Option<Vec<bool>>, Short> {
    let counter = Counter::new(plan);
    for _ in 0..settings.tries {
        let mut assignment = start(plan, &mut progress.numbers)?;
        // For each variable how many flips of this try came before its last one.
        let mut flipped_at = vec![None; plan.variables + 1];
        for made in 0..settings.flips as u64 {
            let tallies = Tallies::fresh(plan, &assignment);
            let unsatisfied = tallies.unsatisfied_clauses();
            if unsatisfied.is_empty() {
                return Ok(Some(assignment));
            }
            let clause = unsatisfied[progress.numbers.pick(unsatisfied.len())?];
            let variables = choosable(plan, &plan.clauses[clause]);
            // "If it has none, that try ends with the clause pick used."
            if variables.is_empty() {
                progress.seen.stuck += 1;
                break;
            }
            let all = plan.clauses[clause].variables().len();
            progress.seen.partly_locked += (variables.len() < all) as u64;
            let counts = |variable| counter.counts(&tallies, &assignment, variable);
            let numbers = &mut progress.numbers;
            let variable = if settings.heuristic == NOVELTY {
                let candidate = |&variable: &usize| Candidate {
                    variable,
                    make: counts(variable).make_count.given(),
                    break_count: counts(variable).break_count.given(),
                    flipped: flipped_at[variable],
                };
                let candidates: Vec<Candidate> = variables.iter().map(candidate).collect();
                let chosen = novelty::choose(&candidates, settings, numbers)?;
                progress.seen.ways.count(&chosen);
                chosen.variable
            } else {
                let break_count = |variable| counts(variable).break_count.given();
                let chosen = choose(&variables, break_count, settings.noise, numbers)?;
                progress.seen.count(chosen.how);
                chosen.variable
            };
            assignment = flipped(&assignment, variable);
            flipped_at[variable] = Some(made);
            progress.flips += 1;
        }
    }
    Ok(None)
}

/// "m = (l(O) + 2v)/3, rounded down, below zero as well."
pub fn lbs_bound(least_cost: i64, v: i64) -> i64 {
    (least_cost + 2 * v).div_euclid(3)
}

/// "Linear: O ≤ v − 1."
pub fn linear_bound(v: i64) -> i64 {
    v - 1
}

/// Tightening (paper 000, as document 01 settles it): the ending, or Short where the numbers ran
/// out. The finds are added to the list.
fn tighten(plan: &Plan, settings: &Settings, progress: &mut Progress) -> Result<Ending, Short> {
    // "The first call has the plan alone."
    let Some(found) = call(plan, settings, progress)? else {
        return Ok(Ending::None);
    };
    let mut v = plan.cost(&found);
    progress.finds.push(found);
    let mut lbs = settings.mode == LBS;
    loop {
        // "A found assignment of cost v with v = l(O) ends the search."
        if v == plan.least_cost() {
            return Ok(Ending::Floor);
        }
        let bound = if lbs {
            lbs_bound(plan.least_cost(), v)
        } else {
            linear_bound(v)
        };
        // "Each added clause replaces the one before."
        match call(&plan.tightened(bound), settings, progress)? {
            Some(found) => {
                v = plan.cost(&found);
                progress.finds.push(found);
            }
            // "At the first failure goes over to linear."
            None if lbs => lbs = false,
            // "Until a call fails."
            None => return Ok(Ending::Ended),
        }
    }
}

/// The whole search, and what came up in it; refused for its settings alone.
pub fn search_seen(
    plan: &Plan,
    settings: &Settings,
    list: &[u32],
) -> Result<(Answer, Seen), Refusal> {
    if let Some(number) = settings.refusal() {
        return Err(Refusal { number, offset: 0 });
    }
    let mut progress = Progress {
        numbers: Numbers::new(list),
        flips: 0,
        finds: Vec::new(),
        seen: Seen::default(),
    };
    let ending = match tighten(plan, settings, &mut progress) {
        Ok(ending) => ending,
        Err(Short) if progress.finds.is_empty() => Ending::ShortNone,
        Err(Short) => Ending::ShortFound,
    };
    let answer = Answer {
        ending,
        cost: progress.finds.last().map_or(0, |found| plan.cost(found)),
        finds: progress.finds,
        flips: progress.flips,
        used: progress.numbers.used(),
    };
    let picks = progress.numbers.picks;
    Ok((
        answer,
        Seen {
            picks,
            ..progress.seen
        },
    ))
}

/// The whole search.
pub fn search(plan: &Plan, settings: &Settings, list: &[u32]) -> Result<Answer, Refusal> {
    search_seen(plan, settings, list).map(|(answer, _)| answer)
}
