//! `desk sweep`: which settings suit a plan. Settings are tried over many runs (document 02, T-11) in
//! rounds: all of them first, then the better ones over more runs and with other tries and flips, and
//! the best with the lists that a seed gives, so that `desk plan` finds the same again. Every round
//! has lists of full length: on a shorter one LBS, which takes big steps first, looks better than it
//! is.

use crate::console::{Console, Stop};
use crate::daily::{asked, searched_by};
use crate::files::{box_folder, drawn, make_folder, text_of, write_file, MOST_NUMBERS};
use crate::options::Options;
use crate::picture::{self, Curve, Picture};
use crate::planner::{Figures, Planner, Trial};
use crate::print::walk;
use crate::report::{counted, grouped};
use reference::figures::Xorwow;
use reference::walk::{Settings, LBS, LINEAR, NOVELTY, SKC};
use std::cmp::Ordering;
use std::time::Instant;

/// The choices with their walk chance.
pub const CHOICES: [(&str, u32, u32); 3] = [
    ("SKC", SKC, 0),
    ("Novelty+ 10", NOVELTY, 10),
    ("Novelty+ 100", NOVELTY, 100),
];
pub const MODES: [(&str, u32); 2] = [("linear", LINEAR), ("LBS", LBS)];
pub const NOISES: [u32; 11] = [0, 100, 200, 300, 400, 500, 600, 700, 800, 900, 1_000];

/// Tries and flips: in the first round the middle ones.
const SHAPES: [(u32, u32); 3] = [(100, 300), (20, 1_000), (10, 3_000)];
const FIRST_SHAPE: (u32, u32) = SHAPES[1];

/// How many of the best go on from the first round and from the second, and how many seeds the last
/// ones are searched with.
const SECOND: usize = 10;
const LAST: usize = 6;
const SEEDS: u64 = 5;

/// Settings, what came of them over the runs of their last round, and with seeds: the least cost and
/// its seed.
#[derive(Clone, Debug)]
pub struct Tried {
    pub settings: Settings,
    pub figures: Figures,
    pub least: Option<(i64, u64)>,
}

impl Tried {
    /// The mean cost over the runs that found a plan.
    pub fn mean(&self) -> Option<f64> {
        self.figures
            .cost
            .map(|(top, bottom)| top as f64 / bottom as f64)
    }

    /// The share of runs that found one, in percent.
    pub fn share(&self) -> f64 {
        let (top, bottom) = self.figures.share;
        100.0 * top as f64 / bottom as f64
    }

    /// The least cost that some run is known to have reached: no mean is below all of its costs.
    fn reached(&self) -> Option<i64> {
        let mean = self
            .figures
            .cost
            .map(|(top, bottom)| top.div_euclid(bottom as i64));
        let least = self.least.map(|(cost, _)| cost);
        mean.into_iter().chain(least).min()
    }
}

/// More runs with a plan are better, then a lesser mean cost.
pub fn better(a: &Tried, b: &Tried) -> Ordering {
    let means = [a, b].map(|tried| tried.mean().unwrap_or(f64::INFINITY));
    let shares = b.share().total_cmp(&a.share());
    shares.then(means[0].total_cmp(&means[1]))
}

/// How far a cost is from the best known, in percent; from 0 there are no percents.
pub fn away(cost: f64, best: i64) -> Option<f64> {
    (best != 0).then(|| 100.0 * (cost - best as f64) / (best as f64).abs())
}

fn percent(cost: f64, best: i64) -> String {
    away(cost, best).map_or(String::from("-"), |away| format!("{away:.1} %"))
}

/// Every setting of the first round: by choice, then mode, then noise.
pub fn grid() -> Vec<Settings> {
    let (tries, flips) = FIRST_SHAPE;
    let mut all = Vec::new();
    for (_, heuristic, chance) in CHOICES {
        for (_, mode) in MODES {
            all.extend(NOISES.map(|noise| Settings {
                noise,
                tries,
                flips,
                mode,
                heuristic,
                chance,
            }));
        }
    }
    all
}

/// One sweep under way.
struct Sweep<'a, 'c, 'p> {
    planner: Planner<'p>,
    console: &'a mut Console<'c>,
    started: Instant,
    /// How many searches were made.
    made: u32,
    seed: u64,
    runs: u32,
    numbers: usize,
}

impl Sweep<'_, '_, '_> {
    /// How many searches the whole sweep makes at most: of both rounds, and with seeds.
    fn searches(&self) -> u32 {
        let second = 2 * (SECOND * SHAPES.len()) as u32;
        (grid().len() as u32 + second) * self.runs + LAST as u32 * SEEDS as u32
    }

    /// One line that is written over: where the sweep is, and how long it will take.
    fn progress(&mut self, what: &str, made: usize, all: usize) {
        let seconds = self.started.elapsed().as_secs_f64();
        let about = seconds * self.searches() as f64 / self.made.max(1) as f64;
        let line = format!("\rsweep: {what}, {made} of {all}, {seconds:.0} of about {about:.0} s ");
        self.console.note(&line);
        if made == all {
            self.console.note("\n");
        }
    }

    /// Each setting over so many runs, the best first. The generator begins as Marsaglia printed it,
    /// with the seed added to its first word.
    fn round(&mut self, what: &str, list: Vec<Settings>, runs: u32) -> Result<Vec<Tried>, Stop> {
        let first = 123_456_789_u32.wrapping_add(self.seed as u32);
        let trial = Trial {
            state: Xorwow {
                words: [first, 362_436_069, 521_288_629, 88_675_123, 5_783_321],
                counter: 6_615_241,
            },
            runs,
            count: self.numbers as u32,
        };
        let (mut tried, all) = (Vec::new(), list.len());
        for settings in list {
            self.progress(what, tried.len(), all);
            let figures = asked(self.planner.runs(&settings, &trial))?;
            self.made += runs;
            tried.push(Tried {
                settings,
                figures,
                least: None,
            });
        }
        self.progress(what, all, all);
        Ok(tried)
    }

    /// The least cost of each setting over the lists of some seeds.
    fn seeds(&mut self, tried: &mut [Tried]) -> Result<(), Stop> {
        let all = tried.len();
        for (made, each) in tried.iter_mut().enumerate() {
            self.progress("the best with 5 seeds", made, all);
            for seed in self.seed..self.seed.saturating_add(SEEDS) {
                let list = drawn(seed, self.numbers);
                let found = asked(self.planner.search(&each.settings, &list))?;
                self.made += 1;
                let cost = found.assignment.map(|_| found.cost);
                if let Some(cost) =
                    cost.filter(|&cost| each.least.is_none_or(|(least, _)| cost < least))
                {
                    each.least = Some((cost, seed));
                }
            }
        }
        self.progress("the best with 5 seeds", all, all);
        Ok(())
    }

    /// The cost over the flips of growing parts of one list: a 64th, twice as much up to a quarter,
    /// then eighths.
    fn curve(&mut self, settings: &Settings) -> Result<Curve, Stop> {
        let numbers = drawn(self.seed, self.numbers);
        let mut points = Vec::new();
        for part in [1, 2, 4, 8, 16, 24, 32, 40, 48, 56, 64] {
            let part = &numbers[..self.numbers * part / 64];
            let found = asked(self.planner.search(settings, part))?;
            if found.assignment.is_some() {
                points.push((found.flips, found.cost));
            }
        }
        let label = walk(settings).trim_end().to_string();
        Ok(Curve { label, points })
    }

    /// All rounds: the first one, and the best of the last.
    fn rounds(&mut self) -> Result<[Vec<Tried>; 2], Stop> {
        let first = self.round("round 1 of 2", grid(), self.runs)?;
        let second = shaped(&best_of(&first, SECOND));
        let second = self.round("round 2 of 2", second, 2 * self.runs)?;
        let mut last = best_of(&second, LAST);
        self.seeds(&mut last)?;
        Ok([first, last])
    }
}

/// Settings that differ in tries and flips alone, and came to the same share and cost: the list was
/// gone before the difference told.
fn same_walk(a: &Tried, b: &Tried) -> bool {
    let (tries, flips) = (a.settings.tries, a.settings.flips);
    let shaped = Settings {
        tries,
        flips,
        ..b.settings
    };
    let same_figures = a.figures.cost == b.figures.cost && a.figures.share == b.figures.share;
    a.settings == shaped && same_figures
}

/// The best so many, best first; of those that make the same walk one is enough.
fn best_of(tried: &[Tried], count: usize) -> Vec<Tried> {
    let mut sorted = tried.to_vec();
    sorted.sort_by(better);
    let mut best: Vec<Tried> = Vec::new();
    for each in sorted {
        if best.len() < count && !best.iter().any(|one| same_walk(one, &each)) {
            best.push(each);
        }
    }
    best
}

/// The same settings with every shape.
fn shaped(tried: &[Tried]) -> Vec<Settings> {
    let shape = |settings: Settings| {
        SHAPES.map(|(tries, flips)| Settings {
            tries,
            flips,
            ..settings
        })
    };
    tried
        .iter()
        .flat_map(|tried| shape(tried.settings))
        .collect()
}

/// The best of each choice among these, to be drawn.
fn of_each_choice(tried: &[Tried]) -> Vec<Settings> {
    let best = |&(_, heuristic, chance): &(&str, u32, u32)| {
        let own = tried
            .iter()
            .filter(|each| (each.settings.heuristic, each.settings.chance) == (heuristic, chance));
        own.min_by(|a, b| better(a, b)).map(|each| each.settings)
    };
    CHOICES.iter().filter_map(best).collect()
}

/// One line of the table; None where no seed found a plan.
fn line(tried: &Tried, best: i64) -> Option<String> {
    let (cost, seed) = tried.least?;
    let mean = tried.mean()?;
    Some(format!(
        "{:>12} {seed:>6} {:>8} {:>12} {:>8} {:>4.0} %  {}",
        grouped(cost),
        percent(cost as f64, best),
        grouped(mean.round() as i64),
        percent(mean, best),
        tried.share(),
        walk(&tried.settings),
    ))
}

/// The table of the best, and what to do with it.
fn table(path: &str, last: &[Tried], best: i64, given: bool) -> String {
    let mut text = format!(
        "{:>12} {:>6} {:>8} {:>12} {:>8} {:>6}  settings\n",
        "least cost", "seed", "away", "mean cost", "away", "found"
    );
    text.extend(last.iter().filter_map(|tried| line(tried, best)));
    let whose = if given {
        "given"
    } else {
        "found in this sweep"
    };
    text += &format!("best known: {}, {whose}\n", grouped(best));
    let cheapest = last.iter().filter_map(|tried| Some((tried.least?, tried)));
    if let Some(((cost, seed), tried)) = cheapest.min_by_key(|((cost, _), _)| *cost) {
        let walk = walk(&tried.settings);
        text += &format!(
            "to have cost {cost} again: put '{}' into the text; desk plan {path} {seed}\n",
            walk.trim_end()
        );
    }
    text
}

/// What is said where no run found a plan.
const NOTHING: &str = "no settings found a plan: desk plan tells what stands in the way\n";

/// Writes the picture, and gives its path.
fn draw(path: &str, options: &Options, picture: &Picture) -> Result<String, Stop> {
    let folder = box_folder(path, &options.folder);
    make_folder(&folder)?;
    let file = folder.join("sweep.html");
    write_file(&file, picture::page(picture).as_bytes())?;
    Ok(file.display().to_string())
}

/// `desk sweep PLAN.txt`.
pub fn sweep(path: &str, options: &Options, console: &mut Console) -> Result<u8, Stop> {
    let text = text_of(path)?;
    let mut sweep = Sweep {
        planner: Planner::new(&text.plan, options.check),
        console,
        started: Instant::now(),
        made: 0,
        seed: options.seed_or(None)?,
        runs: options.runs.unwrap_or(1).min(500),
        numbers: options.numbers.unwrap_or(MOST_NUMBERS),
    };
    let [first, last] = sweep.rounds()?;
    let all: Vec<Tried> = last.iter().chain(&first).cloned().collect();
    let choices = of_each_choice(&all);
    let curves = choices.iter().map(|settings| sweep.curve(settings));
    let curves = curves.collect::<Result<Vec<Curve>, Stop>>()?;
    let reached = all.iter().filter_map(Tried::reached).min();
    let best = reached.map(|reached| options.best.map_or(reached, |best| best.min(reached)));
    let given = best == options.best;
    let picture = Picture {
        title: path,
        first: &first,
        last: &last,
        best,
        curves: &curves,
    };
    let file = draw(path, options, &picture)?;
    let told = best.map_or(NOTHING.to_string(), |best| table(path, &last, best, given));
    let count = counted(first.len(), "setting");
    console.say(&format!("{count} tried\n{told}the picture: {file}\n"));
    console.say(searched_by(options.check));
    Ok(best.is_none() as u8)
}
