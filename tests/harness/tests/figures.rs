//! Figures over many runs (document 02, T-11) against the reference: what is reported, every byte
//! of every buffer, and nothing outside of them.

use harness::layout::{self, TABLES};
use harness::planner::Figures;
use harness::searching::{ending, Lent, SIZES};
use reference::figures::{figures, Figures as Wanted, Fraction, Trial, Xorwow, NUMBERS};
use reference::file;
use reference::making::{at_least, example_plan, from_hexadecimal, plan, settings};
use reference::plan::Plan;
use reference::random::{self, Random};
use reference::walk::{Ending, Settings};
use std::collections::BTreeMap;

/// A plan's buffers with room for numbers, each at times longer than needed.
fn lent(random: &mut Random, plan: &Plan) -> Lent {
    let extra = [0, random.below(9)][random.below(2)];
    Lent::new(random, plan, &vec![0xa5; NUMBERS + extra])
}

fn state(random: &mut Random) -> Xorwow {
    let words = [0; 5].map(|_: u32| random.number());
    let counter = [random.number(), 0, u32::MAX, u32::MAX - 362_436][random.below(4)];
    Xorwow { words, counter }
}

fn trial(random: &mut Random, runs: u32, count: u32) -> Trial {
    let state = state(random);
    Trial { state, runs, count }
}

fn numbers(word: &str) -> Vec<u32> {
    word.split(',').map(|n| n.parse().unwrap()).collect()
}

/// Six numbers as settings.
fn settings_of(six: &[u32]) -> Settings {
    Settings {
        heuristic: six[4],
        chance: six[5],
        ..settings(six[0], six[1], six[2], six[3])
    }
}

fn fraction(word: &str) -> Fraction {
    let (top, bottom) = word.split_once('/').unwrap();
    (top.parse().unwrap(), bottom.parse().unwrap())
}

fn wanted(words: &str) -> Figures {
    let words: Vec<&str> = words.split(' ').collect();
    match words[..] {
        ["refused", number] => Figures::refused(number.parse().unwrap()),
        [share, flips, cost] => Figures::from(Wanted {
            share: fraction(share),
            flips: fraction(flips),
            cost: (cost != "-").then(|| fraction(cost)),
        }),
        _ => panic!("a case has three fractions or a refusal"),
    }
}

#[test]
fn cases_of_a_separately_written_program() {
    let mut random = Random::new(110);
    let (mut cases, mut refused, mut absent) = (0, 0, 0);
    for case in include_str!("../../vectors/figures.txt").lines() {
        let (given, expected) = case.split_once(" = ").unwrap();
        let given: Vec<&str> = given.split(' ').collect();
        let settings = settings_of(&numbers(given[1]));
        let words = numbers(given[2]);
        let state = Xorwow {
            words: words[..5].try_into().unwrap(),
            counter: words[5],
        };
        let [runs, count] = [given[3], given[4]].map(|n| n.parse().unwrap());
        let plan = file::parse(&from_hexadecimal(given[0])).unwrap();
        let trial = Trial { state, runs, count };
        let reported = lent(&mut random, &plan).check_runs(&trial, &settings);
        assert_eq!(reported, wanted(expected), "{case}");
        cases += 1;
        refused += (reported.refusal != 0) as u32;
        absent += (reported.refusal == 0 && reported.found == 0) as u32;
    }
    assert!(
        cases == 150 && refused >= 10 && absent >= 5,
        "{cases} {refused} {absent}"
    );
}

#[test]
fn random_plans_settings_and_states() {
    let mut random = Random::new(111);
    let mut seen = BTreeMap::new();
    for _ in 0..1_500 {
        let plan = match random.below(3) {
            0 => random::small_plan(&mut random),
            1 => random::small_met_plan(&mut random),
            _ => random::heavy_plan(&mut random),
        };
        let mut settings = random::settings(&mut random);
        settings.tries = 1 + settings.tries % 10;
        let runs = 1 + random.number() % [3, 12, 40][random.below(3)];
        let count = 1 + random.number() % [4, 40, 200][random.below(3)];
        let trial = trial(&mut random, runs, count);
        let reported = lent(&mut random, &plan).check_runs(&trial, &settings);
        let sign = reported.cost_top.signum();
        *seen.entry((reported.found, sign)).or_insert(0) += 1;
        *seen.entry((2, (reported.share[1] > 1) as i64)).or_insert(0) += 1;
    }
    for kind in [(0, 0), (1, -1), (1, 0), (1, 1), (2, 1)] {
        assert!(seen[&kind] >= 20, "{kind:?} of {seen:?}");
    }
}

#[test]
fn the_most_runs_and_the_most_numbers() {
    let mut random = Random::new(112);
    let plan = example_plan();
    for (runs, count) in [(1_000, 1), (1_000, 20), (2, 16_384), (1, 16_384)] {
        let trial = trial(&mut random, runs, count);
        let reported = lent(&mut random, &plan).check_runs(&trial, &settings(500, 10, 100, 1));
        assert_eq!(reported.refusal, 0);
    }
}

/// What a plan of one variable that must be 1 costs, over runs of one number.
#[test]
fn fractions_are_reduced_and_keep_their_sign() {
    let mut random = Random::new(113);
    let must = plan(1, &[(1, -7)], &[&[at_least(1, &[(1, 1)])]]);
    for runs in 1..=64 {
        let trial = trial(&mut random, runs, 1);
        let reported = lent(&mut random, &must).check_runs(&trial, &settings(0, 1, 1, 0));
        if reported.found == 1 {
            assert_eq!((reported.cost_top, reported.cost_bottom), (-7, 1));
        }
        let remainder = reported.flips[0] % reported.flips[1];
        assert_eq!(reported.flips[1] == 1, remainder == 0);
    }
}

/// The figures are those of searches by the library, each over its own part of the numbers.
#[test]
fn each_run_is_a_search_of_its_own() {
    let mut random = Random::new(114);
    for _ in 0..150 {
        let plan = random::small_met_plan(&mut random);
        let settings = random::settings(&mut random);
        let (runs, count) = (1 + random.number() % 9, 1 + random.number() % 60);
        let trial = trial(&mut random, runs, count);
        let mut state = trial.state;
        let (mut found, mut flips, mut cost) = (0_u64, 0, 0);
        for _ in 0..trial.runs {
            let numbers: Vec<u32> = (0..trial.count).map(|_| state.draw()).collect();
            let bytes = file::write_numbers(&numbers);
            let answer = Lent::new(&mut random, &plan, &bytes).search(&settings);
            let nothing = [Ending::None, Ending::ShortNone].map(ending);
            found += !nothing.contains(&answer.ending) as u64;
            flips += answer.flips as u64;
            cost += answer.cost;
        }
        let reported = lent(&mut random, &plan).runs(&trial, &settings);
        let runs = trial.runs as u64;
        assert_eq!(reported.share[0] * runs, found * reported.share[1]);
        assert_eq!(reported.flips[0] * runs, flips * reported.flips[1]);
        assert_eq!(reported.found == 1, found > 0);
        let [top, over] = [found as i64, reported.cost_bottom as i64];
        assert_eq!(reported.cost_top * top, cost * over);
    }
}

/// Each condition, in the order in which they are tried; a buffer's place is behind its number.
const ORDER: [(u32, usize); 19] = [
    (41, 0),
    (42, 0),
    (43, 0),
    (21, 0),
    (21, 1),
    (21, 2),
    (21, 3),
    (21, 4),
    (21, 5),
    (21, 6),
    (21, 7),
    (21, 8),
    (22, 0),
    (11, 0),
    (12, 0),
    (13, 0),
    (14, 0),
    (15, 0),
    (16, 0),
];

/// What is lent and asked with some conditions met.
fn faulty(random: &mut Random, faults: &[(u32, usize)]) -> (Lent, Trial, Settings) {
    let (mut tables, terms) = layout::tables(&example_plan());
    let (mut lengths, mut room) = (SIZES, NUMBERS);
    let (runs, count) = (1 + random.number() % 3, 1 + random.number() % 30);
    let mut trial = trial(random, runs, count);
    let mut settings = settings(300, 2, 30, 0);
    for &(refusal, place) in faults {
        match refusal {
            41 => trial.state.words = [0; 5],
            42 => trial.runs = [0, 1_001, u32::MAX][random.below(3)],
            43 => trial.count = [0, 16_385, 65_536, u32::MAX][random.below(4)],
            21 if place == 8 => room = random.below(NUMBERS),
            21 => lengths[place] = random.below(SIZES[place]),
            22 => tables[TABLES - 1] = 1,
            11 => settings.noise = 1_001,
            12 => settings.tries = 0,
            13 => settings.flips = 0,
            14 => settings.mode = 2,
            15 => settings.heuristic = 2,
            _ => settings.chance = 1_001,
        }
    }
    let numbers = vec![0x5a; room];
    let lent = Lent::sized(random, &tables, &terms, &numbers, lengths);
    (lent, trial, settings)
}

#[test]
fn every_refusal_and_their_order() {
    let mut random = Random::new(115);
    let (lent, trial, settings) = faulty(&mut random, &[]);
    assert_eq!(lent.check_runs(&trial, &settings).refusal, 0);
    for (place, &first) in ORDER.iter().enumerate() {
        for &second in &ORDER[place..] {
            let (lent, trial, settings) = faulty(&mut random, &[first, second]);
            let reported = lent.check_runs(&trial, &settings);
            assert_eq!(reported, Figures::refused(first.0));
        }
    }
}

/// 41 looks at the five words and not at the counter; one word that is not 0 will do.
#[test]
fn five_zero_words() {
    let mut random = Random::new(116);
    for counter in [0, 1, u32::MAX] {
        for place in 0..6 {
            let mut words = [0; 5];
            if let Some(word) = words.get_mut(place) {
                *word = 1 << random.below(32);
            }
            let state = Xorwow { words, counter };
            let trial = Trial {
                state,
                runs: 2,
                count: 9,
            };
            let reported =
                lent(&mut random, &example_plan()).check_runs(&trial, &settings(500, 2, 9, 1));
            assert_eq!(reported.refusal, [0, 41][(place == 5) as usize]);
        }
    }
}

/// What the reference reports of no find, of one, and of runs that differ.
#[test]
fn the_reference_by_hand() {
    let answer = |finds: usize, cost, flips| reference::walk::Answer {
        ending: Ending::Ended,
        cost,
        finds: vec![vec![true]; finds],
        flips,
        used: 0,
    };
    let runs = [
        answer(0, 0, 6),
        answer(2, -9, 1),
        answer(1, 3, 2),
        answer(1, -2, 3),
    ];
    let reported = figures(&runs);
    assert_eq!(reported.share, (3, 4));
    assert_eq!(reported.flips, (3, 1));
    assert_eq!(reported.cost, Some((-8, 3)));
    assert_eq!(figures(&runs[..1]).share, (0, 1));
    assert_eq!(figures(&runs[..1]).cost, None);
}
