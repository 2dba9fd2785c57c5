//! The search against the reference: answers, every byte of every buffer, refusals in their order.

use harness::layout::{self, Part};
use harness::planner::Searched;
use harness::searching::{refused, Lent, ENDINGS, SIZES};
use reference::file::{parse, parse_settings, write_numbers};
use reference::making;
use reference::novelty::Ways;
use reference::plan::Plan;
use reference::random::{self, Random};
use reference::walk::{Leasts, Picks, Settings, LBS, LINEAR, NOVELTY, SKC};
use reference::worked::walks;

/// Searches on noisy buffers and compares all with the reference.
fn check(random: &mut Random, plan: &Plan, settings: &Settings, numbers: &[u8]) -> Searched {
    Lent::new(random, plan, numbers).check(settings)
}

/// An answer as the table of worked walks has it.
fn line(answer: &Searched, assignment: &[u8]) -> String {
    let ending = ENDINGS[answer.ending as usize - 1].name();
    let digits: String = match answer.finds {
        0 => "-".to_string(),
        _ => assignment.iter().map(|bit| bit.to_string()).collect(),
    };
    let Searched {
        cost,
        finds,
        flips,
        used,
        ..
    } = answer;
    format!("{ending} {cost} {finds} {flips} {used} {digits}")
}

/// Settings under which a search often ends within a hundred numbers.
fn short_settings(random: &mut Random) -> Settings {
    let mut settings = random::settings(random);
    settings.tries = 1 + settings.tries % 3;
    settings.flips = 1 + settings.flips % 12;
    settings
}

fn list(random: &mut Random, count: usize) -> Vec<u8> {
    write_numbers(&random.any_numbers(count))
}

/// Each of these came up so often: discards of both kinds, a list that ends among them, numbers kept
/// right below a limit and at the top where nothing is discarded, and starts with high numbers.
fn came_up(picks: &Picks, least: u64) {
    let named = picks.named();
    assert!(named.iter().all(|&(_, count)| count > least), "{named:?}");
}

/// "n = 2, objective 1·x1 + 2·x2, one clause x1 + x2 ≥ 1; noise 500, tries 1, flips 1, mode 1;
/// numbers 2 1 0 5 900 3 0 5 100 0": `ended 1 2 2 10` and `10`.
#[test]
fn the_example_of_document_01() {
    let mut random = Random::new(41);
    let plan = parse(include_bytes!("../../../examples/two-sites/plan.bin")).unwrap();
    let settings = parse_settings(include_bytes!("../../../examples/two-sites/walk.bin")).unwrap();
    let numbers = include_bytes!("../../../examples/two-sites/numbers.bin");
    assert_eq!(
        numbers[..],
        write_numbers(&[2, 1, 0, 5, 900, 3, 0, 5, 100, 0])
    );
    let mut lent = Lent::new(&mut random, &plan, numbers);
    let before = lent.clone();
    let wanted = Searched {
        refusal: 0,
        ending: 2,
        cost: 1,
        finds: 2,
        flips: 2,
        used: 10,
    };
    assert_eq!(lent.search(&settings), wanted);
    assert_eq!(lent.assignment.bytes()[..2], [1, 0]);
    assert_eq!(lent.assignment.bytes()[2..], before.assignment.bytes()[2..]);
    // Each cut of the list, within a number too.
    for length in 0..=numbers.len() {
        check(&mut random, &plan, &settings, &numbers[..length]);
    }
}

/// The walks worked out by hand, through the library: the answer is the table's, and every byte is
/// as the reference has it.
#[test]
fn walks_worked_out_by_hand() {
    let mut random = Random::new(52);
    for row in walks() {
        let numbers = write_numbers(&row.numbers);
        let mut lent = Lent::new(&mut random, &row.plan, &numbers);
        lent.clone().check(&row.settings);
        let answer = lent.search(&row.settings);
        let found = &lent.assignment.bytes()[..row.plan.variables];
        assert_eq!(line(&answer, found), row.answer, "{}", row.why);
    }
}

#[test]
fn the_race_day_example() {
    let mut random = Random::new(42);
    let plan = parse(include_bytes!("../../../examples/race-day/plan.bin")).unwrap();
    let settings = parse_settings(include_bytes!("../../../examples/race-day/walk.bin")).unwrap();
    let numbers = include_bytes!("../../../examples/race-day/numbers.bin");
    let expected = include_str!("../../../examples/race-day/expected.txt");
    let answer = check(&mut random, &plan, &settings, numbers);
    let Searched {
        cost,
        finds,
        flips,
        used,
        ..
    } = answer;
    let line = format!("ended {cost} {finds} {flips} {used}");
    assert_eq!(Some(line.as_str()), expected.lines().next());
    for length in (0..numbers.len()).step_by(1_237) {
        check(&mut random, &plan, &settings, &numbers[..length]);
    }
}

/// A list on which a search ends, and every start of it: it runs short at every place there is.
#[test]
fn running_short_at_every_place() {
    let mut random = Random::new(43);
    let (mut whole, mut met, mut picks) = (0, [0; 6], Picks::default());
    while whole < 150 {
        let plan = match random.below(4) {
            0 => random::small_plan(&mut random),
            1 => random::race_plan(&mut random),
            _ => random::small_met_plan(&mut random),
        };
        let settings = short_settings(&mut random);
        let numbers = list(&mut random, 120);
        let answer = Lent::new(&mut random, &plan, &numbers).wanted(&settings).0;
        if answer.ending > 3 || !(8..=118).contains(&answer.used) {
            continue;
        }
        for used in 0..=answer.used + 1 {
            // At times some bytes of the next number.
            let cut = 4 * used + [0, random.below(4)][random.below(2)];
            let lent = Lent::new(&mut random, &plan, &numbers[..cut]);
            let (part, seen) = lent.check_seen(&settings);
            picks += seen.picks;
            assert!(part.ending > 3 || used >= answer.used);
            met[part.ending as usize] += 1;
        }
        whole += 1;
    }
    assert!(met[1..].iter().all(|&count| count > 20), "{met:?}");
    came_up(&picks, 50);
}

#[test]
fn random_small_plans() {
    let mut random = Random::new(44);
    let (mut met, mut stuck, mut partly, mut found) = ([0; 6], 0, 0, 0);
    let (mut picks, mut ways) = (Picks::default(), Ways::default());
    for round in 0..6_000 {
        let plan = match round % 3 {
            0 => random::small_plan(&mut random),
            _ => random::small_met_plan(&mut random),
        };
        let settings = match round % 2 {
            0 => random::settings(&mut random),
            _ => short_settings(&mut random),
        };
        let count = random.below(250);
        let mut numbers = list(&mut random, count);
        numbers.truncate(numbers.len().saturating_sub(random.below(4)));
        let (answer, seen) = Lent::new(&mut random, &plan, &numbers).check_seen(&settings);
        met[answer.ending as usize] += 1;
        picks += seen.picks;
        ways += seen.ways;
        stuck += (seen.stuck > 0) as u32;
        partly += (seen.partly_locked > 0) as u32;
        found += (answer.finds > 0 && !plan.locks.is_empty()) as u32;
    }
    assert!(met[1..].iter().all(|&count| count > 100), "{met:?}");
    // Tries that a locked clause ended, choices beside locked variables, finds that obey locks.
    assert!(
        stuck > 50 && partly.min(found) > 500,
        "{stuck} {partly} {found}"
    );
    came_up(&picks, 100);
    // Every way in which Novelty+ comes to a variable, and ties that age and number decide.
    let named = ways.named();
    let small = named.iter().filter(|(name, _)| *name != "novelty cut");
    assert!(small.clone().all(|&(_, count)| count > 200), "{named:?}");
}

/// Novelty+ on plans whose counts lie around the cap: a cut count stands as the cap, so that it ties
/// with it.
#[test]
fn novelty_around_the_cap() {
    let mut random = Random::new(54);
    let (mut met, mut ways) = ([0; 6], Ways::default());
    for round in 0..2_000 {
        let plan = match round % 2 {
            0 => random::cap_plan(&mut random),
            _ => random::heavy_plan(&mut random),
        };
        let settings = random::settings(&mut random);
        let settings = making::novelty(settings, [0, 100, 500][random.below(3)]);
        let numbers = list(&mut random, 80);
        let (answer, seen) = Lent::new(&mut random, &plan, &numbers).check_seen(&settings);
        met[answer.ending as usize] += 1;
        ways += seen.ways;
    }
    assert!(met[1..].iter().all(|&count| count > 20), "{met:?}");
    let named = ways.named();
    assert!(named.iter().all(|&(_, count)| count > 50), "{named:?}");
}

/// Counts on both sides of the cap, and ties above it.
#[test]
fn heavy_plans() {
    let mut random = Random::new(45);
    let (mut met, mut least, mut leasts) = ([0; 6], 0, Leasts::default());
    for _ in 0..1_000 {
        let plan = random::heavy_plan(&mut random);
        let mut settings = random::settings(&mut random);
        if random.percent(50) {
            settings.noise = 1_000;
        }
        let numbers = list(&mut random, 100);
        let (answer, seen) = Lent::new(&mut random, &plan, &numbers).check_seen(&settings);
        met[answer.ending as usize] += 1;
        least += seen.least;
        leasts += seen.leasts;
    }
    assert!(met[1..].iter().all(|&count| count > 20), "{met:?}");
    let (alone, ties) = (leasts.cut_alone, leasts.cut_ties);
    assert!(
        ties > 100 && least - alone - ties > 100,
        "{least} {leasts:?}"
    );
}

/// Least counts at the cap and beside it: of two that are given out as 4,294,967,295, one cut and one
/// not, the latter is less; two that are cut tie.
#[test]
fn plans_around_the_cap() {
    let mut random = Random::new(53);
    let (mut met, mut leasts) = ([0; 6], Leasts::default());
    for _ in 0..2_000 {
        let plan = random::cap_plan(&mut random);
        let mut settings = random::settings(&mut random);
        if random.percent(50) {
            settings.noise = 1_000;
        }
        let numbers = list(&mut random, 60);
        let (answer, seen) = Lent::new(&mut random, &plan, &numbers).check_seen(&settings);
        met[answer.ending as usize] += 1;
        leasts += seen.leasts;
    }
    assert!(met[1..].iter().all(|&count| count > 20), "{met:?}");
    let named = leasts.named();
    assert!(named.iter().all(|&(_, count)| count > 100), "{named:?}");
}

#[test]
fn race_size_plans() {
    let mut random = Random::new(46);
    let mut finds = 0;
    for round in 0..24 {
        let plan = random::race_plan(&mut random);
        let settings = Settings {
            noise: [500, 0, 1_000, 50][round % 4],
            tries: 1 + random.number() % 10,
            flips: 1 + random.number() % 1_000,
            mode: [LINEAR, LBS][round % 2],
            heuristic: [SKC, NOVELTY][round / 2 % 2],
            chance: [10, 300][round / 4 % 2],
        };
        let numbers = list(&mut random, 4_000);
        finds += check(&mut random, &plan, &settings, &numbers).finds;
    }
    assert!(finds > 40, "{finds}");
}

#[test]
fn the_full_limits() {
    let mut random = Random::new(47);
    let mut finds = 0;
    for (mode, heuristic, locks) in [
        (LINEAR, SKC, 0),
        (LBS, SKC, 0),
        (LINEAR, SKC, 300),
        (LBS, SKC, 60),
        (LBS, SKC, 512),
        (LBS, NOVELTY, 0),
        (LINEAR, NOVELTY, 60),
    ] {
        let plan = random::locked_full_plan(&mut random, locks);
        let numbers = list(&mut random, 2_500);
        let settings = Settings {
            noise: 800,
            tries: 3,
            flips: 1_000,
            mode,
            heuristic,
            chance: 10,
        };
        finds += check(&mut random, &plan, &settings, &numbers).finds;
    }
    assert!(finds > 0);
}

/// One buffer one byte short, or empty: 21, whatever else is wrong. The list of numbers may have
/// any length.
#[test]
fn each_buffer_one_byte_short() {
    let mut random = Random::new(48);
    let plan = random::race_plan(&mut random);
    let (tables, terms) = layout::tables(&plan);
    let good = short_settings(&mut random);
    let bad = Settings {
        noise: 1_001,
        tries: 0,
        flips: 0,
        mode: 2,
        heuristic: 2,
        chance: 1_001,
    };
    let numbers = list(&mut random, 50);
    for place in 0..SIZES.len() {
        for length in [SIZES[place] - 1, 0] {
            for settings in [good, bad] {
                for spoil in [0, 0x80] {
                    let mut lengths = SIZES;
                    lengths[place] = length;
                    let mut tables = tables.clone();
                    tables[0] ^= spoil;
                    let lent = Lent::sized(&mut random, &tables, &terms, &numbers, lengths);
                    assert_eq!(lent.check(&settings), refused(21), "buffer {place}");
                }
            }
        }
    }
    for length in 0..9 {
        let answer = check(&mut random, &plan, &good, &numbers[..length]);
        assert_eq!(answer.refusal, 0);
    }
}

/// A single changed bit of good tables: 22, or a search of the plan that another file leaves.
#[test]
fn single_bits_of_tables() {
    let mut random = Random::new(49);
    let (mut met, mut locks, mut order) = ([0; 2], [0; 2], [0; 2]);
    for _ in 0..3_000 {
        let plan = random::race_plan(&mut random);
        let (mut tables, mut terms) = layout::tables(&plan);
        let part = layout::turn_a_bit(&mut random, &plan, &mut tables, &mut terms);
        let settings = short_settings(&mut random);
        let numbers = list(&mut random, 20);
        let lent = Lent::sized(&mut random, &tables, &terms, &numbers, SIZES);
        let refusal = lent.check(&settings).refusal;
        met[(refusal == 22) as usize] += 1;
        locks[(refusal == 22) as usize] += (part == Part::Locks) as u32;
        order[(refusal == 22) as usize] += (part == Part::Order) as u32;
    }
    assert!(met.iter().all(|&count| count > 300), "{met:?}");
    assert!(locks.iter().all(|&count| count > 100), "{locks:?}");
    assert!(order[0] == 0 && order[1] > 500, "{order:?}");
}

#[test]
fn settings_at_their_edges() {
    let mut random = Random::new(50);
    let plan = random::small_met_plan(&mut random);
    let numbers = list(&mut random, 100);
    let good = making::settings(500, 2, 20, LBS);
    type Set = fn(&mut Settings, u32);
    let cases: [(u32, Set, &[u32], &[u32]); 6] = [
        (
            11,
            |s, n| s.noise = n,
            &[0, 1_000],
            &[1_001, 65_536, u32::MAX],
        ),
        (
            12,
            |s, n| s.tries = n,
            &[1, 1_000],
            &[0, 1_001, 65_537, u32::MAX],
        ),
        (
            13,
            |s, n| s.flips = n,
            &[1, 1_000_000],
            &[0, 1_000_001, u32::MAX],
        ),
        (14, |s, n| s.mode = n, &[0, 1], &[2, 256, 257, u32::MAX]),
        (15, |s, n| s.heuristic = n, &[0, 1], &[2, 256, u32::MAX]),
        (
            16,
            |s, n| s.chance = n,
            &[0, 1_000],
            &[1_001, 65_536, u32::MAX],
        ),
    ];
    // The chance is judged under SKC too.
    for good in [good, making::novelty(good, 10)] {
        for (number, set, inside, outside) in cases {
            for &value in inside.iter().chain(outside) {
                let mut settings = good;
                set(&mut settings, value);
                let refusal = check(&mut random, &plan, &settings, &numbers).refusal;
                let wanted = if inside.contains(&value) { 0 } else { number };
                assert_eq!(refusal, wanted, "{settings:?}");
            }
        }
    }
}

/// Every set of conditions at once: the first in the order 21, 22, 11, 12, 13, 14, 15, 16 is
/// answered, and no byte changes.
#[test]
fn refusals_in_their_order() {
    let mut random = Random::new(51);
    for set in 0..256_u32 {
        let plan = random::race_plan(&mut random);
        let (mut tables, terms) = layout::tables(&plan);
        let mut settings = short_settings(&mut random);
        let mut lengths = SIZES;
        let conditions = [21, 22, 11, 12, 13, 14, 15, 16];
        let met = |number| set >> conditions.iter().position(|&c| c == number).unwrap() & 1 == 1;
        if met(21) {
            lengths[random.below(SIZES.len())] -= 1;
        }
        if met(22) {
            tables[4 + random.below(12)] ^= 0x80;
        }
        if met(11) {
            settings.noise = 1_001;
        }
        if met(12) {
            settings.tries = 1_001;
        }
        if met(13) {
            settings.flips = 0;
        }
        if met(14) {
            settings.mode = 2;
        }
        if met(15) {
            settings.heuristic = 2;
        }
        if met(16) {
            settings.chance = 1_001;
        }
        let numbers = list(&mut random, 30);
        let mut lent = Lent::sized(&mut random, &tables, &terms, &numbers, lengths);
        let before = lent.clone();
        let answer = lent.search(&settings);
        match conditions.into_iter().find(|&number| met(number)) {
            Some(number) => {
                assert_eq!(answer, refused(number));
                assert!(lent == before, "a refused search ({number}) changed a byte");
            }
            None => assert_eq!(answer.refusal, 0),
        }
    }
}
