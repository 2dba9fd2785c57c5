//! The walk: walks worked out by hand, every ending, and running short at every place.

mod common;

use common::*;
use reference::counts::Count;
use reference::plan::Plan;
use reference::random::{
    self, cap_plan, full_plan, locked_full_plan, race_plan, small_met_plan, small_plan, Random,
};
use reference::walk::*;
use reference::worked::walks;

/// The answer as the program prints it.
fn walked(plan: &Plan, settings: Settings, numbers: &[u32]) -> String {
    let answer = search(plan, &settings, numbers).unwrap();
    let digits = match answer.found() {
        Some(found) => found
            .iter()
            .map(|&bit| if bit { '1' } else { '0' })
            .collect(),
        None => "-".to_string(),
    };
    format!(
        "{} {} {} {} {} {}",
        answer.ending.name(),
        answer.cost,
        answer.finds.len(),
        answer.flips,
        answer.used,
        digits
    )
}

#[test]
fn walks_worked_out_by_hand() {
    let table = walks();
    assert!(table.len() >= 124, "{}", table.len());
    for row in table {
        let answer = walked(&row.plan, row.settings, &row.numbers);
        assert_eq!(answer, row.answer, "{}", row.why);
    }
}

/// The costs of each find of the table's longest tightening.
#[test]
fn lbs_goes_over_to_linear_for_good() {
    let free = plan(3, &[(1, 9), (2, 1), (3, 1)], &[]);
    let numbers = [7, 6, 6, 0, 0, 2, 2, 0, 0];
    let answer = search(&free, &settings(0, 1, 1, LBS), &numbers).unwrap();
    let costs: Vec<i64> = answer.finds.iter().map(|found| free.cost(found)).collect();
    assert_eq!(costs, [11, 2, 1]);
}

/// A choice among the variables 3, 5, 8 and 9 with these break counts, and how many numbers it used.
fn chosen_by(breaks: [Count; 4], noise: u32, list: &[u32]) -> (Result<usize, Short>, usize) {
    let variables = [3, 5, 8, 9];
    let mut numbers = Numbers::new(list);
    let place = |variable| variables.iter().position(|&each| each == variable).unwrap();
    let count = |variable: usize| breaks[place(variable)];
    let chosen = choose(&variables, count, noise, &mut numbers);
    (chosen.map(|chosen| chosen.variable), numbers.used())
}

#[test]
fn choice_by_hand() {
    let chosen = |breaks: [u32; 4], noise: u32, list: &[u32]| {
        chosen_by(breaks.map(Count::uncut), noise, list)
    };
    // Break count 0: a pick among those, at any noise, with one number.
    for noise in [0, 1_000] {
        assert_eq!(chosen([0, 2, 0, 0], noise, &[4]), (Ok(8), 1));
        assert_eq!(chosen([0, 2, 0, 0], noise, &[5]), (Ok(9), 1));
        assert_eq!(chosen([7, 0, 7, 7], noise, &[5]), (Ok(5), 1));
        assert_eq!(chosen([7, 0, 7, 7], noise, &[]), (Err(Short), 0));
    }
    // Below noise: among the least; else among all.
    assert_eq!(chosen([4, 2, 2, 9], 500, &[499, 3]), (Ok(8), 2));
    assert_eq!(chosen([4, 2, 2, 9], 500, &[500, 3]), (Ok(9), 2));
    assert_eq!(chosen([4, 2, 2, 9], 500, &[1_499, 2]), (Ok(5), 2));
    assert_eq!(chosen([4, 2, 2, 9], 500, &[1_500, 2]), (Ok(8), 2));
    assert_eq!(chosen([4, 2, 2, 9], 0, &[0, 0]), (Ok(3), 2));
    assert_eq!(chosen([4, 2, 2, 9], 1, &[0, 0]), (Ok(5), 2));
    assert_eq!(chosen([4, 2, 2, 9], 1, &[1, 0]), (Ok(3), 2));
    assert_eq!(chosen([4, 2, 2, 9], 1_000, &[999, 7]), (Ok(8), 2));
    // 4,294,966,295 mod 1,000 is 295; from 4,294,967,000 on a noise number is discarded.
    assert_eq!(chosen([4, 2, 2, 9], 295, &[4_294_966_295, 0]), (Ok(3), 2));
    assert_eq!(chosen([4, 2, 2, 9], 296, &[4_294_966_295, 0]), (Ok(5), 2));
    assert_eq!(chosen([4, 2, 2, 9], 296, &[u32::MAX, 0, 0]), (Ok(5), 3));
    assert_eq!(chosen([4, 2, 2, 9], 296, &[u32::MAX, 500, 3]), (Ok(9), 3));
    assert_eq!(chosen([4, 2, 2, 9], 1, &[u32::MAX - 295]), (Err(Short), 1));
    assert_eq!(chosen([4, 2, 2, 9], 1, &[u32::MAX - 296, 0]), (Ok(3), 2));
    // Equal ones tie, at the cap too.
    assert_eq!(chosen([u32::MAX; 4], 1_000, &[0, 3]), (Ok(9), 2));
    // The noise number is used up even where none is left for the pick.
    assert_eq!(chosen([4, 2, 2, 9], 500, &[499]), (Err(Short), 1));
    assert_eq!(chosen([4, 2, 2, 9], 500, &[500]), (Err(Short), 1));
    assert_eq!(chosen([4, 2, 2, 9], 500, &[]), (Err(Short), 0));
}

/// "'Least' in the choice follows this order": cut ones tie and come after every uncut one.
#[test]
fn choice_with_cut_counts() {
    let (cap, cut) = (Count::CAP, Count::CUT);
    let least = |breaks, number| chosen_by(breaks, 1_000, &[0, number]);
    // All are cut: each can be picked.
    for (number, variable) in [(0, 3), (1, 5), (2, 8), (3, 9)] {
        assert_eq!(least([cut; 4], number), (Ok(variable), 2));
    }
    // One at the cap is less than those that are cut, and two of them tie.
    assert_eq!(least([cut, cut, cap, cut], 3), (Ok(8), 2));
    assert_eq!(least([cut, cap, cut, cap], 0), (Ok(5), 2));
    assert_eq!(least([cut, cap, cut, cap], 1), (Ok(9), 2));
    assert_eq!(least([cap, cap, cap, cut], 5), (Ok(8), 2));
    // Any lower one is less than both.
    let below = Count::uncut(4_294_967_294);
    assert_eq!(least([cut, cap, cut, below], 0), (Ok(9), 2));
    assert_eq!(least([cut, Count::uncut(1), cap, below], 0), (Ok(5), 2));
    // Break count 0 needs no noise number, whatever the others are.
    assert_eq!(chosen_by([cut, cap, Count::ZERO, cut], 0, &[7]), (Ok(8), 1));
    // Among all, where the noise number says so.
    assert_eq!(chosen_by([cut, cap, cut, cut], 0, &[0, 3]), (Ok(9), 2));
}

/// "The largest multiple of m up to 4,294,967,296": a multiple, no larger, and the next one is.
#[test]
fn limits_of_picks() {
    for m in 1..=1_000 {
        let all = 4_294_967_296;
        assert!(limit(m).is_multiple_of(m as u64) && limit(m) <= all && limit(m) + m as u64 > all);
    }
    for m in [1, 2, 4, 512] {
        assert_eq!(limit(m), 4_294_967_296);
    }
    assert_eq!(limit(3), 4_294_967_295);
    assert_eq!(limit(1_000), 4_294_967_000);
}

/// Numbers around the limits: the place taken, and how many numbers were used.
#[test]
fn picks_around_their_limits() {
    let picked = |m, list: &[u32]| {
        let mut numbers = Numbers::new(list);
        (numbers.pick(m), numbers.used())
    };
    for m in [1, 2, 4, 512] {
        for r in [0, u32::MAX - 1, u32::MAX] {
            assert_eq!(picked(m, &[r]), (Ok(r as usize % m), 1));
        }
    }
    assert_eq!(picked(3, &[u32::MAX - 1]), (Ok(2), 1));
    assert_eq!(picked(3, &[u32::MAX, 4]), (Ok(1), 2));
    assert_eq!(picked(3, &[u32::MAX, u32::MAX, 5]), (Ok(2), 3));
    assert_eq!(picked(3, &[u32::MAX, u32::MAX]), (Err(Short), 2));
    assert_eq!(picked(3, &[]), (Err(Short), 0));
    assert_eq!(picked(1_000, &[4_294_966_999]), (Ok(999), 1));
    assert_eq!(picked(1_000, &[4_294_967_000, 7]), (Ok(7), 2));
    assert_eq!(picked(1_000, &[4_294_967_000]), (Err(Short), 1));
    // 513 clauses, with the added one: 513 · 8,372,256 is 4,294,967,328, and the limit is 513 below.
    assert_eq!(picked(513, &[4_294_966_814]), (Ok(512), 1));
    assert_eq!(picked(513, &[4_294_966_815, 513]), (Ok(0), 2));
}

/// What must hold of any answer, whatever the numbers; and what came up in the search.
fn check(plan: &Plan, settings: &Settings, list: &[u32], answer: &Answer) -> Seen {
    let costs: Vec<i64> = answer.finds.iter().map(|found| plan.cost(found)).collect();
    assert!(answer.finds.iter().all(|found| plan.satisfied(found)));
    assert!(answer.finds.iter().all(|found| plan.obeyed(found)));
    assert!(costs.windows(2).all(|pair| pair[1] < pair[0]));
    assert_eq!(answer.cost, costs.last().copied().unwrap_or(0));
    assert!(answer.used <= list.len());
    let found = !answer.finds.is_empty();
    match answer.ending {
        Ending::Floor => assert_eq!(costs.last(), Some(&plan.least_cost())),
        Ending::Ended | Ending::ShortFound => assert!(found && answer.cost > plan.least_cost()),
        Ending::None | Ending::ShortNone => assert!(!found),
    }
    let (same, seen) = search_seen(plan, settings, list).unwrap();
    assert_eq!(&same, answer);
    // A clause whose variables are all locked holds always or never, so a search that meets one
    // has no find, and each such try leaves at least one flip unmade.
    assert!(seen.stuck == 0 || !found);
    if answer.ending == Ending::None {
        let whole = settings.tries as u64 * settings.flips as u64;
        let most = whole - seen.stuck;
        assert!(answer.flips <= most && (seen.stuck > 0 || answer.flips == whole));
    }
    seen
}

/// What came up in searches of plans with locks.
#[test]
fn plans_with_locks() {
    let mut random = Random::new(34);
    let (mut stuck, mut partly, mut found, mut floors) = (0, 0, 0, 0);
    for round in 0..4_000 {
        let plan = match round % 3 {
            0 => small_plan(&mut random),
            _ => small_met_plan(&mut random),
        };
        let settings = random::settings(&mut random);
        let list = random.any_numbers(80);
        let (answer, seen) = search_seen(&plan, &settings, &list).unwrap();
        check(&plan, &settings, &list, &answer);
        if plan.locks.is_empty() {
            assert_eq!((seen.stuck, seen.partly_locked), (0, 0));
            continue;
        }
        stuck += seen.stuck;
        partly += seen.partly_locked;
        found += !answer.finds.is_empty() as u32;
        let unlocked = plan.objective.iter().map(|term| term.weight.min(0)).sum();
        let moved = plan.least_cost() != unlocked;
        floors += (answer.ending == Ending::Floor && moved) as u32;
    }
    let least = stuck.min(partly).min(found.min(floors) as u64);
    assert!(least > 100, "{stuck} {partly} {found} {floors}");
}

/// Choices among the least break counts where some are cut, or the cap itself.
#[test]
fn plans_around_the_cap() {
    let mut random = Random::new(36);
    let mut leasts = Leasts::default();
    for _ in 0..1_000 {
        let plan = cap_plan(&mut random);
        let mut settings = random::settings(&mut random);
        settings.noise = settings.noise.max(500);
        let list = random.any_numbers(100);
        let answer = search(&plan, &settings, &list).unwrap();
        leasts += check(&plan, &settings, &list, &answer).leasts;
    }
    let named = leasts.named();
    assert!(named.iter().all(|&(_, count)| count > 100), "{named:?}");
}

/// l(O) is no more than the cost of any assignment that obeys the locks, and some has that cost.
#[test]
fn the_floor_of_small_plans() {
    let mut random = Random::new(35);
    for _ in 0..2_000 {
        let plan = small_plan(&mut random);
        let all = (0..1_u32 << plan.variables).map(|bits| -> Vec<bool> {
            let bit = |place| bits >> place & 1 == 1;
            (0..plan.variables).map(bit).collect()
        });
        let least = all.filter(|bits| plan.obeyed(bits)).map(|b| plan.cost(&b));
        assert_eq!(least.min(), Some(plan.least_cost()));
    }
}

#[test]
fn every_ending_and_running_short_at_every_place() {
    let mut random = Random::new(31);
    let (mut met, mut picks) = ([0; 5], Picks::default());
    for round in 0..3_000 {
        let plan = match round % 3 {
            0 => small_plan(&mut random),
            _ => small_met_plan(&mut random),
        };
        let mut settings = random::settings(&mut random);
        settings.tries = 1 + settings.tries % 3;
        settings.flips = 1 + settings.flips % 12;
        let list = random.any_numbers(60);
        let whole = search(&plan, &settings, &list).unwrap();
        picks += check(&plan, &settings, &list, &whole).picks;
        met[whole.ending as usize] += 1;
        let is_short =
            |answer: &Answer| matches!(answer.ending, Ending::ShortFound | Ending::ShortNone);
        for cut in 0..list.len() {
            let part = search(&plan, &settings, &list[..cut]).unwrap();
            if !is_short(&whole) && cut >= whole.used {
                assert_eq!(part, whole);
                continue;
            }
            // Short of its needs: with at most 32 variables every need is one number.
            picks += check(&plan, &settings, &list[..cut], &part).picks;
            assert!(is_short(&part) && part.used == cut);
            assert!(whole.finds.starts_with(&part.finds));
            assert!(part.flips <= whole.flips);
            met[part.ending as usize] += 1;
        }
    }
    assert!(met.iter().all(|&count| count > 100), "{met:?}");
    let named = picks.named();
    assert!(named.iter().all(|&(_, n)| n > 1_000), "{named:?}");
}

#[test]
fn race_day() {
    let mut random = Random::new(32);
    let mut finds = 0;
    for mode in [LINEAR, LBS, LINEAR, LBS] {
        let plan = race_plan(&mut random);
        let list = random.numbers(16_384);
        let settings = settings(500, 10, 1_000, mode);
        let answer = search(&plan, &settings, &list).unwrap();
        check(&plan, &settings, &list, &answer);
        finds += answer.finds.len();
    }
    assert!(finds > 4);
}

#[test]
fn the_full_limits() {
    let mut random = Random::new(33);
    let mut met = [0; 5];
    for mode in [LINEAR, LBS, LINEAR, LBS] {
        let plan = full_plan(&mut random);
        let list = random.numbers(3_000);
        let settings = settings(800, 3, 1_000, mode);
        let answer = search(&plan, &settings, &list).unwrap();
        check(&plan, &settings, &list, &answer);
        assert!(answer.flips > 500);
        met[answer.ending as usize] += 1;
    }
    assert!(met[Ending::ShortFound as usize] > 0, "{met:?}");
    // 512 locks: the first start is the one assignment that obeys them, and the floor.
    let mut plan = locked_full_plan(&mut random, 512);
    let (list, once) = (random.numbers(100), settings(800, 3, 1_000, LBS));
    let answer = search(&plan, &once, &list).unwrap();
    assert_eq!(
        (answer.ending, answer.flips, answer.used),
        (Ending::Floor, 0, 16)
    );
    // The other way round no assignment that obeys them is a solution: each try is stuck.
    for lock in &mut plan.locks {
        lock.value = !lock.value;
    }
    let answer = search(&plan, &once, &list).unwrap();
    assert_eq!(
        (answer.ending, answer.flips, answer.used),
        (Ending::None, 0, 51)
    );
}
