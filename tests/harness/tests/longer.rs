//! "A longer list never hurts" (document 02, T-13), on the proved archive: every prefix of a list, those that end within a number too, against the list.

use harness::planner::Searched;
use harness::searching::{ending, Lent};
use reference::file::write_numbers;
use reference::plan::Plan;
use reference::random::{self, Random};
use reference::walk::{Ending, Settings, LBS, LINEAR};

/// How often a prefix ended the same as the whole list, ran short with a find and was bettered or not, or ran short with none.
#[derive(Debug, Default)]
struct CameUp {
    same: u64,
    cheaper: u64,
    no_cheaper: u64,
    nothing_yet: u64,
}

/// Searches with a prefix and with the whole list, on buffers lent alike.
fn both(
    random: &mut Random,
    plan: &Plan,
    settings: &Settings,
    list: &[u8],
    length: usize,
) -> [(Searched, Lent); 2] {
    let mut longer = Lent::new(random, plan, list);
    let mut shorter = longer.clone();
    shorter.numbers = Lent::new(random, plan, &list[..length]).numbers;
    let (some, all) = (shorter.search(settings), longer.search(settings));
    [(some, shorter), (all, longer)]
}

fn compare(random: &mut Random, plan: &Plan, settings: &Settings, list: &[u8], seen: &mut CameUp) {
    for length in 0..=list.len() {
        let [(some, shorter), (all, longer)] = both(random, plan, settings, list, length);
        assert_eq!((some.refusal, all.refusal), (0, 0));
        if some.ending == ending(Ending::ShortNone) {
            seen.nothing_yet += 1;
        } else if some.ending == ending(Ending::ShortFound) {
            assert!(all.cost <= some.cost && some.finds <= all.finds);
            let count = if all.cost < some.cost {
                &mut seen.cheaper
            } else {
                &mut seen.no_cheaper
            };
            *count += 1;
        } else {
            assert_eq!(some, all);
            assert!(shorter.assignment == longer.assignment && shorter.work == longer.work);
            seen.same += 1;
        }
    }
}

#[test]
fn every_prefix_of_a_list() {
    let mut random = Random::new(1_301);
    let mut seen = CameUp::default();
    for round in 0..160 {
        let plan = random::small_met_plan(&mut random);
        let mut settings = random::settings(&mut random);
        settings.tries = 1 + settings.tries % 3;
        settings.flips = 1 + settings.flips % 12;
        settings.mode = [LINEAR, LBS][round % 2];
        let count = 1 + random.below(40);
        let list = write_numbers(&random.any_numbers(count));
        compare(&mut random, &plan, &settings, &list, &mut seen);
    }
    let CameUp {
        same,
        cheaper,
        no_cheaper,
        nothing_yet,
    } = seen;
    assert!(
        [same, cheaper, no_cheaper, nothing_yet]
            .iter()
            .all(|&count| count > 50),
        "{seen:?}"
    );
}

/// The race day with its list cut here and there.
#[test]
fn prefixes_of_the_race_day() {
    let mut random = Random::new(1_302);
    let plan =
        reference::file::parse(include_bytes!("../../../examples/race-day/plan.bin")).unwrap();
    let walk = include_bytes!("../../../examples/race-day/walk.bin");
    let settings = reference::file::parse_settings(walk).unwrap();
    let list = include_bytes!("../../../examples/race-day/numbers.bin");
    let mut last: Option<Searched> = None;
    for length in (0..list.len()).step_by(5_003).chain([list.len()]) {
        let [(some, _), _] = both(&mut random, &plan, &settings, list, length);
        if let Some(before) = last.filter(|before| before.finds > 0) {
            assert!(some.cost <= before.cost && before.finds <= some.finds);
        }
        last = Some(some);
    }
}
