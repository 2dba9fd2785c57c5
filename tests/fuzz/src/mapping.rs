//! A plan file from any two lists, into a buffer of any size.

use crate::making;
use harness::guarded::Guarded;
use harness::mapper::{map, refused, Mapped};
use reference::csv::{mapped, LEAST_ROOM};
use reference::file::write;
use reference::mapper::{damage, lists, sound};
use reference::random::Random;

/// A mapper's two lists, damaged some times or not at all; at times one of them is any bytes.
fn two_lists(random: &mut Random) -> [Vec<u8>; 2] {
    let most = 1 + random.below(12);
    let (sites, zones) = sound(random, most);
    let (sites, zones) = lists(random, &sites, &zones);
    let mut both = [sites, zones];
    for _ in 0..random.below(4) {
        let list = &mut both[random.below(2)];
        *list = damage(random, list);
    }
    if random.percent(5) {
        let length = random.below(60);
        both[random.below(2)] = (0..length).map(|_| random.below(256) as u8).collect();
    }
    both
}

pub fn case(random: &mut Random) -> u32 {
    let [sites, zones] = two_lists(random);
    let room = making::length(random, LEAST_ROOM);
    let mut plan = Guarded::sized(random, &[], room);
    let mut wanted_plan = plan.clone();
    let wanted = match mapped(&sites, &zones, room) {
        Err(refusal) => refused(refusal),
        Ok(expected) => {
            let file = write(&expected);
            wanted_plan.lend()[..file.len()].copy_from_slice(&file);
            Mapped {
                refusal: 0,
                list: 0,
                row: 0,
                length: file.len(),
            }
        }
    };
    assert_eq!(map(&sites, &zones, plan.lend()), wanted);
    assert!(plan == wanted_plan, "mapping left other bytes: {wanted:?}");
    wanted.refusal
}
