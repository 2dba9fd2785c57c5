//! Festivals of any races, in buffers that may be too short.

use harness::festivals::{any_stakes, check_festival};
use reference::random::Random;

/// The refusal of the festival, or 0.
pub fn case(random: &mut Random) -> u32 {
    let stakes = any_stakes(random);
    let short = [None, Some(random.below(3))][random.percent(15) as usize];
    check_festival(random, &stakes, short, 100).map_or_else(|refusal| refusal, |_| 0)
}
