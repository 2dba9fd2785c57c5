//! Plans, and ways to spoil what is lent.

use harness::layout;
use reference::plan::Plan;
use reference::random::{self, Random};

pub fn plan(random: &mut Random) -> Plan {
    match random.below(60) {
        0 => {
            let locks = [0, 1, 100, 512][random.below(4)];
            random::locked_full_plan(random, locks)
        }
        1..=7 => random::race_plan(random),
        8..=13 => random::heavy_plan(random),
        14..=25 => random::cap_plan(random),
        26..=42 => random::small_plan(random),
        _ => random::small_met_plan(random),
    }
}

/// A length for a buffer of this size: mostly the size or some bytes more, at times less.
pub fn length(random: &mut Random, size: usize) -> usize {
    match random.below(200) {
        0 => size - 1,
        1 => random.below(size),
        2..=99 => size + random.below(9),
        _ => size,
    }
}

/// A number that is often at an edge.
pub fn word(random: &mut Random) -> u32 {
    match random.below(5) {
        0 => random.number(),
        1 => random.number() >> random.below(32),
        2 => (random.number() >> random.below(32)).wrapping_neg(),
        3 => {
            let edges = [
                1,
                2,
                3,
                4,
                512,
                513,
                1_000,
                1_024,
                6_000,
                1_000_000,
                1_000_000_000,
            ];
            let edge: u32 = edges[random.below(edges.len())];
            edge.wrapping_add(random.below(3) as u32).wrapping_sub(1)
        }
        _ => [0, 1, 1 << 31, u32::MAX][random.below(4)],
    }
}

/// Changes a bit, a byte or a word, or writes one word over another; most likely among the words in
/// use, which come first in each of the `sections` (their first bytes).
pub fn spoil(random: &mut Random, bytes: &mut [u8], sections: &[usize]) {
    let section = sections[random.below(sections.len())];
    let place = |random: &mut Random| match random.below(4) {
        0 => random.below(bytes.len()),
        _ => (section + random.below(400)).min(bytes.len() - 1),
    };
    let (at, other) = (place(random), place(random));
    let last = bytes.len() / 4 - 1;
    let (word_at, other_at) = (4 * (at / 4).min(last), 4 * (other / 4).min(last));
    match random.below(5) {
        0 => bytes[at] ^= 1 << random.below(8),
        1 => bytes[at] = random.number() as u8,
        2 => bytes[word_at..word_at + 4].copy_from_slice(&word(random).to_le_bytes()),
        3 => {
            let step = if random.percent(50) { 1 } else { u32::MAX };
            let word = u32::from_le_bytes(bytes[word_at..word_at + 4].try_into().unwrap());
            bytes[word_at..word_at + 4].copy_from_slice(&word.wrapping_add(step).to_le_bytes());
        }
        _ => bytes.copy_within(word_at..word_at + 4, other_at),
    }
}

/// Where the sections of the tables begin: counts, clauses, rules, locks, ends of runs, the order
/// (docs/FORMAT.md).
const TABLE_SECTIONS: [usize; 6] = [0, 2_064, 6_168, 26_668, 28_716, 30_768];

/// Two tables: those of a plan, most often; else spoiled in a place or some, or the two of
/// different plans.
pub fn tables(random: &mut Random, plan: &Plan) -> (Vec<u8>, Vec<u8>) {
    let (mut tables, mut terms) = layout::tables(plan);
    match random.below(10) {
        0..=1 => {
            for _ in 0..1 + random.below(3) {
                match random.percent(70) {
                    true => spoil(random, &mut tables, &TABLE_SECTIONS),
                    false => spoil(random, &mut terms, &[0]),
                }
            }
        }
        2 if random.percent(20) => terms = layout::tables(&self::plan(random)).1,
        _ => {}
    }
    (tables, terms)
}
