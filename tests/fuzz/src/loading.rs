//! Loading any bytes.

use crate::making;
use harness::guarded::Guarded;
use harness::layout::{self, TABLES, TERM_TABLE};
use harness::planner::{load, Loaded};
use reference::file::{self, write_field};
use reference::random::{damage, Random};

/// A file: a plan's, damaged once or more, a row of fields, or any bytes.
pub fn bytes(random: &mut Random) -> Vec<u8> {
    let plan = making::plan(random);
    let mut bytes = file::write(&plan);
    match random.below(10) {
        0 => {
            let length = random.below(400);
            bytes = (0..length).map(|_| random.number() as u8).collect();
        }
        1 => {
            bytes.clear();
            for tag in [1, 2].into_iter().chain((0..random.below(8)).map(|_| 3)) {
                let tag = [tag, tag, tag, 4, random.number() as u8 % 8][random.below(5)];
                let length = [0, 2, 3, 6, 12, 15, 21, random.below(40)][random.below(8)];
                let body: Vec<u8> = (0..length).map(|_| random.number() as u8 % 4).collect();
                bytes.extend(write_field(tag, &body));
            }
        }
        2..=3 => {}
        4..=7 => bytes = damage(random, &bytes),
        _ => {
            for _ in 0..1 + random.below(4) {
                if bytes.len() > 3 {
                    bytes = damage(random, &bytes);
                }
            }
        }
    }
    bytes
}

pub fn case(random: &mut Random) -> u32 {
    let bytes = bytes(random);
    let lengths = [TABLES, TERM_TABLE].map(|size| making::length(random, size));
    let mut lent = lengths.map(|length| Guarded::sized(random, &[], length));
    let mut wanted = lent.clone();
    let refused = |refusal, offset| Loaded { refusal, offset };
    let answer = if lengths[0] < TABLES || lengths[1] < TERM_TABLE {
        refused(21, 0)
    } else {
        match file::parse(&bytes) {
            Err(refusal) => refused(refusal.number, refusal.offset),
            Ok(plan) => {
                let (tables, terms) = layout::tables(&plan);
                wanted[0].lend()[..TABLES].copy_from_slice(&tables);
                wanted[1].lend()[..TERM_TABLE].copy_from_slice(&terms);
                refused(0, 0)
            }
        }
    };
    let file = Guarded::sized(random, &bytes, bytes.len());
    let [tables, terms] = &mut lent;
    assert_eq!(load(file.bytes(), tables.lend(), terms.lend()), answer);
    assert!(lent == wanted, "loading left other bytes: {answer:?}");
    answer.refusal
}
