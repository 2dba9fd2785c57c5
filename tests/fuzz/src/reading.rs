//! Reading any OPB text.

use crate::making;
use harness::guarded::Guarded;
use harness::layout::{self, TABLES, TERM_TABLE};
use harness::planner::{read_opb, Loaded};
use reference::opb_read::{read, texts};
use reference::random::Random;

/// A text of a plan's rules, damaged some times or not at all, or any bytes.
fn text(random: &mut Random) -> Vec<u8> {
    if random.percent(5) {
        let length = random.below(200);
        return (0..length).map(|_| random.number() as u8).collect();
    }
    let plan = making::plan(random);
    let mut text = texts::spelled(random, &plan);
    while random.percent(50) {
        text = texts::damaged(random, text);
    }
    text
}

pub fn case(random: &mut Random) -> u32 {
    let text = text(random);
    let lengths = [TABLES, TERM_TABLE].map(|size| making::length(random, size));
    let mut lent = lengths.map(|length| Guarded::sized(random, &[], length));
    let mut wanted = lent.clone();
    let refused = |refusal, offset| Loaded { refusal, offset };
    let answer = if lengths[0] < TABLES || lengths[1] < TERM_TABLE {
        refused(21, 0)
    } else {
        match read(&text) {
            Err(refusal) => refused(refusal.number, refusal.offset),
            Ok(plan) => {
                let (tables, terms) = layout::tables(&plan);
                wanted[0].lend()[..TABLES].copy_from_slice(&tables);
                wanted[1].lend()[..TERM_TABLE].copy_from_slice(&terms);
                refused(0, 0)
            }
        }
    };
    let [tables, terms] = &mut lent;
    assert_eq!(read_opb(&text, tables.lend(), terms.lend()), answer);
    assert!(lent == wanted, "reading left other bytes: {answer:?}");
    answer.refusal
}
