//! Writing any tables as an OPB text, into a buffer of any length.

use crate::making;
use harness::guarded::Guarded;
use harness::layout::{self, TABLES, TERM_TABLE};
use harness::planner::{write_opb, Written};
use reference::opb_write::write;
use reference::random::Random;

/// The text of the plan of some tables; else the first condition met in the order 21, 22.
fn text(tables: &[u8], terms: &[u8]) -> Result<String, u32> {
    if tables.len() < TABLES || terms.len() < TERM_TABLE {
        return Err(21);
    }
    let plan = layout::loaded(tables, terms).ok_or(22_u32)?;
    Ok(write(&plan))
}

pub fn case(random: &mut Random) -> u32 {
    let plan = making::plan(random);
    let (mut tables, mut terms) = layout::tables(&plan);
    if random.percent(10) {
        layout::turn_a_bit(random, &plan, &mut tables, &mut terms);
    }
    tables.resize(making::length(random, TABLES), 0x3c);
    terms.resize(making::length(random, TERM_TABLE), 0xc3);
    let text = text(&tables, &terms);
    let needed = text.as_ref().map_or(99, String::len);
    let room = match random.below(4) {
        0 => random.below(needed + 1),
        1 => needed,
        _ => needed + random.below(99),
    };
    let mut buffer = Guarded::sized(random, &[], room);
    let mut wanted_buffer = buffer.clone();
    let (refusal, length) = match text {
        Err(refusal) => (refusal, 0),
        Ok(text) if room < text.len() => (33, text.len()),
        Ok(text) => {
            wanted_buffer.lend()[..text.len()].copy_from_slice(text.as_bytes());
            (0, text.len())
        }
    };
    assert_eq!(
        write_opb(&tables, &terms, buffer.lend()),
        Written { refusal, length }
    );
    assert!(
        buffer == wanted_buffer,
        "writing left other bytes: {refusal}"
    );
    refusal
}
