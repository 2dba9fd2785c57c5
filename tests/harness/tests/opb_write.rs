//! Writing a loaded plan as an OPB text against the reference: the answer, every byte of the buffer,
//! and nothing outside of it.

use harness::guarded::Guarded;
use harness::layout::{self, Part, TABLES, TERM_TABLE};
use harness::planner::{load, write_opb, Written};
use reference::file;
use reference::making::from_hexadecimal;
use reference::opb_write::write;
use reference::plan::Plan;
use reference::random::{self, Random};
use std::collections::BTreeMap;

/// The tables of a plan's file.
fn loaded(bytes: &[u8]) -> (Vec<u8>, Vec<u8>) {
    let (mut tables, mut terms) = (vec![0; TABLES], vec![0; TERM_TABLE]);
    assert_eq!(load(bytes, &mut tables, &mut terms).refusal, 0);
    (tables, terms)
}

/// Writes the plan of some tables into a noisy buffer of a length, and compares everything.
fn check(
    random: &mut Random,
    tables: &[u8],
    terms: &[u8],
    wanted: Result<&str, u32>,
    length: usize,
) -> u32 {
    let mut buffer = Guarded::sized(random, &[], length);
    let mut after = buffer.clone();
    let answer = match wanted {
        Ok(text) if text.len() <= length => {
            after.lend()[..text.len()].copy_from_slice(text.as_bytes());
            (0, text.len())
        }
        Ok(text) => (33, text.len()),
        Err(refusal) => (refusal, 0),
    };
    let answer = Written {
        refusal: answer.0,
        length: answer.1,
    };
    assert_eq!(write_opb(tables, terms, buffer.lend()), answer);
    assert!(buffer == after, "the buffer differs after {answer:?}");
    answer.refusal
}

#[test]
fn cases_of_a_separately_written_program() {
    let mut random = Random::new(200);
    let cases = include_str!("../../vectors/opb-written.txt");
    for case in cases.lines() {
        let (digits, text) = case.split_once(" = ").unwrap();
        let (tables, terms) = loaded(&from_hexadecimal(digits));
        let text = text.replace('/', "\n");
        let length = text.len();
        for room in [length, length + 1, length - 1, 0] {
            check(&mut random, &tables, &terms, Ok(&text), room);
        }
    }
    assert_eq!(cases.lines().count(), 150);
}

fn some_plan(random: &mut Random, case: usize) -> Plan {
    match case % 100 {
        0 => {
            let locks = [0, 1, 100, 512][random.below(4)];
            random::locked_full_plan(random, locks)
        }
        1..=19 => random::race_plan(random),
        20..=29 => random::heavy_plan(random),
        30..=59 => random::small_plan(random),
        _ => random::small_met_plan(random),
    }
}

#[test]
fn random_plans() {
    let mut random = Random::new(201);
    let mut met: BTreeMap<u32, u32> = BTreeMap::new();
    for case in 0..6_000 {
        let plan = some_plan(&mut random, case);
        let (mut tables, mut terms) = loaded(&file::write(&plan));
        let text = write(&plan);
        let length = match random.below(8) {
            0 => 0,
            1 => random.below(text.len()),
            2 => text.len() - 1,
            3 => text.len(),
            _ => text.len() + random.below(300),
        };
        let mut wanted = Ok(&text[..]);
        match random.below(10) {
            0 => {
                tables.truncate(random.below(TABLES));
                wanted = Err(21);
            }
            1 => {
                terms.truncate(TERM_TABLE - 1);
                wanted = Err(21);
            }
            2 => {
                // Places past the full limits are not read.
                tables.extend([0xa5; 9]);
                terms.extend([0x5a; 3]);
            }
            _ => {}
        }
        let refusal = check(&mut random, &tables, &terms, wanted, length);
        *met.entry(refusal).or_default() += 1;
    }
    for refusal in [0, 21, 33] {
        let count = met.get(&refusal).copied().unwrap_or(0);
        assert!(count > 100, "{refusal}: {met:?}");
    }
}

/// A single changed bit of good tables: 22, or the text of the plan that another file leaves; 22
/// before 33.
#[test]
fn single_bits_of_tables() {
    let mut random = Random::new(203);
    let (mut met, mut locks, mut order) = ([0; 2], [0; 2], [0; 2]);
    for case in 0..4_000 {
        let plan = some_plan(&mut random, 1 + case);
        let (mut tables, mut terms) = layout::tables(&plan);
        let part = layout::turn_a_bit(&mut random, &plan, &mut tables, &mut terms);
        let text = layout::loaded(&tables, &terms).map(|plan| write(&plan));
        let length = text.as_ref().map_or(0, String::len);
        let room = if random.percent(50) { length } else { 0 };
        let wanted = text.as_deref().ok_or(22_u32);
        let refusal = check(&mut random, &tables, &terms, wanted, room);
        met[(refusal == 22) as usize] += 1;
        locks[(refusal == 22) as usize] += (part == Part::Locks) as u32;
        order[(refusal == 22) as usize] += (part == Part::Order) as u32;
    }
    assert!(met.iter().all(|&count| count > 300), "{met:?}");
    assert!(locks.iter().all(|&count| count > 100), "{locks:?}");
    assert!(order[0] == 0 && order[1] > 500, "{order:?}");
}

#[test]
fn the_largest_plans() {
    let mut random = Random::new(202);
    for locks in [0, 512] {
        let plan = random::locked_full_plan(&mut random, locks);
        let (tables, terms) = loaded(&file::write(&plan));
        let text = write(&plan);
        assert_eq!(
            check(&mut random, &tables, &terms, Ok(&text), text.len()),
            0
        );
        assert_eq!(
            check(&mut random, &tables, &terms, Ok(&text), text.len() - 1),
            33
        );
    }
}
