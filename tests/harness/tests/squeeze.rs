//! Squeezing against the reference: the answer, every byte of file and list, and nothing outside of
//! them.

use harness::guarded::Guarded;
use harness::layout::{TABLES, TERM_TABLE};
use harness::planner::{load, squeeze, Squeezed};
use reference::file::{self, Refusal};
use reference::making::{at_least, between, from_hexadecimal, locking, plan};
use reference::random::{self, Random};
use reference::squeeze::{self as reference_squeeze, LIST};
use std::collections::BTreeMap;

/// Squeezes a file with a list of a length, in noisy buffers, and compares everything.
fn check(random: &mut Random, bytes: &[u8], length: usize) -> u32 {
    let mut file = Guarded::holding(bytes, 0x5a);
    let mut list = Guarded::sized(random, &[], length);
    let (mut wanted_file, mut wanted_list) = (file.clone(), list.clone());
    let answer = squeeze(file.lend(), list.lend());
    let wanted = match reference_squeeze::squeeze(wanted_file.lend(), wanted_list.lend()) {
        Ok(answer) => Squeezed {
            refusal: 0,
            offset: 0,
            length: answer.length,
            constant: answer.constant,
        },
        Err(Refusal { number, offset }) => Squeezed {
            refusal: number,
            offset,
            length: 0,
            constant: 0,
        },
    };
    assert_eq!(answer, wanted, "{} bytes", bytes.len());
    assert!(file == wanted_file, "the file differs after {answer:?}");
    assert!(list == wanted_list, "the list differs after {answer:?}");
    if answer.refusal == 0 {
        let new = &file.bytes()[..answer.length];
        let loaded = load(new, &mut vec![0; TABLES], &mut vec![0; TERM_TABLE]);
        assert_eq!(loaded.refusal, 0, "the new file is not accepted");
    }
    answer.refusal
}

#[test]
fn cases_of_a_separately_written_program() {
    let mut random = Random::new(120);
    for case in include_str!("../../vectors/squeezed.txt").lines() {
        let (digits, wanted) = case.split_once(" = ").unwrap();
        let refusal = check(&mut random, &from_hexadecimal(digits), LIST);
        let wanted: Vec<&str> = wanted.split(' ').collect();
        let number = match wanted[0] {
            "refused" => wanted[1],
            _ => "0",
        };
        assert_eq!(refusal.to_string(), number);
    }
}

#[test]
fn random_plans_and_damaged_files() {
    let mut random = Random::new(121);
    let mut met: BTreeMap<u32, u32> = BTreeMap::new();
    for case in 0..30_000 {
        let plan = match case % 100 {
            0 => {
                let locks = [0, 1, 100, 511, 512][random.below(5)];
                random::locked_full_plan(&mut random, locks)
            }
            1..=19 => random::race_plan(&mut random),
            20..=29 => random::heavy_plan(&mut random),
            30..=59 => random::small_plan(&mut random),
            _ => random::small_met_plan(&mut random),
        };
        let mut bytes = file::write(&plan);
        if plan.locks.is_empty() && random.percent(20) {
            // An empty field of locks and none are the same plan.
            let place = 8 + 6 * plan.objective.len();
            bytes.splice(place..place, [file::LOCKS, 0, 0]);
        }
        if random.percent(20) {
            bytes = random::damage(&mut random, &bytes);
        }
        let length = match random.below(30) {
            0 => random.below(LIST),
            1 => LIST - 1,
            2..=15 => LIST + random.below(9),
            _ => LIST,
        };
        let refusal = check(&mut random, &bytes, length);
        *met.entry(refusal).or_default() += 1;
    }
    for refusal in [0, 1, 2, 3, 4, 5, 6, 7, 10, 21, 71, 72] {
        let count = met.get(&refusal).copied().unwrap_or(0);
        assert!(count > 20, "{refusal}: {met:?}");
    }
}

#[test]
fn the_largest_plans() {
    let mut random = Random::new(122);
    for locks in [0, 1, 256, 511] {
        let plan = random::locked_full_plan(&mut random, locks);
        assert_eq!(check(&mut random, &file::write(&plan), LIST), 0);
    }
    let plan = random::locked_full_plan(&mut random, 512);
    assert_eq!(check(&mut random, &file::write(&plan), LIST), 71);
}

#[test]
fn refusals_in_their_order() {
    let mut random = Random::new(123);
    // All locked and a clause lost; one free and a clause lost.
    let lost = plan(
        2,
        &[(1, 4)],
        &[&[at_least(1, &[(1, 1)]), between(2, &[(1, 1)], 3)]],
    );
    let all = file::write(&locking(lost.clone(), &[(1, 0), (2, 1)]));
    let one = file::write(&locking(lost, &[(1, 0)]));
    assert_eq!(check(&mut random, &all, LIST), 71);
    assert_eq!(check(&mut random, &one, LIST), 72);
    for length in [0, 1, LIST - 1] {
        assert_eq!(check(&mut random, &one, length), 21);
        assert_eq!(check(&mut random, &[], length), 21);
    }
    assert_eq!(check(&mut random, &[], LIST), 1);
    // Every cut of a file, and a byte behind it.
    for length in 0..one.len() {
        assert_eq!(check(&mut random, &one[..length], LIST), 1);
    }
    let longer = [&one[..], &[0]].concat();
    assert_eq!(check(&mut random, &longer, LIST), 7);
}
