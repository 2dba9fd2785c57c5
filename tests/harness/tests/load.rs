//! Loading against the reference: the answer, every byte of the tables, and nothing outside of
//! them.

use harness::guarded::Guarded;
use harness::layout::{self, TABLES, TERM_TABLE};
use harness::planner::{load, Loaded};
use reference::file;
use reference::random::{self, Random};

/// What the reference says of a file, and the tables that loading must leave in buffers that held
/// `before`.
fn expected(bytes: &[u8], before: &[u8], terms_before: &[u8]) -> (Loaded, Vec<u8>, Vec<u8>) {
    let kept = |answer| (answer, before.to_vec(), terms_before.to_vec());
    if before.len() < TABLES || terms_before.len() < TERM_TABLE {
        return kept(Loaded {
            refusal: 21,
            offset: 0,
        });
    }
    match file::parse(bytes) {
        Err(refusal) => kept(Loaded {
            refusal: refusal.number,
            offset: refusal.offset,
        }),
        Ok(plan) => {
            let (mut tables, mut terms) = layout::tables(&plan);
            tables.extend_from_slice(&before[TABLES..]);
            terms.extend_from_slice(&terms_before[TERM_TABLE..]);
            (
                Loaded {
                    refusal: 0,
                    offset: 0,
                },
                tables,
                terms,
            )
        }
    }
}

/// Loads into noisy buffers of these lengths and compares everything.
fn check(random: &mut Random, bytes: &[u8], tables: usize, terms: usize) -> u32 {
    let noise: Vec<u8> = (0..tables.max(terms))
        .map(|_| random.number() as u8)
        .collect();
    let mut a = Guarded::holding(&noise[..tables], 0x5a);
    let mut b = Guarded::holding(&noise[..terms], 0xa5);
    let (before_a, before_b) = (a.clone(), b.clone());
    let answer = load(bytes, a.lend(), b.lend());
    let (wanted, wanted_a, wanted_b) = expected(bytes, before_a.bytes(), before_b.bytes());
    assert_eq!(answer, wanted, "{} bytes", bytes.len());
    assert!(
        a.bytes() == wanted_a && b.bytes() == wanted_b,
        "tables differ after {answer:?}"
    );
    assert!(
        a.same_guards(&before_a) && b.same_guards(&before_b),
        "a guard was written after {answer:?}"
    );
    answer.refusal
}

#[test]
fn edges_of_document_01() {
    let mut random = Random::new(11);
    let example = include_bytes!("../../../examples/two-sites/plan.bin");
    assert_eq!(example.len(), 50);
    assert_eq!(check(&mut random, example, TABLES, TERM_TABLE), 0);
    let mut longer = example.to_vec();
    longer.push(0);
    assert_eq!(
        load(&longer, &mut vec![0; TABLES], &mut vec![0; TERM_TABLE]),
        Loaded {
            refusal: 7,
            offset: 50
        }
    );
    assert_eq!(
        load(&[], &mut vec![0; TABLES], &mut vec![0; TERM_TABLE]),
        Loaded {
            refusal: 1,
            offset: 0
        }
    );
    for (count, refusal) in [(512_u16, 0), (513, 4), (0, 4)] {
        let mut bytes = vec![1, 2, 0];
        bytes.extend(count.to_le_bytes());
        bytes.extend([2, 0, 0, 5, 0, 0]);
        assert_eq!(
            check(&mut random, &bytes, TABLES, TERM_TABLE),
            refusal,
            "{count} variables"
        );
    }
    for (locks, size) in [(0, 52_907), (512, 54_446)] {
        let largest = file::write(&random::locked_full_plan(&mut random, locks));
        assert_eq!(largest.len(), size);
        assert_eq!(check(&mut random, &largest, TABLES, TERM_TABLE), 0);
    }
}

/// The example with a field of locks of these bytes at a place.
fn with_locks(place: usize, body: &[u8]) -> Vec<u8> {
    let mut bytes = include_bytes!("../../../examples/two-sites/plan.bin").to_vec();
    bytes.splice(place..place, file::write_field(file::LOCKS, body));
    bytes
}

#[test]
fn a_field_of_locks() {
    let mut random = Random::new(15);
    let cases: [(usize, &[u8], u32); 17] = [
        (20, &[1, 0, 0], 0),
        (20, &[2, 0, 1], 0),
        (20, &[1, 0, 1, 2, 0, 0], 0),
        (20, &[1, 0], 3),
        (20, &[1, 0, 1, 2], 3),
        (20, &[0, 0, 1], 5),
        (20, &[3, 0, 1], 5),
        (20, &[1, 1, 1], 5),
        (20, &[2, 0, 1, 1, 0, 1], 5),
        (20, &[1, 0, 2], 10),
        (20, &[2, 0, 255], 10),
        // In an entry 5 comes first, but an entry's 10 before the next one's 5.
        (20, &[0, 0, 2], 5),
        (20, &[1, 0, 2, 1, 0, 0], 10),
        // Before the count and the objective, in and after a clause.
        (0, &[1, 0, 0], 2),
        (5, &[1, 0, 0], 2),
        (23, &[1, 0, 0], 2),
        (47, &[1, 0, 0], 2),
    ];
    for (place, body, refusal) in cases {
        let bytes = with_locks(place, body);
        let answer = load(&bytes, &mut vec![0; TABLES], &mut vec![0; TERM_TABLE]);
        let offset = if refusal == 0 { 0 } else { place };
        assert_eq!(answer, Loaded { refusal, offset }, "{body:?} at {place}");
        check(&mut random, &bytes, TABLES, TERM_TABLE);
        // Every cut of it.
        for length in place..bytes.len() {
            check(&mut random, &bytes[..length], TABLES, TERM_TABLE);
        }
    }
    // Twice, and the longest field there is, whole and cut.
    let mut twice = with_locks(20, &[]);
    twice.splice(20..20, file::write_field(file::LOCKS, &[1, 0, 0]));
    assert_eq!(check(&mut random, &twice, TABLES, TERM_TABLE), 2);
    let entries: Vec<u8> = (1..=21_845_u16)
        .flat_map(|variable| [&variable.to_le_bytes()[..], &[1]].concat())
        .collect();
    let longest = with_locks(20, &entries);
    assert_eq!(check(&mut random, &longest, TABLES, TERM_TABLE), 5);
    let cut = &longest[..20 + 3 + 65_534];
    assert_eq!(check(&mut random, cut, TABLES, TERM_TABLE), 1);
}

/// An empty field of locks and none leave the same tables, byte for byte.
#[test]
fn an_empty_field_of_locks() {
    let mut random = Random::new(16);
    for round in 0..40 {
        let mut plan = match round % 4 {
            0 => random::race_plan(&mut random),
            _ => random::small_plan(&mut random),
        };
        plan.locks.clear();
        let none = file::write(&plan);
        let mut empty = none.clone();
        let place = 8 + 6 * plan.objective.len();
        empty.splice(place..place, file::write_field(file::LOCKS, &[]));
        let tables = [none, empty].map(|bytes| {
            let (mut tables, mut terms) = (vec![7; TABLES], vec![7; TERM_TABLE]);
            assert_eq!(load(&bytes, &mut tables, &mut terms).refusal, 0);
            (tables, terms)
        });
        assert!(tables[0] == tables[1]);
    }
}

#[test]
fn every_length_of_the_example() {
    let mut random = Random::new(12);
    let example = include_bytes!("../../../examples/race-day/plan.bin");
    for length in 0..=example.len() {
        check(&mut random, &example[..length], TABLES, TERM_TABLE);
    }
}

#[test]
fn buffers_of_any_size() {
    let mut random = Random::new(13);
    let bytes = file::write(&random::race_plan(&mut random));
    for (tables, terms) in [
        (0, 0),
        (TABLES - 1, TERM_TABLE),
        (TABLES, TERM_TABLE - 1),
        (TABLES, 0),
        (TABLES + 1, TERM_TABLE),
        (TABLES, TERM_TABLE + 7),
        (65_536, 65_536),
    ] {
        check(&mut random, &bytes, tables, terms);
        check(&mut random, &bytes[..bytes.len() - 1], tables, terms);
    }
}

#[test]
fn random_and_damaged_files() {
    let mut random = Random::new(14);
    let mut seen = [0_u32; 32];
    for round in 0..20_000 {
        let plan = match round % 400 {
            0 => random::full_plan(&mut random),
            1..=20 => random::race_plan(&mut random),
            _ => random::small_plan(&mut random),
        };
        let mut bytes = file::write(&plan);
        if random.percent(80) {
            bytes = random::damage(&mut random, &bytes);
        }
        let refusal = check(&mut random, &bytes, TABLES, TERM_TABLE);
        seen[refusal as usize] += 1;
    }
    for number in [0, 1, 2, 3, 4, 5, 6, 7, 10] {
        assert!(
            seen[number] > 20,
            "refusal {number} came up {} times",
            seen[number]
        );
    }
}
