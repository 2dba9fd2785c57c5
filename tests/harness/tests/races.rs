//! Races of a festival: the split against the reference and a separately written program, and each
//! race's answer and assignment against a search of its own.

use harness::festivals::{any_stakes, check_festival, check_split};
use harness::program::root;
use reference::random::Random;
use std::collections::BTreeSet;
use std::fs;

#[test]
fn splits_of_a_separately_written_program() {
    let cases = fs::read_to_string(root().join("tests/vectors/splits.txt")).unwrap();
    let mut random = Random::new(1);
    for case in cases.lines() {
        let (words, expected) = case.split_once(" = ").unwrap();
        let (stakes, numbers) = words.split_once(' ').unwrap();
        let stakes: Vec<usize> = match stakes {
            "." => Vec::new(),
            _ => stakes
                .split(',')
                .map(|word| word.parse().unwrap())
                .collect(),
        };
        let printed = match check_split(&mut random, &stakes, numbers.parse().unwrap()) {
            Ok(parts) => {
                let words = parts
                    .iter()
                    .map(|part| format!("{}+{}", part.first, part.length));
                words.collect::<Vec<_>>().join(" ")
            }
            Err(refusal) => format!("refused {refusal}"),
        };
        assert_eq!(printed, expected, "{words}");
    }
    assert!(cases.lines().count() >= 120);
}

#[test]
fn splits_of_lists_of_any_length() {
    let mut random = Random::new(2);
    let mut refusals = BTreeSet::new();
    for _ in 0..20_000 {
        let stakes = any_stakes(&mut random);
        let numbers = match random.below(4) {
            0 => random.below(100),
            1 => random.below(16_385),
            2 => usize::MAX - random.below(1_000),
            _ => random.draw() as usize,
        };
        refusals.insert(check_split(&mut random, &stakes, numbers).err());
    }
    assert_eq!(refusals, BTreeSet::from([None, Some(61), Some(62)]));
}

#[test]
fn each_race_is_as_a_search_of_its_own() {
    let mut random = Random::new(3);
    let (mut seen, mut mixed) = (BTreeSet::new(), 0);
    for _ in 0..400 {
        let stakes = any_stakes(&mut random);
        match check_festival(&mut random, &stakes, None, 3_000) {
            Ok(refusals) => {
                let some = refusals.contains(&0);
                mixed += usize::from(some && refusals.iter().any(|&refusal| refusal != 0));
                seen.extend(refusals);
            }
            Err(refusal) => assert!([61, 62].contains(&refusal)),
        }
    }
    assert!(
        seen.is_superset(&BTreeSet::from([0, 11, 12, 13, 14, 21, 22])),
        "{seen:?}"
    );
    assert!(
        mixed > 50,
        "races that refuse among races that do not: {mixed}"
    );
}

#[test]
fn a_buffer_without_room_for_8_races_comes_before_all() {
    let mut random = Random::new(4);
    for round in 0..60 {
        let stakes = any_stakes(&mut random);
        let answer = check_festival(&mut random, &stakes, Some(round % 3), 3_000);
        assert_eq!(answer, Err(21));
    }
}
