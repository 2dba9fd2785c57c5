//! Reading OPB texts against the reference: the answer, every byte of the tables, and nothing outside
//! of them.

use harness::guarded::Guarded;
use harness::layout::{self, ASSIGNMENT, TABLES, TALLIES, TERM_TABLE};
use harness::planner::{open, read_opb, Loaded};
use reference::file::{parse, Refusal};
use reference::making::from_hexadecimal;
use reference::opb_read::{read, texts};
use reference::random::{self, Random};
use std::collections::BTreeMap;

/// Reads into noisy buffers of these lengths and compares everything.
fn check(random: &mut Random, text: &[u8], tables: usize, terms: usize) -> u32 {
    let mut a = Guarded::sized(random, &[], tables);
    let mut b = Guarded::sized(random, &[], terms);
    let (mut wanted_a, mut wanted_b) = (a.clone(), b.clone());
    let answer = read_opb(text, a.lend(), b.lend());
    let wanted = if tables < TABLES || terms < TERM_TABLE {
        Err(Refusal {
            number: 21,
            offset: 0,
        })
    } else {
        read(text)
    };
    let wanted = match wanted {
        Err(Refusal { number, offset }) => Loaded {
            refusal: number,
            offset,
        },
        Ok(plan) => {
            let (whole, whole_terms) = layout::tables(&plan);
            wanted_a.lend()[..TABLES].copy_from_slice(&whole);
            wanted_b.lend()[..TERM_TABLE].copy_from_slice(&whole_terms);
            Loaded {
                refusal: 0,
                offset: 0,
            }
        }
    };
    assert_eq!(answer, wanted, "{:?}", String::from_utf8_lossy(text));
    assert!(a == wanted_a, "the tables differ after {answer:?}");
    assert!(b == wanted_b, "the terms differ after {answer:?}");
    if answer.refusal == 0 {
        // Tables that a text was read into are never refused with 22.
        let refusal = open(a.bytes(), b.bytes(), &[0; ASSIGNMENT], &mut [0; TALLIES]);
        assert_eq!(refusal, 0, "opening");
    }
    answer.refusal
}

#[test]
fn cases_of_a_separately_written_program() {
    let mut random = Random::new(140);
    for case in include_str!("../../vectors/opb-read.txt").lines() {
        let (text, wanted) = case.split_once(" = ").unwrap();
        let text = from_hexadecimal(text);
        let refusal = check(&mut random, &text, TABLES, TERM_TABLE);
        let words: Vec<&str> = wanted.split(' ').collect();
        if words[0] == "refused" {
            let answer = read_opb(&text, &mut vec![0; TABLES], &mut vec![0; TERM_TABLE]);
            assert_eq!(
                words[1..],
                [answer.refusal.to_string(), answer.offset.to_string()]
            );
        } else {
            assert_eq!(refusal, 0);
            assert_eq!(read(&text), Ok(parse(&from_hexadecimal(words[1])).unwrap()));
        }
    }
}

#[test]
fn random_and_damaged_texts() {
    let mut random = Random::new(141);
    let mut met: BTreeMap<u32, u32> = BTreeMap::new();
    for case in 0..20_000 {
        let plan = match case % 100 {
            0 => random::full_plan(&mut random),
            1..=19 => random::race_plan(&mut random),
            20..=29 => random::heavy_plan(&mut random),
            _ => random::small_plan(&mut random),
        };
        let mut text = texts::spelled(&mut random, &plan);
        while random.percent(50) {
            text = texts::damaged(&mut random, text);
        }
        let (tables, terms) = match random.below(40) {
            0 => (random.below(TABLES), TERM_TABLE),
            1 => (TABLES, random.below(TERM_TABLE)),
            2 => (TABLES - 1, TERM_TABLE - 1),
            3..=9 => (TABLES + random.below(9), TERM_TABLE + random.below(9)),
            _ => (TABLES, TERM_TABLE),
        };
        let refusal = check(&mut random, &text, tables, terms);
        *met.entry(refusal).or_default() += 1;
    }
    for refusal in [0, 4, 5, 6, 21, 31, 32] {
        let count = met.get(&refusal).copied().unwrap_or(0);
        assert!(count > 20, "{refusal}: {met:?}");
    }
}

#[test]
fn texts_of_any_bytes() {
    let mut random = Random::new(142);
    for _ in 0..20_000 {
        let length = random.below(80);
        let text: Vec<u8> = (0..length).map(|_| random.below(256) as u8).collect();
        check(&mut random, &text, TABLES, TERM_TABLE);
    }
}

#[test]
fn every_cut_of_a_text() {
    let mut random = Random::new(143);
    let text = b"* #variable= 3 #constraint= 2\nmin: +1 x1 -2 x3 ;\n* a comment\n+1 x1 +1 x2 >= 1 ;\n-1 x2 = -1 ;\n";
    for length in 0..=text.len() {
        check(&mut random, &text[..length], TABLES, TERM_TABLE);
    }
}
