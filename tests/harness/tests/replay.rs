//! Demand 3 as running code: long lists of calls, any bytes at all, against the reference's book.

use harness::guarded::Guarded;
use harness::layout::{self, ASSIGNMENT, TABLES, TALLIES, TERM_TABLE};
use harness::replay::{answer_bytes, call_bytes, replay, ANSWER};
use reference::book::{Answer, Book, Call};
use reference::counts::Count;
use reference::plan::Plan;
use reference::random::{self, Random};
use reference::tallies::Tallies;

/// What came up in lists of calls.
#[derive(Default, Debug)]
struct Met {
    /// Flips of locked variables.
    locked: u32,
    /// Counts that are cut, and that are the cap itself.
    cut: u32,
    at_the_cap: u32,
}

impl Met {
    fn count(&mut self, answer: Answer) {
        match answer {
            Answer::Refused(26) => self.locked += 1,
            Answer::Counts {
                break_count,
                make_count,
            } => {
                let both = [break_count, make_count];
                self.cut += both.contains(&Count::CUT) as u32;
                self.at_the_cap += both.contains(&Count::CAP) as u32;
            }
            _ => {}
        }
    }
}

/// Replays a list on noisy buffers and compares every byte with the book.
fn check(random: &mut Random, plan: &Plan, list: &[u8], room: usize, met: &mut Met) {
    let bits = random.assignment(plan.variables);
    let (tables, terms) = layout::tables(plan);
    let mut start = layout::bits(&bits);
    start.resize_with(ASSIGNMENT + 5, || random.number() as u8);
    let noise: Vec<u8> = (0..TALLIES + 7 + room)
        .map(|_| random.number() as u8)
        .collect();
    let mut assignment = Guarded::holding(&start, 1);
    let mut tallies = Guarded::holding(&noise[..TALLIES + 7], 2);
    let mut out = Guarded::holding(&noise[..room], 3);
    let (mut a, mut t, mut o) = (assignment.clone(), tallies.clone(), out.clone());
    let refusal = replay(
        &tables,
        &terms,
        assignment.lend(),
        tallies.lend(),
        list,
        out.lend(),
    );
    if room / ANSWER < list.len() / 5 {
        assert_eq!(refusal, 21);
    } else {
        assert_eq!(refusal, 0);
        let mut book = Book::open(plan, &bits);
        for (i, bytes) in list.chunks_exact(5).enumerate() {
            let variable = u32::from_le_bytes(bytes[1..].try_into().unwrap());
            let call = if bytes[0] == 0 {
                Call::Flip(variable)
            } else {
                Call::Counts(variable)
            };
            let answer = book.call(call);
            met.count(answer);
            o.lend()[ANSWER * i..ANSWER * (i + 1)].copy_from_slice(&answer_bytes(answer));
        }
        a.lend()[..plan.variables].copy_from_slice(&layout::bits(book.bits()));
        t.lend()[..TALLIES].copy_from_slice(&layout::tallies(&Tallies::fresh(plan, book.bits())));
    }
    assert!(
        assignment == a && tallies == t && out == o,
        "{} bytes of calls left other bytes",
        list.len()
    );
}

fn list(random: &mut Random, plan: &Plan, length: usize) -> Vec<u8> {
    (0..length)
        .flat_map(|_| call_bytes(random::call(random, plan.variables), random.number() as u8))
        .collect()
}

#[test]
fn long_lists() {
    let mut random = Random::new(31);
    let mut met = Met::default();
    for round in 0..300 {
        let plan = match round % 5 {
            0 => random::locked_full_plan(&mut random, [0, 100, 512][round % 3]),
            1 => random::heavy_plan(&mut random),
            2 => random::race_plan(&mut random),
            3 => random::cap_plan(&mut random),
            _ => random::small_plan(&mut random),
        };
        let length = [0, 1, 7, 300][random.below(4)];
        let calls = list(&mut random, &plan, length);
        let room = ANSWER * length + random.below(30);
        check(&mut random, &plan, &calls, room, &mut met);
    }
    let least = met.locked.min(met.cut).min(met.at_the_cap);
    assert!(least > 100 && met.locked > 500, "{met:?}");
}

#[test]
fn any_bytes_and_any_room() {
    let mut random = Random::new(32);
    for _ in 0..800 {
        let plan = random::small_plan(&mut random);
        let bytes: Vec<u8> = (0..random.below(60))
            .map(|_| random.number() as u8 % 7)
            .collect();
        let room = random.below(ANSWER * (bytes.len() / 5 + 1) + 1);
        check(&mut random, &plan, &bytes, room, &mut Met::default());
    }
}

#[test]
fn refused_openings_change_nothing() {
    let mut random = Random::new(33);
    for round in 0..200 {
        let plan = random::race_plan(&mut random);
        let (mut tables, terms) = layout::tables(&plan);
        let mut assignment = vec![0; ASSIGNMENT];
        let wanted = if round % 2 == 0 {
            tables[4 + random.below(12)] ^= 0x80;
            22
        } else {
            assignment[random.below(plan.variables)] = 2;
            24
        };
        let mut tallies = vec![7; TALLIES];
        let mut out = vec![9; 10 * ANSWER];
        let calls = list(&mut random, &plan, 10);
        let before = assignment.clone();
        assert_eq!(
            replay(
                &tables,
                &terms,
                &mut assignment,
                &mut tallies,
                &calls,
                &mut out
            ),
            wanted
        );
        assert!(assignment == before && tallies == vec![7; TALLIES] && out == vec![9; 10 * ANSWER]);
        assert_eq!(
            replay(
                &tables[..TABLES - 1],
                &terms[..TERM_TABLE],
                &mut assignment,
                &mut tallies,
                &calls,
                &mut out
            ),
            21
        );
        assert!(assignment == before && tallies == vec![7; TALLIES] && out == vec![9; 10 * ANSWER]);
    }
}
