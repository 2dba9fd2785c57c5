//! The plain book of demand 3, held to the real lists of the expansion and to fresh counts.

mod common;

use common::*;
use reference::book::{Answer, Book, Call};
use reference::counts::Count;
use reference::expansion;
use reference::random::{call, full_plan, small_plan, Random};
use reference::tallies::Tallies;

#[test]
fn fresh_tallies_by_hand() {
    // Clause 1: 5x1 − 6x2 + 2x3 ≥ 2 or x1 + x2 + x3 ≤ 1; clause 2: 1 ≤ x1 + x3 ≤ 1.
    let rules = [
        at_least(2, &[(1, 5), (2, -6), (3, 2)]),
        at_most(1, &[(1, 1), (2, 1), (3, 1)]),
    ];
    let other = [between(1, &[(1, 1), (3, 1)], 1)];
    let plan = plan(3, &[], &[&rules, &other]);
    let tallies = Tallies::fresh(&plan, &bits("100"));
    assert_eq!(tallies.true_weights, [11, 1, 1]);
    assert_eq!(tallies.holding_rules, [2, 1]);
    assert_eq!(tallies.unsatisfied, 0);
    let tallies = Tallies::fresh(&plan, &bits("111"));
    assert_eq!(tallies.true_weights, [7, 3, 2]);
    assert_eq!(tallies.holding_rules, [0, 0]);
    assert_eq!(tallies.unsatisfied, 2);
    assert_eq!(tallies.unsatisfied_clauses(), [0, 1]);
    let tallies = Tallies::fresh(&plan, &bits("010"));
    assert_eq!(tallies.true_weights, [0, 1, 0]);
    assert_eq!(tallies.holding_rules, [1, 0]);
    assert_eq!(tallies.unsatisfied_clauses(), [1]);
}

/// A flip of a variable that so many rules name.
fn flipped(rules: u32) -> Answer {
    Answer::Flipped { rules }
}

/// Counts that are not cut.
fn counted(break_count: u32, make_count: u32) -> Answer {
    Answer::Counts {
        break_count: Count::uncut(break_count),
        make_count: Count::uncut(make_count),
    }
}

#[test]
fn calls_by_hand() {
    let plan = plan(3, &[], &[&[between(1, &[(1, 1), (2, 1), (3, 1)], 1)]]);
    let mut book = Book::open(&plan, &bits("000"));
    for (call, answer, after) in [
        (Call::Counts(1), counted(0, 1), "000"),
        (Call::Flip(1), flipped(1), "100"),
        (Call::Counts(2), counted(1, 0), "100"),
        (Call::Flip(0), Answer::Refused(23), "100"),
        (Call::Flip(4), Answer::Refused(23), "100"),
        (Call::Counts(0), Answer::Refused(23), "100"),
        (Call::Counts(4), Answer::Refused(23), "100"),
        (Call::Flip(u32::MAX), Answer::Refused(23), "100"),
        (Call::Flip(65_537), Answer::Refused(23), "100"),
        (Call::Flip(3), flipped(1), "101"),
        (Call::Flip(1), flipped(1), "001"),
        (Call::Flip(3), flipped(1), "000"),
    ] {
        assert_eq!(book.call(call), answer, "{call:?}");
        assert_eq!(book.bits(), bits(after), "{call:?}");
        assert_eq!(book.tallies(), Tallies::fresh(&plan, &bits(after)));
    }
}

/// "A flip of a locked variable is one of the refused calls: the book answers 26, and no bit
/// changes." Its counts are answered, also where the bits opened disagree with the locks.
#[test]
fn calls_with_locks_by_hand() {
    let free = plan(3, &[], &[&[between(1, &[(1, 1), (2, 1), (3, 1)], 1)]]);
    let plan = locking(free, &[(1, 1), (3, 0)]);
    let mut book = Book::open(&plan, &bits("001"));
    for (call, answer, after) in [
        (Call::Flip(1), Answer::Refused(26), "001"),
        (Call::Flip(3), Answer::Refused(26), "001"),
        (Call::Counts(1), counted(1, 0), "001"),
        (Call::Counts(3), counted(1, 0), "001"),
        (Call::Flip(4), Answer::Refused(23), "001"),
        (Call::Flip(0), Answer::Refused(23), "001"),
        (Call::Counts(4), Answer::Refused(23), "001"),
        (Call::Flip(2), flipped(1), "011"),
        (Call::Counts(1), counted(2, 0), "011"),
        (Call::Flip(3), Answer::Refused(26), "011"),
        (Call::Flip(2), flipped(1), "001"),
    ] {
        assert_eq!(book.call(call), answer, "{call:?}");
        assert_eq!(book.bits(), bits(after), "{call:?}");
    }
}

/// x1 spoils 4,294,967,295 clauses, which is given out as it is; x2 one more, which is cut. Turned over
/// they mend as many.
#[test]
fn counts_at_the_cap_and_above_it_by_hand() {
    let product =
        |variable, [v, w]: [i64; 2]| [at_most(0, &[(variable, v)]), at_most(0, &[(variable, w)])];
    let plan = plan(
        2,
        &[],
        &[&product(1, [65_535, 65_537]), &product(2, [65_536, 65_536])],
    );
    let answer = |break_count, make_count| Answer::Counts {
        break_count,
        make_count,
    };
    let zero = Count::ZERO;
    let mut book = Book::open(&plan, &bits("00"));
    for (call, wanted) in [
        (Call::Counts(1), answer(Count::CAP, zero)),
        (Call::Counts(2), answer(Count::CUT, zero)),
        (Call::Flip(1), flipped(2)),
        (Call::Flip(2), flipped(2)),
        (Call::Counts(1), answer(zero, Count::CAP)),
        (Call::Counts(2), answer(zero, Count::CUT)),
        (Call::Counts(3), Answer::Refused(23)),
    ] {
        assert_eq!(book.call(call), wanted, "{call:?}");
    }
}

/// How many rule tallies differ. No coefficient is 0, so a flip changes that of each rule that names
/// its variable.
fn rewritten(before: &Tallies, after: &Tallies) -> usize {
    let weights = before.true_weights.iter().zip(&after.true_weights);
    weights.filter(|(before, after)| before != after).count()
}

/// "A flip's answer gives the count of rule tallies it rewrote, which equals the number of rules
/// naming the variable": two rules of one clause, a rule of another, and none.
#[test]
fn rules_naming_a_variable_by_hand() {
    let first = [at_least(1, &[(1, 1), (2, -1)]), at_most(0, &[(1, 3)])];
    let plan = plan(3, &[(3, 7)], &[&first, &[at_least(0, &[(1, 1)])]]);
    let mut book = Book::open(&plan, &bits("000"));
    for (variable, rules, after) in [(1, 3, "100"), (2, 1, "110"), (3, 0, "111"), (1, 3, "011")] {
        assert_eq!(book.call(Call::Flip(variable)), flipped(rules));
        assert_eq!(book.bits(), bits(after));
    }
    // With the objective as a last clause, a rule more names its variables.
    assert_eq!(plan.tightened(0).rules_naming(3), 1);
    assert_eq!(plan.tightened(0).rules_naming(1), 3);
}

#[test]
fn any_list_of_calls() {
    let mut random = Random::new(41);
    let (mut flips, mut counts, mut refused, mut locked) = (0, 0, 0, 0);
    for _ in 0..600 {
        let plan = small_plan(&mut random);
        let Some(lists) = expansion::plan(&plan, 5_000) else {
            continue;
        };
        let opened = random.assignment(plan.variables);
        let mut book = Book::open(&plan, &opened);
        // How often each variable was named by an accepted flip.
        let mut turned = vec![0; plan.variables];
        for _ in 0..random.below(30) {
            let (before, tallies) = (book.bits().to_vec(), book.tallies());
            let next = call(&mut random, plan.variables);
            let answer = book.call(next);
            let (Call::Flip(variable) | Call::Counts(variable)) = next;
            let variable = variable as usize;
            let named = variable >= 1 && variable <= plan.variables;
            match (next, answer) {
                (Call::Flip(_), Answer::Flipped { rules }) => {
                    assert!(named);
                    assert_eq!(rules as usize, rewritten(&tallies, &book.tallies()));
                    turned[variable - 1] += 1;
                    flips += 1;
                }
                (Call::Counts(_), Answer::Counts { .. }) => {
                    assert!(named);
                    let spoiled = expansion::spoiled(&lists, &before, variable) as u32;
                    let mended = expansion::mended(&lists, &before, variable) as u32;
                    assert_eq!(answer, counted(spoiled, mended));
                    counts += 1;
                }
                (Call::Flip(_), Answer::Refused(26)) => {
                    assert!(named && plan.locks.iter().any(|lock| lock.variable == variable));
                    locked += 1;
                }
                (_, answer) => {
                    assert_eq!(answer, Answer::Refused(23));
                    assert!(!named);
                    refused += 1;
                }
            }
        }
        for variable in 1..=plan.variables {
            let differs = book.bits()[variable - 1] != opened[variable - 1];
            assert_eq!(differs, turned[variable - 1] % 2 == 1);
        }
    }
    assert!(flips > 500 && counts > 500 && refused > 200 && locked > 200);
}

#[test]
fn a_flip_changes_what_concerns_it_and_twice_restores_all() {
    let mut random = Random::new(42);
    let plan = full_plan(&mut random);
    let mut book = Book::open(&plan, &random.assignment(512));
    for _ in 0..200 {
        let variable = 1 + random.below(512);
        let (bits, before) = (book.bits().to_vec(), book.tallies());
        book.call(Call::Flip(variable as u32));
        let after = book.tallies();
        let mut place = 0;
        for (number, clause) in plan.clauses.iter().enumerate() {
            let mut concerned = false;
            for rule in &clause.rules {
                let term = rule.terms.iter().find(|term| term.variable == variable);
                let change = (after.true_weights[place] - before.true_weights[place]).abs();
                assert_eq!(change, term.map_or(0, |term| term.weight.abs()));
                concerned |= term.is_some();
                place += 1;
            }
            let same = before.holding_rules[number] == after.holding_rules[number];
            assert!(concerned || same);
        }
        book.call(Call::Flip(variable as u32));
        assert_eq!((book.bits(), book.tallies()), (&bits[..], before));
        book.call(Call::Flip(variable as u32));
    }
}
