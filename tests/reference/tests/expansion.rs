//! The equations against the real lists of the expansion, on random small plans.

mod common;

use common::*;
use reference::counts::{counts, Number};
use reference::exact;
use reference::expansion::{self, is_true};
use reference::literals::Literals;
use reference::plan::Rule;
use reference::random::{any_rule, small_plan, Random};

const LIMIT: usize = 20_000;

/// All assignments of n variables.
fn assignments(n: usize) -> Vec<Vec<bool>> {
    (0..1 << n)
        .map(|number: usize| (0..n).map(|place| number >> place & 1 == 1).collect())
        .collect()
}

#[test]
fn the_lists_of_a_rule_by_hand() {
    // 2·x1 − x2 ≤ 0 reads 2·x1 + ¬x2 ≤ 1: choices of 2 of the copies x1, x1, ¬x2, negated.
    let parts = expansion::parts(&at_most(0, &[(1, 2), (2, -1)]), LIMIT).unwrap();
    let atom = |variable, positive| expansion::Atom { variable, positive };
    assert_eq!(
        parts,
        [
            vec![atom(1, false), atom(1, false)],
            vec![atom(1, false), atom(2, true)],
            vec![atom(1, false), atom(2, true)],
        ]
    );
    // x1 + x2 ≥ 1: all of the K − l + 1 = 2 copies.
    let parts = expansion::parts(&at_least(1, &[(1, 1), (2, 1)]), LIMIT).unwrap();
    assert_eq!(parts, [vec![atom(1, true), atom(2, true)]]);
    // A bound that all values meet has no part, one that none meet has the empty one, also with
    // A and B at 0 without raising.
    for (rule, count) in [
        (at_least(0, &[(1, 1)]), 0),
        (at_least(2, &[(1, 1)]), 1),
        (at_least(9, &[(1, 1)]), 1),
        (at_most(1, &[(1, 1)]), 0),
        (at_most(-1, &[(1, 1)]), 1),
        (at_most(-9, &[(1, 1)]), 1),
        (between(2, &[(1, 1)], -1), 2),
    ] {
        let parts = expansion::parts(&rule, LIMIT).unwrap();
        assert_eq!(parts, vec![vec![]; count], "{rule:?}");
    }
    // Joined parts: 2 of the first rule with 3 of the second.
    let rules = [between(1, &[(1, 1)], 0), at_most(0, &[(1, 2), (2, -1)])];
    let plan = plan(2, &[], &[&rules]);
    let lists = expansion::plan(&plan, LIMIT).unwrap();
    assert_eq!(lists.len(), 6);
    assert_eq!(lists[0], [atom(1, true), atom(1, false), atom(1, false)]);
    assert_eq!(lists[4], [atom(1, false), atom(1, false), atom(2, true)]);
    // Too long a list is not made.
    assert_eq!(expansion::parts(&at_most(4, &[(1, 40)]), 1_000), None);
    assert_eq!(expansion::plan(&plan, 5), None);
}

#[test]
fn a_rule_holds_when_all_its_parts_are_true() {
    // Paper 004, Theorem 2; here the reading of negative weights is held to the signed sum.
    let mut random = Random::new(11);
    for _ in 0..3_000 {
        let rule = any_rule(&mut random, 4, 4, 4);
        let Some(parts) = expansion::parts(&rule, LIMIT) else {
            continue;
        };
        for assignment in assignments(4) {
            let all = parts.iter().all(|part| is_true(part, &assignment));
            assert_eq!(all, rule.holds(&assignment), "{rule:?} {assignment:?}");
        }
    }
}

#[test]
fn the_printed_e_f_and_g_count_parts() {
    let mut random = Random::new(12);
    for _ in 0..1_500 {
        let rule = any_rule(&mut random, 4, 4, 4);
        let Some(parts) = expansion::parts(&rule, LIMIT) else {
            continue;
        };
        let assignment = random.assignment(4);
        for variable in 1..=4 {
            let printed = exact::parts(&rule, &assignment, variable, 100).unwrap();
            let [e, f, g] = [printed.e, printed.f, printed.g].map(|n| n.to_u128().unwrap());
            let spoiled = expansion::spoiled(&parts, &assignment, variable) as u128;
            let mended = expansion::mended(&parts, &assignment, variable) as u128;
            let left = expansion::left(&parts, &assignment, variable) as u128;
            assert_eq!(
                (e, f, g),
                (spoiled, mended, left),
                "{rule:?} {assignment:?}"
            );
        }
    }
}

/// What the random plans were made of, so that no kind is missed without notice.
#[derive(Default, Debug)]
struct Met {
    plans: usize,
    one_bound: usize,
    both_bounds: usize,
    l_above_u: usize,
    below_zero: usize,
    negative: usize,
    several_rules: usize,
    breaks: usize,
    makes: usize,
}

impl Met {
    fn rule(&mut self, rule: &Rule) {
        self.one_bound += usize::from(rule.lower.is_none() != rule.upper.is_none());
        if let (Some(lower), Some(upper)) = (rule.lower, rule.upper) {
            self.both_bounds += 1;
            self.l_above_u += usize::from(lower > upper);
        }
        let reading = Literals::of(rule);
        let a = reading.lower.map_or(0, |lower| reading.k() - lower + 1);
        let b = reading.upper.map_or(0, |upper| upper + 1);
        self.below_zero += usize::from(a < 0 || b < 0);
        self.negative += usize::from(rule.terms.iter().any(|term| term.weight < 0));
    }
}

#[test]
fn counts_agree_with_the_lists() {
    let mut random = Random::new(13);
    let mut met = Met::default();
    while met.plans < 20_000 {
        let plan = small_plan(&mut random);
        let Some(lists) = expansion::plan(&plan, LIMIT) else {
            continue;
        };
        met.plans += 1;
        for clause in &plan.clauses {
            met.several_rules += usize::from(clause.rules.len() > 1);
            clause.rules.iter().for_each(|rule| met.rule(rule));
        }
        let assignment = random.assignment(plan.variables);
        for variable in 1..=plan.variables {
            let spoiled = expansion::spoiled(&lists, &assignment, variable) as u128;
            let mended = expansion::mended(&lists, &assignment, variable) as u128;
            let by_formula = counts(&plan, &assignment, variable);
            assert_eq!(by_formula.break_count, Number::Exact(spoiled), "{plan:?}");
            assert_eq!(by_formula.make_count, Number::Exact(mended), "{plan:?}");
            let printed = exact::counts(&plan, &assignment, variable, 100).unwrap();
            assert_eq!(printed.0.to_u128(), Some(spoiled));
            assert_eq!(printed.1.to_u128(), Some(mended));
            met.breaks += usize::from(spoiled > 0);
            met.makes += usize::from(mended > 0);
        }
    }
    let least = [
        met.one_bound,
        met.both_bounds,
        met.l_above_u,
        met.below_zero,
        met.negative,
        met.several_rules,
        met.breaks,
        met.makes,
    ];
    assert!(least.iter().all(|&count| count > 1_000), "{met:?}");
}

#[test]
fn a_rule_without_bounds_always_holds_and_has_no_part() {
    // No file can hold one, but the definitions speak of it all the same.
    let free = Rule {
        lower: None,
        upper: None,
        terms: terms(&[(1, 2), (2, -3)]),
    };
    assert_eq!(expansion::parts(&free, LIMIT), Some(vec![]));
    for assignment in assignments(2) {
        assert!(free.holds(&assignment));
        let plan = plan(2, &[], &[&[free.clone(), at_least(1, &[(1, 1)])]]);
        let at = counts(&plan, &assignment, 1);
        assert_eq!(
            (at.break_count, at.make_count),
            (Number::ZERO, Number::ZERO)
        );
    }
}
