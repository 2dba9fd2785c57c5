//! The examples of document 01 and the worked example of paper 004.

mod common;

use common::*;
use reference::counts::{counts, Number};
use reference::exact;
use reference::expansion;
use reference::file::{parse, write, Refusal};
use reference::literals::{true_weight, Literals};
use reference::plan::{Plan, Rule};
use reference::program::lines;
use reference::walk::lbs_bound;

/// Break and make count, the same by all three ways (the real lists only where they are short).
fn both(plan: &Plan, digits: &str, variable: usize) -> (u128, u128) {
    let assignment = bits(digits);
    let by_formula = counts(plan, &assignment, variable);
    let (Number::Exact(break_count), Number::Exact(make_count)) =
        (by_formula.break_count, by_formula.make_count)
    else {
        panic!("the examples' counts are exact");
    };
    let printed = exact::counts(plan, &assignment, variable, 1000).unwrap();
    assert_eq!(printed.0.to_u128(), Some(break_count));
    assert_eq!(printed.1.to_u128(), Some(make_count));
    if let Some(lists) = expansion::plan(plan, 100_000) {
        let spoiled = expansion::spoiled(&lists, &assignment, variable);
        let mended = expansion::mended(&lists, &assignment, variable);
        assert_eq!((spoiled as u128, mended as u128), (break_count, make_count));
    }
    (break_count, make_count)
}

fn one(n: usize, rule: Rule) -> Plan {
    plan(n, &[], &[&[rule]])
}

#[test]
fn the_rule_of_paper_000() {
    let rule = at_least(2, &[(1, 5), (2, -6), (3, 2)]);
    let reading = Literals::of(&rule);
    assert_eq!(reading.k(), 13);
    assert_eq!(reading.a(), Some(6));
    assert_eq!(reading.b(), None);
    assert_eq!(expansion::parts(&rule, 100_000).unwrap().len(), 1_716);
    // At 1,1,1 the sum is 1: not met.
    assert_eq!(reference::plan::sum(&rule.terms, &bits("111")), 1);
    assert!(!rule.holds(&bits("111")));
    let plan = one(3, rule);
    assert_eq!(both(&plan, "111", 2), (0, 1));
    assert_eq!(both(&plan, "111", 1).0, 461);
    assert_eq!(both(&plan, "111", 3).0, 27);
}

#[test]
fn exactly_one_of_three() {
    let plan = one(3, between(1, &[(1, 1), (2, 1), (3, 1)], 1));
    assert_eq!(both(&plan, "000", 1), (0, 1));
    assert_eq!(both(&plan, "100", 2), (1, 0));
}

#[test]
fn two_rules_joined_by_or() {
    let rules = [
        at_least(1, &[(1, 1), (2, 1)]),
        at_most(0, &[(1, 1), (3, 1)]),
    ];
    let plan = plan(3, &[], &[&rules]);
    assert_eq!(both(&plan, "101", 1).0, 1);
    assert_eq!(both(&plan, "100", 1).0, 0);
}

#[test]
fn a_rule_out_of_reach_is_one_empty_clause() {
    let rule = at_least(5, &[(1, 1), (2, 1)]);
    assert_eq!(expansion::parts(&rule, 10), Some(vec![vec![]]));
    let plan = one(2, rule);
    for digits in ["00", "01", "10", "11"] {
        assert_eq!(both(&plan, digits, 1), (0, 0));
        assert_eq!(both(&plan, digits, 2), (0, 0));
    }
}

#[test]
fn a_difference_of_binomials_above_the_cap() {
    let plan = one(2, at_most(1, &[(1, 1), (2, 100_000)]));
    assert_eq!(both(&plan, "11", 1).1, 100_000);
}

#[test]
fn lbs_rounds_down_below_zero_as_well() {
    assert_eq!(lbs_bound(-7, -2), -4);
    assert_eq!(lbs_bound(-1, 0), -1);
    // Exact thirds, and the case that rounding up would repeat for ever.
    assert_eq!(lbs_bound(0, 3), 2);
    assert_eq!(lbs_bound(-3, 0), -1);
    assert_eq!(lbs_bound(7, 8), 7);
    assert_eq!(lbs_bound(0, 2), 1);
}

#[test]
fn the_example_of_paper_004() {
    let rules = [
        between(2, &[(1, 1), (2, 1), (3, 1)], 2),
        between(4, &[(2, 2), (3, 1), (4, 4)], 5),
        between(3, &[(3, 3), (5, 10), (6, 8)], 10),
    ];
    let at = bits("101110");
    let kp: Vec<(i64, i64)> = rules
        .iter()
        .map(|rule| (Literals::of(rule).k(), true_weight(rule, &at)))
        .collect();
    assert_eq!(kp, [(3, 2), (7, 5), (21, 13)]);
    let efg: Vec<(u128, u128, u128)> = rules
        .iter()
        .map(|rule| {
            let parts = exact::parts(rule, &at, 2, 100).unwrap();
            let [e, f, g] = [parts.e, parts.f, parts.g].map(|n| n.to_u128().unwrap());
            (e, f, g)
        })
        .collect();
    assert_eq!(efg, [(1, 0, 0), (7, 0, 0), (0, 0, 78)]);
    assert_eq!(both(&plan(6, &[], &[&rules]), "101110", 2), (546, 0));
}

#[test]
fn the_whole_example() {
    assert_eq!(write(&example_plan()), EXAMPLE);
    assert_eq!(parse(&EXAMPLE), Ok(example_plan()));
    let numbers: Vec<u8> = EXAMPLE_NUMBERS
        .iter()
        .flat_map(|number| number.to_le_bytes())
        .collect();
    assert_eq!(
        lines(Some(&EXAMPLE), Some(&EXAMPLE_WALK), Some(&numbers)),
        "ended 1 2 2 10\n10\n"
    );
}

#[test]
fn edges_of_the_file() {
    let mut longer = EXAMPLE.to_vec();
    longer.push(0);
    let refused = |number, offset| Err(Refusal { number, offset });
    assert_eq!(parse(&longer), refused(7, 50));
    assert_eq!(parse(&[]), refused(1, 0));
    for (n, answer) in [(512, None), (513, Some((4, 0)))] {
        let bytes = write(&plan(n, &[], &[]));
        match answer {
            None => assert_eq!(parse(&bytes).unwrap().variables, n),
            Some((number, offset)) => assert_eq!(parse(&bytes), refused(number, offset)),
        }
    }
}
