//! Big integers, binomials, and counts on both sides of the cap.

mod common;

use common::*;
use reference::big::Big;
use reference::counts::{choices, choices_with, counts, Count, Number, CAP, MOST_COPIES};
use reference::exact::{self, binomial};
use reference::plan::Plan;
use reference::random::{cap_plan, heavy_plan, Random};
use std::cmp::Ordering;

fn power_of_two(exponent: u32) -> Big {
    (0..exponent).fold(Big::from(1), |n, _| n.add(&n))
}

#[test]
fn big_integers_agree_with_128_bits() {
    let mut random = Random::new(1);
    for _ in 0..20_000 {
        let number = |random: &mut Random| {
            let bits = random.below(63);
            random.draw() as u128 & ((1 << bits) - 1)
        };
        let (x, y) = (number(&mut random), number(&mut random));
        let (big_x, big_y) = (Big::from(x), Big::from(y));
        assert_eq!(big_x.add(&big_y).to_u128(), Some(x + y));
        assert_eq!(big_x.mul(&big_y).to_u128(), Some(x * y));
        assert_eq!(big_x.cmp(&big_y), x.cmp(&y));
        let (large, small) = (x.max(y), x.min(y));
        let difference = Big::from(large).sub(&Big::from(small));
        assert_eq!(difference, Big::from(large - small));
        let divisor = random.number().max(1);
        let (quotient, rest) = big_x.mul(&big_y).div_small(divisor);
        assert_eq!(quotient.to_u128(), Some(x * y / divisor as u128));
        assert_eq!(rest as u128, x * y % divisor as u128);
    }
    // Beyond 128 bits: (2^200 + 1)(2^200 − 1) = 2^400 − 1.
    let (power, one) = (power_of_two(200), Big::from(1));
    let product = power.add(&one).mul(&power.sub(&one));
    assert_eq!(product, power_of_two(400).sub(&one));
    assert_eq!(product.to_u128(), None);
}

#[test]
fn exact_binomials_obey_pascal() {
    for m in 0..90 {
        let mut row = Big::from(0);
        for k in 0..=m {
            let this = binomial(m, k, 1_000).unwrap();
            row = row.add(&this);
            if m > 0 && k > 0 {
                let left = binomial(m - 1, k - 1, 1_000).unwrap();
                let right = binomial(m - 1, k, 1_000).unwrap();
                assert_eq!(this, left.add(&right));
            }
        }
        assert_eq!(row, power_of_two(m as u32));
        assert_eq!(binomial(m, m + 1, 1_000), Some(Big::from(0)));
    }
    assert_eq!(binomial(100, 50, 49), None);
}

/// A number of `counts` is right if it is exact, or above the cap and said to be so; and what is given
/// out is the smaller of the true number and the cap, cut exactly where the true number is above it.
fn agrees(number: Number, true_number: &Big) -> bool {
    let (cap, given) = (Big::from(CAP), number.given());
    let right = match number {
        Number::Exact(n) => true_number.to_u128() == Some(n),
        Number::AboveCap => *true_number > cap,
    };
    let smaller = true_number.clone().min(cap.clone());
    right && Big::from(given.value as u128) == smaller && given.cut == (*true_number > cap)
}

#[test]
fn choices_agree_with_exact_binomials() {
    let mut random = Random::new(2);
    let mut above = 0;
    for round in 0..30_000 {
        let most = [30, 100, 1_000, 100_000, MOST_COPIES][round % 5];
        let m = random.between(0, most - 1);
        let w = random.between(1, (most - m).min(1_000_000));
        let size = match random.below(4) {
            0 => random.between(0, 12),
            1 => (m + w - random.between(0, 12)).max(0),
            2 => (m - random.between(-3, 12)).max(0),
            _ => random.between(0, (m + w).min(120)),
        };
        let Some(with) = binomial(m + w, size, 200) else {
            continue;
        };
        let Some(without) = binomial(m, size, 200) else {
            continue;
        };
        assert!(agrees(choices(m, Some(size)), &without), "{m} over {size}");
        let number = choices_with(m, w, Some(size));
        assert!(agrees(number, &with.sub(&without)), "{m}+{w} over {size}");
        above += usize::from(number == Number::AboveCap);
    }
    assert!(above > 1_000);
    assert_eq!(choices(5, None), Number::ZERO);
    assert_eq!(choices_with(5, 3, None), Number::ZERO);
}

#[test]
fn a_difference_is_the_sum_of_smaller_binomials() {
    // m + w over k less m over k is the sum of j over k − 1 for j from m to m + w − 1.
    for m in 0..40 {
        for w in 1..20 {
            for k in 1..25 {
                let sum: u128 = (m..m + w)
                    .map(|j| match choices(j, Some(k - 1)) {
                        Number::Exact(n) => n,
                        Number::AboveCap => panic!("small binomials are exact"),
                    })
                    .sum();
                assert_eq!(choices_with(m, w, Some(k)), Number::Exact(sum));
            }
            assert_eq!(choices_with(m, w, Some(0)), Number::ZERO);
        }
    }
}

#[test]
fn sums_and_products_of_numbers() {
    let (zero, one, above) = (Number::ZERO, Number::ONE, Number::AboveCap);
    assert_eq!(zero.times(above), zero);
    assert_eq!(above.times(zero), zero);
    assert_eq!(one.times(above), above);
    assert_eq!(zero.plus(above), above);
    assert_eq!(above.plus(above), above);
    let large = Number::Exact(u128::MAX);
    assert_eq!(large.plus(zero), large);
    assert_eq!(large.plus(one), above);
    assert_eq!(large.times(Number::Exact(2)), above);
    assert_eq!(Number::Exact(6).times(Number::Exact(7)), Number::Exact(42));
    assert_eq!(Number::Exact(6).plus(Number::Exact(7)), Number::Exact(13));
}

/// "A count of 4,294,967,295 may be true or cut."
#[test]
fn counts_given_out() {
    let cut = Count {
        value: 4_294_967_295,
        cut: true,
    };
    let uncut = |value| Count { value, cut: false };
    for (number, given) in [
        (Number::ZERO, uncut(0)),
        (Number::Exact(CAP - 1), uncut(4_294_967_294)),
        (Number::Exact(CAP), uncut(4_294_967_295)),
        (Number::Exact(CAP + 1), cut),
        (Number::Exact(u128::MAX), cut),
        (Number::AboveCap, cut),
    ] {
        assert_eq!(number.given(), given, "{number:?}");
    }
    // "Zero times a cut one is zero and uncut"; one that is cut stays so in every other sum and
    // product, and a sum of two that are not may be.
    let (zero, one) = (Number::ZERO, Number::ONE);
    for above in [Number::AboveCap, Number::Exact(CAP + 1)] {
        assert_eq!(zero.times(above).given(), uncut(0));
        assert_eq!(above.times(zero).given(), uncut(0));
        assert_eq!(one.times(above).given(), cut);
        assert_eq!(above.plus(zero).given(), cut);
        assert_eq!(above.plus(above).given(), cut);
    }
    let exact = |n| Number::Exact(n);
    assert_eq!(exact(CAP).plus(zero).given(), uncut(4_294_967_295));
    assert_eq!(exact(CAP).plus(one).given(), cut);
    assert_eq!(exact(CAP).times(one).given(), uncut(4_294_967_295));
    assert_eq!(
        exact(65_535).times(exact(65_537)).given(),
        uncut(4_294_967_295)
    );
    assert_eq!(exact(65_536).times(exact(65_536)).given(), cut);
}

/// "A cut count is greater than any uncut one; two cut ones are equal."
#[test]
fn the_order_of_counts() {
    let rising = [
        Count::ZERO,
        Count::uncut(1),
        Count::uncut(4_294_967_294),
        Count::CAP,
        Count::CUT,
    ];
    for (i, x) in rising.iter().enumerate() {
        for (j, y) in rising.iter().enumerate() {
            assert_eq!(x.cmp(y), i.cmp(&j));
        }
    }
    assert_eq!(Count::CUT.cmp(&Number::AboveCap.given()), Ordering::Equal);
}

/// A clause of rules w·x1 ≤ 0: at x1 = 0 each has e = w and g = 0, so its break count is the
/// product of the weights.
fn product_clause(weights: &[i64]) -> Vec<reference::plan::Rule> {
    weights.iter().map(|&w| at_most(0, &[(1, w)])).collect()
}

#[test]
fn counts_around_the_cap() {
    // 65,535·65,537 is the cap itself; 65,536² is one more; 65,535·65,536 + 65,534 one less.
    let below = Count::uncut(4_294_967_294);
    for (clauses, true_number, given) in [
        (vec![vec![65_535, 65_537]], CAP, Count::CAP),
        (vec![vec![3, 5, 17, 257, 65_537]], CAP, Count::CAP),
        (vec![vec![65_536, 65_536]], CAP + 1, Count::CUT),
        (vec![vec![65_535, 65_536], vec![65_534]], CAP - 1, below),
        (vec![vec![65_535, 65_536], vec![65_535]], CAP, Count::CAP),
        (vec![vec![65_535, 65_537], vec![1]], CAP + 1, Count::CUT),
    ] {
        let clauses: Vec<_> = clauses
            .iter()
            .map(|weights| product_clause(weights))
            .collect();
        let lists: Vec<&[_]> = clauses.iter().map(Vec::as_slice).collect();
        let plan = plan(1, &[], &lists);
        let down = counts(&plan, &bits("0"), 1);
        assert_eq!(down.break_count, Number::Exact(true_number));
        assert_eq!(down.break_count.given(), given);
        assert_eq!(down.make_count, Number::ZERO);
        // Back again the same clauses are mended.
        let up = counts(&plan, &bits("1"), 1);
        assert_eq!(
            (up.break_count, up.make_count),
            (Number::ZERO, down.break_count)
        );
    }
}

#[test]
fn products_above_the_cap_are_not_subtracted() {
    // Π(e+g) and Π g are both above the cap; cut before the subtraction, they would give 0. For
    // x1 + 100,000·x2 ≤ 1 at 0,1: g is 100,000 over 2 and e is 100,000. Beside it x3 ≥ 1 at 0 has
    // g = 1 and e = 0, so that the difference is 100,000.
    let rules = [at_most(1, &[(1, 1), (2, 100_000)]), at_least(1, &[(3, 1)])];
    let plan = plan(3, &[], &[&rules]);
    let at = counts(&plan, &bits("010"), 1);
    assert_eq!(at.break_count, Number::Exact(100_000));
    assert_eq!(at.make_count, Number::ZERO);
}

/// The mark of a difference is that of its own number: both binomials are far above the cap.
#[test]
fn differences_at_the_cap() {
    for (m, w) in [(252_645_127, 17), (286_331_146, 15), (84_215_020, 51)] {
        assert_eq!(choices(m, Some(2)).given(), Count::CUT);
        for (m, given) in [
            (m - 1, Count::uncut(4_294_967_295 - w as u32)),
            (m, Count::CAP),
            (m + 1, Count::CUT),
        ] {
            let (plan, at) = difference_over_2(m, w);
            let spoiled = counts(&plan, &at, 1);
            assert_eq!(spoiled.break_count.given(), given, "{m} and {w}");
            assert_eq!(spoiled.make_count, Number::ZERO);
        }
    }
}

/// How many counts were below the cap and not 0, how many the cap itself, how many above it.
#[derive(Default, Debug)]
struct Met {
    below: usize,
    at: usize,
    above: usize,
}

/// Break and make count are right, exact or above the cap, for each variable.
fn check(plan: &Plan, assignment: &[bool], met: &mut Met) {
    for variable in 1..=plan.variables {
        let Some((break_count, make_count)) = exact::counts(plan, assignment, variable, 400) else {
            continue;
        };
        let by_formula = counts(plan, assignment, variable);
        assert!(agrees(by_formula.break_count, &break_count), "{plan:?}");
        assert!(agrees(by_formula.make_count, &make_count), "{plan:?}");
        for number in [break_count, make_count] {
            match number.cmp(&Big::from(CAP)) {
                Ordering::Less => met.below += usize::from(number > Big::from(0)),
                Ordering::Equal => met.at += 1,
                Ordering::Greater => met.above += 1,
            }
        }
    }
}

#[test]
fn heavy_counts_agree_with_the_printed_equations() {
    let mut random = Random::new(3);
    let mut met = Met::default();
    for _ in 0..6_000 {
        let plan = heavy_plan(&mut random);
        let assignment = random.assignment(plan.variables);
        check(&plan, &assignment, &mut met);
    }
    // Both sides of the cap were met often.
    assert!(met.below > 500 && met.above > 500, "{met:?}");
}

/// The same around the cap, which few plans reach by chance.
#[test]
fn counts_around_the_cap_agree_with_the_printed_equations() {
    let mut random = Random::new(4);
    let mut met = Met::default();
    for _ in 0..3_000 {
        let plan = cap_plan(&mut random);
        let assignment = random.assignment(plan.variables);
        check(&plan, &assignment, &mut met);
    }
    assert!(met.below.min(met.at).min(met.above) > 500, "{met:?}");
}

#[test]
fn the_heaviest_rule_is_counted() {
    // K = 512,000,000 with all weights 1,000,000.
    let list: Vec<(usize, i64)> = (1..=512).map(|variable| (variable, 1_000_000)).collect();
    let all = plan(512, &[], &[&[at_least(512_000_000, &list)]]);
    // A = 1: each of a false variable's 1,000,000 copies is a clause of its own.
    let mut at = vec![true; 512];
    at[6] = false;
    let seven = counts(&all, &at, 7);
    assert_eq!(seven.make_count, Number::Exact(1_000_000));
    assert_eq!(seven.break_count, Number::ZERO);
    assert_eq!(counts(&all, &at, 8).break_count, Number::Exact(1_000_000));
    // Half of the copies: far above the cap for a flip that crosses the bound.
    let half = plan(512, &[], &[&[at_least(256_000_000, &list)]]);
    let at: Vec<bool> = (1..=512).map(|variable| variable <= 256).collect();
    assert_eq!(counts(&half, &at, 1).break_count, Number::AboveCap);
    assert_eq!(counts(&half, &at, 512).break_count, Number::ZERO);
    assert_eq!(counts(&half, &at, 512).make_count, Number::ZERO);
}
