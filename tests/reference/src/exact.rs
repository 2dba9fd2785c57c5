//! The counts by the equations of paper 004 as printed, over exact integers and with real
//! subtractions, for rules whose binomials can be written out.

use crate::big::Big;
use crate::counts::CAP;
use crate::literals::{true_weight, Literals};
use crate::plan::{Clause, Plan, Rule};

/// m over k, exact: the product of (m − k + i) / i for i from 1 to k, each step of which is
/// itself a binomial, m − k + i over i. The smaller of k and m − k gives the same number. None
/// when that has more than `steps` steps.
pub fn binomial(m: i64, k: i64, steps: i64) -> Option<Big> {
    if k > m {
        return Some(Big::from(0));
    }
    let k = k.min(m - k);
    if k > steps {
        return None;
    }
    let mut result = Big::from(1);
    for i in 1..=k {
        let (quotient, rest) = result
            .mul(&Big::from((m - k + i) as u128))
            .div_small(i as u32);
        assert_eq!(rest, 0);
        result = quotient;
    }
    Some(result)
}

/// What m over k costs (document 02, T-03). "Binomials with upper number 0 to 34 come from Pascal's
/// triangle [..] and report 0. Above that a binomial of m over k reports its factors: the smallest
/// i at which m over i passes the cap, or the smaller of k and m − k if that comes first, and 0
/// where k exceeds m."
pub fn factors(m: i64, k: i64) -> i64 {
    if m <= 34 || k > m {
        return 0;
    }
    let passes_the_cap = |i: &i64| {
        let entry = binomial(m, *i, 40).expect("35 over 17 passes, and so does every later row");
        entry.to_u128().is_none_or(|entry| entry > CAP)
    };
    let most = k.min(m - k);
    (0..most).find(passes_the_cap).unwrap_or(most)
}

/// The numbers of a rule's parts that a flip spoils, mends or leaves unsatisfied.
pub struct Parts {
    pub e: Big,
    pub f: Big,
    pub g: Big,
}

/// Equations (10) to (12), "read with 'its literal is true' for 'x is true'". An absent bound
/// has no parts, so its binomials are 0.
pub fn parts(rule: &Rule, assignment: &[bool], variable: usize, steps: i64) -> Option<Parts> {
    let reading = Literals::of(rule);
    let (k, a, b) = (reading.k(), reading.a(), reading.b());
    let p = true_weight(rule, assignment);
    let n = k - p;
    let over = |m: i64, size: Option<i64>| match size {
        Some(size) => binomial(m, size, steps),
        None => Some(Big::from(0)),
    };
    Some(match reading.naming(variable) {
        None => Parts {
            e: Big::from(0),
            f: Big::from(0),
            g: over(n, a)?.add(&over(p, b)?),
        },
        Some(literal) if literal.is_true(assignment) => {
            let w = literal.weight;
            Parts {
                e: over(n + w, a)?.sub(&over(n, a)?),
                f: over(p, b)?.sub(&over(p - w, b)?),
                g: over(n, a)?.add(&over(p - w, b)?),
            }
        }
        Some(literal) => {
            let w = literal.weight;
            Parts {
                e: over(p + w, b)?.sub(&over(p, b)?),
                f: over(n, a)?.sub(&over(n - w, a)?),
                g: over(p, b)?.add(&over(n - w, a)?),
            }
        }
    })
}

/// Break and make count of one clause: Π(e+g) − Π g and Π(f+g) − Π g, equations (6) and (7).
pub fn clause_counts(
    clause: &Clause,
    assignment: &[bool],
    variable: usize,
    steps: i64,
) -> Option<(Big, Big)> {
    let (mut eg, mut fg, mut gs) = (Big::from(1), Big::from(1), Big::from(1));
    for rule in &clause.rules {
        let Parts { e, f, g } = parts(rule, assignment, variable, steps)?;
        eg = eg.mul(&e.add(&g));
        fg = fg.mul(&f.add(&g));
        gs = gs.mul(&g);
    }
    Some((eg.sub(&gs), fg.sub(&gs)))
}

/// "A variable's count is the sum over clauses." Break, then make; the true numbers, uncapped.
/// None when a binomial has more than `steps` factors.
pub fn counts(plan: &Plan, assignment: &[bool], variable: usize, steps: i64) -> Option<(Big, Big)> {
    let mut total = (Big::from(0), Big::from(0));
    for clause in &plan.clauses {
        let (break_count, make_count) = clause_counts(clause, assignment, variable, steps)?;
        total = (total.0.add(&break_count), total.1.add(&make_count));
    }
    Some(total)
}
