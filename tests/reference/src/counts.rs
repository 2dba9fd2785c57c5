//! Break and make counts for every plan, the largest included.
//!
//! A number is either known exactly or known to be above the cap. Sums and products of such
//! numbers stay right because nothing is ever subtracted from a number that is not exact:
//! differences of binomials and of products are counted directly instead.

use crate::literals::{Literal, Literals};
use crate::plan::Plan;
use crate::tallies::Tallies;
use std::cmp::Ordering;

/// "Each count given out is the true number or 4,294,967,295, whichever is smaller."
pub const CAP: u128 = 4_294_967_295;

/// A count as it is given out. "A count of 4,294,967,295 may be true or cut." "The counts of
/// document 01, and what is claimed of them, carry this mark." (document 02, T-08)
#[derive(Clone, Copy, Debug, PartialEq, Eq)]
pub struct Count {
    /// The true number, or 4,294,967,295 where it is cut.
    pub value: u32,
    /// Whether the true number is larger than 4,294,967,295.
    pub cut: bool,
}

impl Count {
    pub const ZERO: Count = Count::uncut(0);
    pub const CAP: Count = Count::uncut(u32::MAX);
    pub const CUT: Count = Count {
        value: u32::MAX,
        cut: true,
    };

    pub const fn uncut(value: u32) -> Count {
        Count { value, cut: false }
    }
}

/// "A cut count is greater than any uncut one; two cut ones are equal."
impl Ord for Count {
    fn cmp(&self, other: &Count) -> Ordering {
        match (self.cut, other.cut) {
            (true, true) => Ordering::Equal,
            (true, false) => Ordering::Greater,
            (false, true) => Ordering::Less,
            (false, false) => self.value.cmp(&other.value),
        }
    }
}

impl PartialOrd for Count {
    fn partial_cmp(&self, other: &Count) -> Option<Ordering> {
        Some(self.cmp(other))
    }
}

/// A whole number from 0: exact, or above the cap by an amount that does not matter.
#[derive(Clone, Copy, Debug, PartialEq, Eq)]
pub enum Number {
    Exact(u128),
    AboveCap,
}

use Number::{AboveCap, Exact};

impl Number {
    pub const ZERO: Number = Exact(0);
    pub const ONE: Number = Exact(1);

    /// A sum is above the cap if one of its numbers is, or if it is too long for 128 bits.
    pub fn plus(self, other: Number) -> Number {
        match (self, other) {
            (Exact(x), Exact(y)) => x.checked_add(y).map_or(AboveCap, Exact),
            _ => AboveCap,
        }
    }

    /// A product with 0 is 0: "zero times a cut one is zero and uncut". Any other is at least as
    /// large as each of its numbers.
    pub fn times(self, other: Number) -> Number {
        match (self, other) {
            (Exact(0), _) | (_, Exact(0)) => Exact(0),
            (Exact(x), Exact(y)) => x.checked_mul(y).map_or(AboveCap, Exact),
            _ => AboveCap,
        }
    }

    /// "The true number or 4,294,967,295, whichever is smaller", and whether it was cut.
    pub fn given(self) -> Count {
        match self {
            Exact(n) if n <= CAP => Count::uncut(n as u32),
            Exact(_) | AboveCap => Count::CUT,
        }
    }
}

/// Binomials are written out up to this number, 2 to the 64th.
const WRITTEN: u128 = 1 << 64;

/// No rule has more copies: 512 literals of weight 1,000,000, fewer than 2 to the 29th.
pub const MOST_COPIES: i64 = 512_000_000;

/// m over k, or None where that is above `WRITTEN`. The product of (m − k + i) / i for i from 1
/// to the smaller of k and m − k; each step is a binomial too, and none is below the one before.
fn binomial(m: i64, k: i64) -> Option<u128> {
    debug_assert!((0..=MOST_COPIES).contains(&m) && k >= 0);
    if k > m {
        return Some(0);
    }
    let k = k.min(m - k);
    let mut result = 1;
    for i in 1..=k {
        result = result * (m - k + i) as u128 / i as u128;
        if result > WRITTEN {
            return None;
        }
    }
    Some(result)
}

/// How many choices of `size` out of m copies there are; an absent bound (None) has none.
pub fn choices(m: i64, size: Option<i64>) -> Number {
    match size {
        Some(size) => binomial(m, size).map_or(AboveCap, Exact),
        None => Number::ZERO,
    }
}

/// How many choices of `size` out of m + w copies hold one of the last w: m + w over size less
/// m over size.
///
/// Both are written out and subtracted exactly, or the first is above 2 to the 64th. Then size is
/// not 0 and w not 0 here, and among the choices counted are those that hold the very last copy.
/// These are size / (m + w) of all choices, as each copy is in equally many; so more than
/// 2 to the 64th over 2 to the 29th, which is above the cap.
pub fn choices_with(m: i64, w: i64, size: Option<i64>) -> Number {
    debug_assert!(w > 0);
    let Some(size) = size else {
        return Number::ZERO;
    };
    match (binomial(m + w, size), binomial(m, size)) {
        (Some(all), Some(without)) => Exact(all - without),
        _ => AboveCap,
    }
}

/// "For one rule and variable, e, f and g are the numbers of its parts that a flip spoils, mends,
/// or leaves unsatisfied."
#[derive(Clone, Copy, Debug, PartialEq, Eq)]
pub struct Parts {
    pub e: Number,
    pub f: Number,
    pub g: Number,
}

/// Equations (10) to (12) for a rule with the sums K and P and the sizes A and B, and the literal
/// of the variable, if the rule names it, with its truth.
pub fn parts(
    (k, p): (i64, i64),
    (a, b): (Option<i64>, Option<i64>),
    literal: Option<(&Literal, bool)>,
) -> Parts {
    let n = k - p;
    match literal {
        // Case 1: the variable is not in the rule.
        None => Parts {
            e: Number::ZERO,
            f: Number::ZERO,
            g: choices(n, a).plus(choices(p, b)),
        },
        // Case 2: its literal is true.
        Some((&Literal { weight: w, .. }, true)) => Parts {
            e: choices_with(n, w, a),
            f: choices_with(p - w, w, b),
            g: choices(n, a).plus(choices(p - w, b)),
        },
        // Otherwise: its literal is false.
        Some((&Literal { weight: w, .. }, false)) => Parts {
            e: choices_with(p, w, b),
            f: choices_with(n - w, w, a),
            g: choices(p, b).plus(choices(n - w, a)),
        },
    }
}

/// Break and make count, uncapped.
#[derive(Clone, Copy, Debug, PartialEq, Eq)]
pub struct Counts {
    pub break_count: Number,
    pub make_count: Number,
}

/// Equations (6) and (7) without their subtraction. A joined clause is changed by the flip when
/// each of its parts is changed (spoiled, or mended) or left unsatisfied, and one at least is
/// changed. Rule by rule: one that is changed so far stays so by a part changed or left; one whose
/// parts are all left so far is changed by a part that is.
pub fn clause_counts(rules: &[Parts]) -> Counts {
    let changed = |change: fn(&Parts) -> Number| {
        let (mut changed, mut left) = (Number::ZERO, Number::ONE);
        for rule in rules {
            let this = change(rule);
            changed = changed.times(this.plus(rule.g)).plus(left.times(this));
            left = left.times(rule.g);
        }
        changed
    };
    Counts {
        break_count: changed(|rule| rule.e),
        make_count: changed(|rule| rule.f),
    }
}

/// What the counts need of a rule, worked out once.
struct Reading {
    literals: Literals,
    k: i64,
    a: Option<i64>,
    b: Option<i64>,
    /// The rule's place in the plan, counted through all clauses.
    place: usize,
}

/// The counts of one plan.
pub struct Counter {
    clauses: Vec<Vec<Reading>>,
    /// For each variable the clauses that name it.
    naming: Vec<Vec<usize>>,
}

impl Counter {
    pub fn new(plan: &Plan) -> Counter {
        let mut place = 0;
        let mut clauses = Vec::new();
        let mut naming = vec![Vec::new(); plan.variables];
        for (number, clause) in plan.clauses.iter().enumerate() {
            for variable in clause.variables() {
                naming[variable - 1].push(number);
            }
            let mut rules = Vec::new();
            for rule in &clause.rules {
                let literals = Literals::of(rule);
                let (k, a, b) = (literals.k(), literals.a(), literals.b());
                rules.push(Reading {
                    literals,
                    k,
                    a,
                    b,
                    place,
                });
                place += 1;
            }
            clauses.push(rules);
        }
        Counter { clauses, naming }
    }

    /// "A variable's count is the sum over clauses." A clause that does not name the variable is
    /// passed over: no flip of it changes any part there, so e and f are 0 and both counts are.
    pub fn counts(&self, tallies: &Tallies, assignment: &[bool], variable: usize) -> Counts {
        let (mut break_count, mut make_count) = (Number::ZERO, Number::ZERO);
        for &clause in &self.naming[variable - 1] {
            let rules: Vec<Parts> = self.clauses[clause]
                .iter()
                .map(|rule| {
                    let literal = rule.literals.naming(variable);
                    let literal = literal.map(|literal| (literal, literal.is_true(assignment)));
                    let p = tallies.true_weights[rule.place];
                    parts((rule.k, p), (rule.a, rule.b), literal)
                })
                .collect();
            let counts = clause_counts(&rules);
            break_count = break_count.plus(counts.break_count);
            make_count = make_count.plus(counts.make_count);
        }
        Counts {
            break_count,
            make_count,
        }
    }
}

/// Break and make count of a variable, from plan and assignment alone.
pub fn counts(plan: &Plan, assignment: &[bool], variable: usize) -> Counts {
    let tallies = Tallies::fresh(plan, assignment);
    Counter::new(plan).counts(&tallies, assignment, variable)
}
