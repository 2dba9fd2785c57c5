//! Short ways to write plans, assignments and settings.

use crate::file::MOST_WEIGHT;
use crate::plan::{Clause, Lock, Plan, Rule, Term};
use crate::walk::{Settings, NOVELTY, SKC};

pub fn terms(list: &[(usize, i64)]) -> Vec<Term> {
    list.iter()
        .map(|&(variable, weight)| Term { variable, weight })
        .collect()
}

pub fn at_least(lower: i64, list: &[(usize, i64)]) -> Rule {
    Rule {
        lower: Some(lower),
        upper: None,
        terms: terms(list),
    }
}

pub fn at_most(upper: i64, list: &[(usize, i64)]) -> Rule {
    Rule {
        lower: None,
        upper: Some(upper),
        terms: terms(list),
    }
}

pub fn between(lower: i64, list: &[(usize, i64)], upper: i64) -> Rule {
    Rule {
        lower: Some(lower),
        upper: Some(upper),
        terms: terms(list),
    }
}

/// A plan of n variables; each inner list of rules is a clause.
pub fn plan(n: usize, objective: &[(usize, i64)], clauses: &[&[Rule]]) -> Plan {
    Plan {
        variables: n,
        objective: terms(objective),
        locks: Vec::new(),
        clauses: clauses
            .iter()
            .map(|rules| Clause {
                rules: rules.to_vec(),
            })
            .collect(),
    }
}

/// The plan with these variables locked at 0 or 1.
pub fn locking(mut plan: Plan, locks: &[(usize, u8)]) -> Plan {
    let lock = |&(variable, value): &(usize, u8)| Lock {
        variable,
        value: value == 1,
    };
    plan.locks = locks.iter().map(lock).collect();
    plan
}

/// An assignment from digits, variable 1 first.
pub fn bits(digits: &str) -> Vec<bool> {
    digits.chars().map(|digit| digit == '1').collect()
}

/// Bytes from pairs of hexadecimal digits; `.` stands for none.
pub fn from_hexadecimal(word: &str) -> Vec<u8> {
    let digits = if word == "." { "" } else { word };
    assert!(digits.len().is_multiple_of(2));
    let byte = |place| u8::from_str_radix(&digits[place..place + 2], 16).unwrap();
    (0..digits.len()).step_by(2).map(byte).collect()
}

/// A plan and an assignment at which variable 1 would spoil m + w over 2 less m over 2 clauses: the
/// rule is w·x1 + Σ ≤ 1, and the weights of the sum, where all are 1, come to m. m is above 0.
pub fn difference_over_2(m: i64, w: i64) -> (Plan, Vec<bool>) {
    let mut list = vec![(1, w)];
    let mut left = m;
    while left > 0 {
        let weight = left.min(MOST_WEIGHT);
        list.push((list.len() + 1, weight));
        left -= weight;
    }
    let mut assignment = vec![true; list.len()];
    assignment[0] = false;
    (plan(list.len(), &[], &[&[at_most(1, &list)]]), assignment)
}

/// Settings under SKC.
pub fn settings(noise: u32, tries: u32, flips: u32, mode: u32) -> Settings {
    Settings {
        noise,
        tries,
        flips,
        mode,
        heuristic: SKC,
        chance: 0,
    }
}

/// .. and under Novelty+ with this walk chance.
pub fn novelty(skc: Settings, chance: u32) -> Settings {
    Settings {
        heuristic: NOVELTY,
        chance,
        ..skc
    }
}

/// The numbers of document 01's example.
pub const EXAMPLE_NUMBERS: [u32; 10] = [2, 1, 0, 5, 900, 3, 0, 5, 100, 0];

/// Its plan: n = 2, objective 1·x1 + 2·x2, one clause x1 + x2 ≥ 1.
pub fn example_plan() -> Plan {
    plan(2, &[(1, 1), (2, 2)], &[&[at_least(1, &[(1, 1), (2, 1)])]])
}
