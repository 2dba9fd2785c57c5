//! Tallies (document 01, "Tallies").

use crate::literals::true_weight;
use crate::plan::Plan;

/// "Per rule P; per clause how many of its rules hold; and how many clauses hold no rule."
#[derive(Clone, Debug, PartialEq, Eq)]
pub struct Tallies {
    /// P of each rule, counted through all clauses.
    pub true_weights: Vec<i64>,
    /// For each clause how many of its rules hold.
    pub holding_rules: Vec<usize>,
    /// How many clauses hold no rule.
    pub unsatisfied: usize,
}

impl Tallies {
    /// "A fresh count works the tallies out from plan and assignment alone."
    pub fn fresh(plan: &Plan, assignment: &[bool]) -> Tallies {
        let mut true_weights = Vec::new();
        let mut holding_rules = Vec::new();
        for clause in &plan.clauses {
            for rule in &clause.rules {
                true_weights.push(true_weight(rule, assignment));
            }
            let holding = clause.rules.iter().filter(|rule| rule.holds(assignment));
            holding_rules.push(holding.count());
        }
        let unsatisfied = holding_rules.iter().filter(|&&rules| rules == 0).count();
        Tallies {
            true_weights,
            holding_rules,
            unsatisfied,
        }
    }

    /// The clauses that hold no rule, in ascending order, from 0.
    pub fn unsatisfied_clauses(&self) -> Vec<usize> {
        (0..self.holding_rules.len())
            .filter(|&clause| self.holding_rules[clause] == 0)
            .collect()
    }
}
