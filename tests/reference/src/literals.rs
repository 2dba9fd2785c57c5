//! A rule read as literals with positive weights (document 01, "Rules and clauses").

use crate::plan::{value, Rule, Term};

/// A variable or its negation, with a positive weight.
#[derive(Clone, Copy, Debug, PartialEq, Eq)]
pub struct Literal {
    pub variable: usize,
    pub positive: bool,
    pub weight: i64,
}

/// A rule over literals; its bounds have risen with the negated weights.
#[derive(Clone, Debug, PartialEq, Eq)]
pub struct Literals {
    pub literals: Vec<Literal>,
    pub lower: Option<i64>,
    pub upper: Option<i64>,
}

impl Literal {
    /// "A negative weight −w on a variable is read as weight w on its negated literal."
    pub fn of(term: &Term) -> Literal {
        Literal {
            variable: term.variable,
            positive: term.weight > 0,
            weight: term.weight.abs(),
        }
    }

    pub fn is_true(&self, assignment: &[bool]) -> bool {
        value(assignment, self.variable) == self.positive
    }
}

impl Literals {
    /// The reading of a rule: "both bounds rise by w" for each negative weight −w. An absent
    /// bound stays absent.
    pub fn of(rule: &Rule) -> Literals {
        let rise: i64 = rule
            .terms
            .iter()
            .map(|term| term.weight)
            .filter(|&weight| weight < 0)
            .map(|weight| -weight)
            .sum();
        Literals {
            literals: rule.terms.iter().map(Literal::of).collect(),
            lower: rule.lower.map(|lower| lower + rise),
            upper: rule.upper.map(|upper| upper + rise),
        }
    }

    /// "K is their sum."
    pub fn k(&self) -> i64 {
        self.literals.iter().map(|literal| literal.weight).sum()
    }

    /// "Lower bound: one clause of literals for each choice of A = K − l + 1 copies ... A or B
    /// below 0 is raised to 0." None without a lower bound.
    pub fn a(&self) -> Option<i64> {
        self.lower.map(|lower| (self.k() - lower + 1).max(0))
    }

    /// "Upper bound: one clause of negated literals for each choice of B = u + 1 copies ... A or
    /// B below 0 is raised to 0." None without an upper bound.
    pub fn b(&self) -> Option<i64> {
        self.upper.map(|upper| (upper + 1).max(0))
    }

    /// The literal of a variable, if the rule names it.
    pub fn naming(&self, variable: usize) -> Option<&Literal> {
        self.literals
            .iter()
            .find(|literal| literal.variable == variable)
    }
}

/// "P the sum over true literals."
pub fn true_weight(rule: &Rule, assignment: &[bool]) -> i64 {
    rule.terms
        .iter()
        .map(Literal::of)
        .filter(|literal| literal.is_true(assignment))
        .map(|literal| literal.weight)
        .sum()
}
