//! The full propositional expansion as real lists (paper 004, section 3.1.1, as document 01
//! reads it), and the counts by counting.

use crate::literals::Literals;
use crate::plan::{flipped, value, Clause, Plan, Rule};

/// A variable or its negation in a clause of the expansion.
#[derive(Clone, Copy, Debug, PartialEq, Eq)]
pub struct Atom {
    pub variable: usize,
    pub positive: bool,
}

/// One clause of the expansion, or the part of it that one rule gives: atoms joined by 'or'.
/// "Repeated clauses and repeated copies are all counted", so both are lists, not sets.
pub type Part = Vec<Atom>;

/// "An empty one is false": no atom, none true.
pub fn is_true(part: &Part, assignment: &[bool]) -> bool {
    part.iter()
        .any(|atom| value(assignment, atom.variable) == atom.positive)
}

/// Every choice of `size` of the copies, each as a list; one empty choice for size 0, none for a
/// size above the number of copies. None when there are more than `limit`.
fn choices(copies: &[Atom], size: usize, limit: usize) -> Option<Vec<Part>> {
    if size == 0 {
        return Some(vec![Vec::new()]);
    }
    if copies.len() < size {
        return Some(Vec::new());
    }
    let (first, rest) = (copies[0], &copies[1..]);
    let mut all = choices(rest, size - 1, limit)?;
    for part in &mut all {
        part.insert(0, first);
    }
    all.extend(choices(rest, size, limit)?);
    (all.len() <= limit).then_some(all)
}

/// The parts of a rule: for its lower bound each choice of A copies, for its upper bound each
/// choice of B copies, negated; "an absent bound gives none". None when there would be more than
/// `limit` copies or parts.
pub fn parts(rule: &Rule, limit: usize) -> Option<Vec<Part>> {
    let reading = Literals::of(rule);
    if reading.k() > limit as i64 {
        return None;
    }
    // "Each literal of weight w stands for w copies."
    let mut copies = Vec::new();
    for literal in &reading.literals {
        for _ in 0..literal.weight {
            copies.push(Atom {
                variable: literal.variable,
                positive: literal.positive,
            });
        }
    }
    let negated: Vec<Atom> = copies
        .iter()
        .map(|copy| Atom {
            variable: copy.variable,
            positive: !copy.positive,
        })
        .collect();
    let mut parts = Vec::new();
    if let Some(a) = reading.a() {
        parts.extend(choices(&copies, a as usize, limit)?);
    }
    if let Some(b) = reading.b() {
        parts.extend(choices(&negated, b as usize, limit)?);
    }
    (parts.len() <= limit).then_some(parts)
}

/// "The expansion of a clause with several rules takes one part from each rule, in all
/// combinations." None when it would be larger than `limit`.
pub fn clause(clause: &Clause, limit: usize) -> Option<Vec<Part>> {
    let mut joined: Vec<Part> = vec![Vec::new()];
    for rule in &clause.rules {
        let parts = parts(rule, limit)?;
        if joined.len() * parts.len() > limit {
            return None;
        }
        let mut longer = Vec::new();
        for before in &joined {
            for part in &parts {
                longer.push([before.as_slice(), part.as_slice()].concat());
            }
        }
        joined = longer;
    }
    Some(joined)
}

/// The expansion of a plan: that of its clauses together. None when a clause's is larger than
/// `limit`.
pub fn plan(plan: &Plan, limit: usize) -> Option<Vec<Part>> {
    let mut all = Vec::new();
    for each in &plan.clauses {
        all.extend(clause(each, limit)?);
    }
    Some(all)
}

/// How many clauses of the expansion a flip of the variable spoils: "true before it and false
/// after". This is the break count.
pub fn spoiled(expansion: &[Part], assignment: &[bool], variable: usize) -> usize {
    let after = flipped(assignment, variable);
    expansion
        .iter()
        .filter(|part| is_true(part, assignment) && !is_true(part, &after))
        .count()
}

/// How many a flip mends, the reverse. This is the make count.
pub fn mended(expansion: &[Part], assignment: &[bool], variable: usize) -> usize {
    spoiled(expansion, &flipped(assignment, variable), variable)
}

/// How many are false before and after the flip (g of paper 004).
pub fn left(expansion: &[Part], assignment: &[bool], variable: usize) -> usize {
    let after = flipped(assignment, variable);
    expansion
        .iter()
        .filter(|part| !is_true(part, assignment) && !is_true(part, &after))
        .count()
}
