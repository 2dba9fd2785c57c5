//! A plan squeezed after locking (document 02, T-12).

use crate::file::{parse, write, Refusal};
use crate::plan::{Clause, Plan, Rule, Term};

/// "21 for a list below 512 places", each place a word of 4 bytes.
pub const LIST: usize = 2_048;

/// What a squeeze answers: the new plan, "the objective's constant", and "which old variable each
/// new one was".
#[derive(Clone, Debug, PartialEq, Eq)]
pub struct Squeezed {
    pub plan: Plan,
    pub constant: i64,
    pub old: Vec<usize>,
}

/// "71 if every variable is locked, then 72 if a clause lost all rules."
#[derive(Clone, Copy, Debug, PartialEq, Eq)]
pub enum Fault {
    AllLocked,
    ClauseLost,
}

impl Fault {
    pub fn refusal(self) -> Refusal {
        let number = match self {
            Fault::AllLocked => 71,
            Fault::ClauseLost => 72,
        };
        Refusal { number, offset: 0 }
    }
}

/// The sum of the terms whose variable is locked at 1.
fn put_in(plan: &Plan, terms: &[Term]) -> i64 {
    let fixed = |term: &&Term| plan.lock(term.variable) == Some(true);
    terms.iter().filter(fixed).map(|term| term.weight).sum()
}

/// The terms of unlocked variables, under their new numbers.
fn renumbered(old: &[usize], terms: &[Term]) -> Vec<Term> {
    let mut new = Vec::new();
    for term in terms {
        if let Some(place) = old.iter().position(|&x| x == term.variable) {
            new.push(Term {
                variable: place + 1,
                weight: term.weight,
            });
        }
    }
    new
}

/// What becomes of a rule; it is "judged by its least and greatest sum alone".
enum Fate {
    NeverMet,
    AlwaysMet,
    Kept(Rule),
}

fn fate(plan: &Plan, old: &[usize], rule: &Rule) -> Fate {
    let terms = renumbered(old, &rule.terms);
    let least: i64 = terms.iter().map(|term| term.weight.min(0)).sum();
    let greatest: i64 = terms.iter().map(|term| term.weight.max(0)).sum();
    let fixed = put_in(plan, &rule.terms);
    let lower = rule.lower.map(|l| l - fixed);
    let upper = rule.upper.map(|u| u - fixed);
    // "Drop a rule that no values can meet".
    if lower.is_some_and(|l| greatest < l) || upper.is_some_and(|u| u < least) {
        return Fate::NeverMet;
    }
    // "Drop a bound that all values of the remaining variables meet".
    let lower = lower.filter(|&l| least < l);
    let upper = upper.filter(|&u| u < greatest);
    if lower.is_none() && upper.is_none() {
        return Fate::AlwaysMet;
    }
    Fate::Kept(Rule {
        lower,
        upper,
        terms,
    })
}

/// The clause, or None where it is dropped: "drop a clause with a rule that all values meet".
fn squeezed_clause(plan: &Plan, old: &[usize], clause: &Clause) -> Option<Clause> {
    let mut rules = Vec::new();
    for rule in &clause.rules {
        match fate(plan, old, rule) {
            Fate::NeverMet => {}
            Fate::AlwaysMet => return None,
            Fate::Kept(rule) => rules.push(rule),
        }
    }
    Some(Clause { rules })
}

/// "Renumber the unlocked variables (all kept) by rising number".
pub fn squeezed(plan: &Plan) -> Result<Squeezed, Fault> {
    let old: Vec<usize> = (1..=plan.variables)
        .filter(|&x| plan.lock(x).is_none())
        .collect();
    if old.is_empty() {
        return Err(Fault::AllLocked);
    }
    let kept = plan.clauses.iter();
    let clauses: Vec<Clause> = kept
        .filter_map(|clause| squeezed_clause(plan, &old, clause))
        .collect();
    if clauses.iter().any(|clause| clause.rules.is_empty()) {
        return Err(Fault::ClauseLost);
    }
    Ok(Squeezed {
        plan: Plan {
            variables: old.len(),
            objective: renumbered(&old, &plan.objective),
            locks: Vec::new(),
            clauses,
        },
        constant: put_in(plan, &plan.objective),
        old,
    })
}

/// What a call answers: the new file's length and the constant.
#[derive(Clone, Copy, Debug, PartialEq, Eq)]
pub struct Answer {
    pub length: usize,
    pub constant: i64,
}

/// A call on a file in its own buffer and a lent list. "Turned away, with nothing changed: 21 for
/// a list below 512 places, the file's own, then 71 [..], then 72".
pub fn squeeze(file: &mut [u8], list: &mut [u8]) -> Result<Answer, Refusal> {
    if list.len() < LIST {
        return Err(Refusal {
            number: 21,
            offset: 0,
        });
    }
    let squeezed = squeezed(&parse(file)?).map_err(Fault::refusal)?;
    // "Bytes after the new end are 0." "0 in unused places".
    let bytes = write(&squeezed.plan);
    file[..bytes.len()].copy_from_slice(&bytes);
    file[bytes.len()..].fill(0);
    for place in 0..LIST / 4 {
        let variable = squeezed.old.get(place).copied().unwrap_or(0) as u32;
        list[4 * place..4 * place + 4].copy_from_slice(&variable.to_le_bytes());
    }
    Ok(Answer {
        length: bytes.len(),
        constant: squeezed.constant,
    })
}

/// The assignment of all variables: the unlocked ones as `free` has them, the others as locked.
pub fn extended(plan: &Plan, old: &[usize], free: &[bool]) -> Vec<bool> {
    let value = |x| match old.iter().position(|&y| y == x) {
        Some(place) => free[place],
        None => plan.lock(x).expect("a variable is unlocked or locked"),
    };
    (1..=plan.variables).map(value).collect()
}
