//! Why nothing is found. A search that finds nothing says nothing of the reason. So the planner is
//! asked another question: of the same plan in which every clause may be left out, each at a cost of
//! 1. What it then leaves out cannot be met together with the rest, as far as it could find.

use crate::planner::Planner;
use crate::settings::FIRST;
use reference::file::{MOST_RULES, MOST_TERMS, MOST_VARIABLES};
use reference::plan::{Clause, Plan, Rule, Term};

/// The same plan with a variable for each clause, which stands for leaving it out; None where that
/// would be too large.
pub fn relaxed(plan: &Plan) -> Option<Plan> {
    let rules: usize = plan.clauses.iter().map(|clause| clause.rules.len()).sum();
    let all = plan.clauses.iter().flat_map(|clause| &clause.rules);
    let terms: usize = all.map(|rule| rule.terms.len()).sum();
    let more = plan.clauses.len();
    let fits = plan.variables + more <= MOST_VARIABLES
        && rules + more <= MOST_RULES
        && terms + more <= MOST_TERMS;
    if !fits {
        return None;
    }
    let term = |place| Term {
        variable: plan.variables + place + 1,
        weight: 1,
    };
    let clause = |(place, clause): (usize, &Clause)| {
        let mut rules = clause.rules.clone();
        rules.push(Rule {
            lower: Some(1),
            upper: None,
            terms: vec![term(place)],
        });
        Clause { rules }
    };
    Some(Plan {
        variables: plan.variables + more,
        objective: (0..more).map(term).collect(),
        locks: plan.locks.clone(),
        clauses: plan.clauses.iter().enumerate().map(clause).collect(),
    })
}

/// An assignment that meets all clauses but a few, if one is found; the clauses that it leaves out
/// are told by looking at them.
pub fn nearly(plan: &Plan, numbers: &[u32], check: bool) -> Result<Option<Vec<bool>>, String> {
    let Some(relaxed) = relaxed(plan) else {
        return Ok(None);
    };
    let found = Planner::new(&relaxed, check).search(&FIRST, numbers)?;
    Ok(found.assignment.map(|bits| bits[..plan.variables].to_vec()))
}

/// The clauses, by their places, none of whose rules any values can meet, locked ones being as they
/// are: each is judged by the least and the greatest sum of its rules.
pub fn never_met(plan: &Plan) -> Vec<usize> {
    let least = |term: &Term| match plan.lock(term.variable) {
        Some(value) => term.weight * value as i64,
        None => term.weight.min(0),
    };
    let most = |term: &Term| match plan.lock(term.variable) {
        Some(value) => term.weight * value as i64,
        None => term.weight.max(0),
    };
    let hopeless = |rule: &Rule| {
        let [least, most]: [i64; 2] = [
            rule.terms.iter().map(least).sum(),
            rule.terms.iter().map(most).sum(),
        ];
        let crossed = matches!((rule.lower, rule.upper), (Some(l), Some(u)) if l > u);
        crossed || rule.lower.is_some_and(|l| most < l) || rule.upper.is_some_and(|u| least > u)
    };
    let clauses = plan.clauses.iter().enumerate();
    let never = clauses.filter(|(_, clause)| clause.rules.iter().all(hopeless));
    never.map(|(place, _)| place).collect()
}
