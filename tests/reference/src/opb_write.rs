//! A plan as an OPB text (document 02, T-02): the mapping τ of document 004, section 4, and how its
//! lines are spelled.

use crate::plan::{sum, Clause, Lock, Plan, Rule, Term};

/// A constraint: a sum, `=` or `>=`, and the number behind it.
#[derive(Clone, Debug, PartialEq, Eq)]
pub struct Line {
    pub terms: Vec<Term>,
    pub exact: bool,
    pub bound: i64,
}

impl Line {
    pub fn met(&self, assignment: &[bool]) -> bool {
        let sum = sum(&self.terms, assignment);
        match self.exact {
            true => sum == self.bound,
            false => sum >= self.bound,
        }
    }
}

/// What a text says.
#[derive(Clone, Debug, PartialEq, Eq)]
pub struct Text {
    pub variables: usize,
    pub objective: Vec<Term>,
    pub lines: Vec<Line>,
}

impl Text {
    pub fn solved(&self, assignment: &[bool]) -> bool {
        self.lines.iter().all(|line| line.met(assignment))
    }
}

/// A sum of at least `bound`: "zero coefficients left out".
fn at_least(terms: &[Term], bound: i64) -> Line {
    Line {
        terms: terms.iter().filter(|t| t.weight != 0).copied().collect(),
        exact: false,
        bound,
    }
}

/// A sum of at most `bound`: "`<=` by changed signs".
fn at_most(terms: &[Term], bound: i64) -> Line {
    let negated = |term: &Term| Term {
        weight: -term.weight,
        ..*term
    };
    let terms: Vec<Term> = terms.iter().map(negated).collect();
    at_least(&terms, -bound)
}

/// "single-rule clauses written straight", "bounds (lower first)".
fn straight(rule: &Rule) -> Vec<Line> {
    let lower = rule.lower.map(|l| at_least(&rule.terms, l));
    let upper = rule.upper.map(|u| at_most(&rule.terms, u));
    lower.into_iter().chain(upper).collect()
}

fn weighted(weight: i64, variable: usize) -> Term {
    Term { variable, weight }
}

/// The lines of a rule whose W⁺, W⁻ and W are these three, "in paper order".
fn equivalent(rule: &Rule, [plus, minus, whole]: [usize; 3]) -> Vec<Line> {
    let positive: i64 = rule.terms.iter().map(|t| t.weight).filter(|w| *w > 0).sum();
    let negative: i64 = rule.terms.iter().map(|t| t.weight).filter(|w| *w < 0).sum();
    let with = |weight, x| [&rule.terms[..], &[weighted(weight, x)]].concat();
    let mut lines = Vec::new();
    match rule.upper {
        Some(u) => {
            // (16)
            lines.push(at_most(&with(positive - u, minus), positive));
            // (17)
            lines.push(at_least(&with(u + 1 - negative, minus), u + 1));
        }
        // "the W⁺ or W⁻ of an absent bound, numbered xk, has in place of its own lines
        // `+1 xk >= 1 ;`"
        None => lines.push(at_least(&[weighted(1, minus)], 1)),
    }
    match rule.lower {
        Some(l) => {
            // (18)
            lines.push(at_least(&with(negative - l, plus), negative));
            // (19)
            lines.push(at_most(&with(l - 1 - positive, plus), l - 1));
        }
        None => lines.push(at_least(&[weighted(1, plus)], 1)),
    }
    // (20), (21), (22)
    lines.push(at_least(&[weighted(1, plus), weighted(-1, whole)], 0));
    lines.push(at_least(&[weighted(1, minus), weighted(-1, whole)], 0));
    let all = [weighted(-1, plus), weighted(-1, minus), weighted(1, whole)];
    lines.push(at_least(&all, -1));
    lines
}

/// "a clause with 'or' gives (15), then its rules' lines", "with W⁺, W⁻, W numbered by rule", from
/// the variable behind `before` on.
fn joined(clause: &Clause, before: usize) -> Vec<Line> {
    let first = |rule: usize| before + 3 * rule;
    let count = clause.rules.len();
    let wholes: Vec<Term> = (0..count).map(|i| weighted(1, first(i) + 3)).collect();
    let mut lines = vec![at_least(&wholes, 1)];
    for (i, rule) in clause.rules.iter().enumerate() {
        let from = first(i);
        lines.extend(equivalent(rule, [from + 1, from + 2, from + 3]));
    }
    lines
}

/// "A lock becomes an `=` line, which no rule does."
fn locked(lock: &Lock) -> Line {
    Line {
        terms: vec![weighted(1, lock.variable)],
        exact: true,
        bound: lock.value as i64,
    }
}

/// "Lines follow clauses, bounds (lower first), then locks".
pub fn text(plan: &Plan) -> Text {
    let mut variables = plan.variables;
    let mut lines = Vec::new();
    for clause in &plan.clauses {
        if let [rule] = &clause.rules[..] {
            lines.extend(straight(rule));
        } else {
            lines.extend(joined(clause, variables));
            variables += 3 * clause.rules.len();
        }
    }
    lines.extend(plan.locks.iter().map(locked));
    Text {
        variables,
        objective: plan.objective.clone(),
        lines,
    }
}

/// "each coefficient signed"
fn spell_sum(terms: &[Term]) -> String {
    let spelled = terms
        .iter()
        .map(|t| format!("{:+} x{} ", t.weight, t.variable));
    spelled.collect()
}

/// "one space parts two items, `;` too; no `min:` without a term."
pub fn spell(text: &Text) -> String {
    let (n, m) = (text.variables, text.lines.len());
    let mut spelled = format!("* #variable= {n} #constraint= {m}\n");
    if !text.objective.is_empty() {
        spelled += &format!("min: {};\n", spell_sum(&text.objective));
    }
    for line in &text.lines {
        let relation = if line.exact { "=" } else { ">=" };
        spelled += &format!("{}{relation} {} ;\n", spell_sum(&line.terms), line.bound);
    }
    spelled
}

/// The text of a plan.
pub fn write(plan: &Plan) -> String {
    spell(&text(plan))
}
