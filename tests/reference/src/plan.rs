//! Rules, clauses and plans (document 01, "Rules and clauses"; document 02, T-01).

/// A weight on a variable. Variables are numbered from 1.
#[derive(Clone, Copy, Debug, PartialEq, Eq)]
pub struct Term {
    pub variable: usize,
    pub weight: i64,
}

/// "A rule is l ≤ Σ w·x ≤ u over variables that are 0 or 1, with one bound possibly absent."
#[derive(Clone, Debug, PartialEq, Eq)]
pub struct Rule {
    pub lower: Option<i64>,
    pub upper: Option<i64>,
    pub terms: Vec<Term>,
}

/// "A clause is one or more rules joined by 'or'."
#[derive(Clone, Debug, PartialEq, Eq)]
pub struct Clause {
    pub rules: Vec<Rule>,
}

/// A control "the mapper has already fixed": "a variable number and a byte 0 or 1".
#[derive(Clone, Copy, Debug, PartialEq, Eq)]
pub struct Lock {
    pub variable: usize,
    pub value: bool,
}

/// "A plan is any number of clauses, all to hold, none included." "The plan's record carries the
/// locks."
#[derive(Clone, Debug, PartialEq, Eq)]
pub struct Plan {
    pub variables: usize,
    pub objective: Vec<Term>,
    pub locks: Vec<Lock>,
    pub clauses: Vec<Clause>,
}

/// The value of a variable; an assignment holds variable 1 first.
pub fn value(assignment: &[bool], variable: usize) -> bool {
    assignment[variable - 1]
}

/// The assignment after one flip of the variable.
pub fn flipped(assignment: &[bool], variable: usize) -> Vec<bool> {
    let mut after = assignment.to_vec();
    after[variable - 1] = !after[variable - 1];
    after
}

/// Σ w·x.
pub fn sum(terms: &[Term], assignment: &[bool]) -> i64 {
    terms
        .iter()
        .filter(|term| value(assignment, term.variable))
        .map(|term| term.weight)
        .sum()
}

impl Rule {
    /// "A rule holds when its sum meets every bound present."
    pub fn holds(&self, assignment: &[bool]) -> bool {
        let sum = sum(&self.terms, assignment);
        self.lower.is_none_or(|lower| lower <= sum) && self.upper.is_none_or(|upper| sum <= upper)
    }
}

impl Clause {
    /// Rules joined by 'or'.
    pub fn holds(&self, assignment: &[bool]) -> bool {
        self.rules.iter().any(|rule| rule.holds(assignment))
    }

    /// "The clause's variables, each once", in ascending order.
    pub fn variables(&self) -> Vec<usize> {
        let mut variables: Vec<usize> = self
            .rules
            .iter()
            .flat_map(|rule| rule.terms.iter().map(|term| term.variable))
            .collect();
        variables.sort_unstable();
        variables.dedup();
        variables
    }
}

impl Plan {
    /// All clauses hold.
    pub fn satisfied(&self, assignment: &[bool]) -> bool {
        self.clauses.iter().all(|clause| clause.holds(assignment))
    }

    /// "The objective Σ c·x is made as small as possible."
    pub fn cost(&self, assignment: &[bool]) -> i64 {
        sum(&self.objective, assignment)
    }

    /// The value that a variable is locked at; None where it is free.
    pub fn lock(&self, variable: usize) -> Option<bool> {
        let lock = self.locks.iter().find(|lock| lock.variable == variable);
        lock.map(|lock| lock.value)
    }

    /// "The number of rules naming the variable".
    pub fn rules_naming(&self, variable: usize) -> usize {
        let rules = self.clauses.iter().flat_map(|clause| &clause.rules);
        let names = |rule: &&Rule| rule.terms.iter().any(|term| term.variable == variable);
        rules.filter(names).count()
    }

    /// "Then locked variables take their value."
    pub fn locked(&self, assignment: &[bool]) -> Vec<bool> {
        (1..=self.variables)
            .map(|x| self.lock(x).unwrap_or(value(assignment, x)))
            .collect()
    }

    /// Each locked variable has its value.
    pub fn obeyed(&self, assignment: &[bool]) -> bool {
        let kept = |lock: &Lock| value(assignment, lock.variable) == lock.value;
        self.locks.iter().all(kept)
    }

    /// "l(O) is the sum of its negative coefficients." "l(O) now counts locked variables at their
    /// value."
    pub fn least_cost(&self) -> i64 {
        self.objective
            .iter()
            .map(|term| match self.lock(term.variable) {
                Some(true) => term.weight,
                Some(false) => 0,
                None => term.weight.min(0),
            })
            .sum()
    }

    /// The plan with "the added last clause O ≤ m".
    pub fn tightened(&self, m: i64) -> Plan {
        let mut plan = self.clone();
        plan.clauses.push(Clause {
            rules: vec![Rule {
                lower: None,
                upper: Some(m),
                terms: self.objective.clone(),
            }],
        });
        plan
    }
}
