//! The plain book of demand 3 (document 01, "Tallies"; document 02, T-01, T-05 and T-08).

use crate::counts::{Count, Counter};
use crate::plan::{flipped, Plan};
use crate::tallies::Tallies;

/// "Its calls are flip and counts", with "any variable number".
#[derive(Clone, Copy, Debug, PartialEq, Eq)]
pub enum Call {
    Flip(u32),
    Counts(u32),
}

/// What the book answers to a call.
#[derive(Clone, Copy, Debug, PartialEq, Eq)]
pub enum Answer {
    /// With "the number of rules naming the variable".
    Flipped {
        rules: u32,
    },
    Counts {
        break_count: Count,
        make_count: Count,
    },
    Refused(u32),
}

/// "It holds n bits, at first those opened."
pub struct Book<'a> {
    plan: &'a Plan,
    counter: Counter,
    bits: Vec<bool>,
}

impl<'a> Book<'a> {
    pub fn open(plan: &'a Plan, assignment: &[bool]) -> Book<'a> {
        assert_eq!(assignment.len(), plan.variables);
        Book {
            plan,
            counter: Counter::new(plan),
            bits: assignment.to_vec(),
        }
    }

    /// "A variable outside 1 to n: 23, and no bit changes. Flip: accepted, and that bit turns
    /// over. Counts: the capped numbers of expansion clauses that turning that bit over would
    /// spoil and mend; no bit changes." "A binomial now also says whether it was cut, and so do [..]
    /// both counts above it." "A flip of a locked variable is one of the refused calls:
    /// the book answers 26, and no bit changes", "26 for a flip of a locked variable, after 23".
    /// "The book's answer to a flip gives that number too": "the number of rules naming the
    /// variable".
    pub fn call(&mut self, call: Call) -> Answer {
        let (Call::Flip(variable) | Call::Counts(variable)) = call;
        let variable = variable as usize;
        if !(1..=self.plan.variables).contains(&variable) {
            return Answer::Refused(23);
        }
        match call {
            Call::Flip(_) if self.plan.lock(variable).is_some() => Answer::Refused(26),
            Call::Flip(_) => {
                self.bits = flipped(&self.bits, variable);
                Answer::Flipped {
                    rules: self.plan.rules_naming(variable) as u32,
                }
            }
            Call::Counts(_) => {
                let counts = self.counter.counts(&self.tallies(), &self.bits, variable);
                Answer::Counts {
                    break_count: counts.break_count.given(),
                    make_count: counts.make_count.given(),
                }
            }
        }
    }

    /// "After the list ... the first n assignment bytes [are] its bits."
    pub fn bits(&self) -> &[bool] {
        &self.bits
    }

    /// "The tallies their fresh count."
    pub fn tallies(&self) -> Tallies {
        Tallies::fresh(self.plan, &self.bits)
    }
}
