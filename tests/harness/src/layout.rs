//! Tables, assignments and tallies in bytes, written from docs/FORMAT.md and not from the library.

use reference::file::{self, MOST_CLAUSES, MOST_RULES, MOST_TERMS, MOST_VARIABLES};
use reference::plan::{Clause, Lock, Plan, Rule, Term};
use reference::random::Random;
use reference::tallies::Tallies;

/// One clause and rule more than a plan may have, with its terms.
const CLAUSES: usize = MOST_CLAUSES + 1;
const RULES: usize = MOST_RULES + 1;
const TERMS: usize = MOST_TERMS + MOST_VARIABLES;

/// The first word of each section of the tables behind the objective's.
const CLAUSE_WORDS: usize = 4 + MOST_VARIABLES;
const RULE_WORDS: usize = CLAUSE_WORDS + 2 * CLAUSES;
const LOCK_WORDS: usize = RULE_WORDS + 5 * RULES;

const END_WORDS: usize = LOCK_WORDS + MOST_VARIABLES;
const ORDER_WORDS: usize = END_WORDS + MOST_VARIABLES + 1;

/// Where the words of clauses, rules, locks, ends of runs and the order begin, in bytes.
pub const SECTIONS: [usize; 5] = [
    4 * CLAUSE_WORDS,
    4 * RULE_WORDS,
    4 * LOCK_WORDS,
    4 * END_WORDS,
    4 * ORDER_WORDS,
];
pub const TABLES: usize = 4 * (ORDER_WORDS + TERMS);
pub const TERM_TABLE: usize = 4 * (2 * TERMS);
pub const ASSIGNMENT: usize = MOST_VARIABLES;
pub const TALLIES: usize = 4 * (RULES + CLAUSES + 1);
/// A search keeps behind its tallies five words of each rule: K, A, B and the needs of its two sides.
pub const KEPT: usize = TALLIES + 4 * 5 * RULES;
/// What a search keeps of each variable: a byte for its mark, then words for its last flip in a try, a place to look at first and a place among the picks.
/// Behind them words for the weights in the order, and for how many variables of each clause may be chosen, and for these.
pub const MARKS: usize = 13 * MOST_VARIABLES + 4 * (TERMS + CLAUSES + TERMS);

/// Words are appended, and a section is filled up with zeros.
struct Words(Vec<u8>);

impl Words {
    fn push(&mut self, word: i64) {
        let word = if word < 0 {
            word as i32 as u32
        } else {
            u32::try_from(word).unwrap()
        };
        self.0.extend(word.to_le_bytes());
    }

    fn fill(&mut self, words: usize) {
        assert!(self.0.len() <= 4 * words);
        self.0.resize(4 * words, 0);
    }
}

fn mode(rule: &Rule) -> i64 {
    rule.lower.is_some() as i64 + 2 * rule.upper.is_some() as i64
}

/// The terms of the rules by variable, then by rule: of each the variable and its word.
fn order(plan: &Plan) -> Vec<(usize, u32)> {
    let mut places = Vec::new();
    let mut rules = 0;
    for (c, clause) in plan.clauses.iter().enumerate() {
        for rule in &clause.rules {
            for (t, term) in rule.terms.iter().enumerate() {
                let word = ((clause.rules.len() > 1) as u32) << 31
                    | (t as u32) << 22
                    | (c as u32) << 12
                    | rules << 1
                    | (term.weight < 0) as u32;
                places.push((term.variable, rules, word));
            }
            rules += 1;
        }
    }
    places.sort_by_key(|&(variable, rule, _)| (variable, rule));
    let words = places.into_iter();
    words.map(|(variable, _, word)| (variable, word)).collect()
}

/// The two tables that loading this plan leaves.
pub fn tables(plan: &Plan) -> (Vec<u8>, Vec<u8>) {
    let rules: Vec<&Rule> = plan
        .clauses
        .iter()
        .flat_map(|clause| &clause.rules)
        .collect();
    let mut words = Words(Vec::new());
    words.push(plan.variables as i64);
    words.push(plan.clauses.len() as i64);
    words.push(rules.len() as i64);
    words.push(rules.iter().map(|rule| rule.terms.len() as i64).sum());
    for variable in 1..=MOST_VARIABLES {
        let term = plan.objective.iter().find(|term| term.variable == variable);
        words.push(term.map_or(0, |term| term.weight));
    }
    let mut first = 0;
    for clause in &plan.clauses {
        words.push(first);
        words.push(clause.rules.len() as i64);
        first += clause.rules.len() as i64;
    }
    words.fill(RULE_WORDS);
    let mut terms = Words(Vec::new());
    let mut first = 0;
    for rule in rules {
        words.push(first);
        words.push(rule.terms.len() as i64);
        words.push(mode(rule));
        words.push(rule.lower.unwrap_or(0));
        words.push(rule.upper.unwrap_or(0));
        first += rule.terms.len() as i64;
        for term in &rule.terms {
            terms.push(term.variable as i64);
            terms.push(term.weight);
        }
    }
    words.fill(LOCK_WORDS);
    for variable in 1..=MOST_VARIABLES {
        words.push(plan.lock(variable).map_or(0, |value| 1 + value as i64));
    }
    let order = order(plan);
    for variable in 0..=plan.variables {
        let below = order.iter().filter(|&&(named, _)| named <= variable);
        words.push(below.count() as i64);
    }
    words.fill(ORDER_WORDS);
    for &(_, word) in &order {
        words.push(word as i64);
    }
    words.fill(TABLES / 4);
    terms.fill(TERM_TABLE / 4);
    (words.0, terms.0)
}

/// The bytes of an assignment, variable 1 first.
pub fn bits(assignment: &[bool]) -> Vec<u8> {
    assignment.iter().map(|&bit| bit as u8).collect()
}

/// The tallies that opening writes.
pub fn tallies(tallies: &Tallies) -> Vec<u8> {
    let mut words = Words(Vec::new());
    for &weight in &tallies.true_weights {
        words.push(weight);
    }
    words.fill(RULES);
    for &rules in &tallies.holding_rules {
        words.push(rules as i64);
    }
    words.fill(RULES + CLAUSES);
    words.push(tallies.unsatisfied as i64);
    words.0
}

fn word(bytes: &[u8], index: usize) -> Option<u32> {
    let bytes = bytes.get(4 * index..4 * index + 4)?;
    Some(u32::from_le_bytes(bytes.try_into().unwrap()))
}

/// The plan that two tables seem to hold, where every place they point at is inside and every mode
/// and lock is one.
pub fn plan(tables: &[u8], terms: &[u8]) -> Option<Plan> {
    let signed = |word: u32| word as i32 as i64;
    let variables = word(tables, 0)? as usize;
    let mut objective = Vec::new();
    for variable in 1..=variables.min(MOST_VARIABLES) {
        let weight = signed(word(tables, 3 + variable)?);
        if weight != 0 {
            objective.push(Term { variable, weight });
        }
    }
    let mut locks = Vec::new();
    for variable in 1..=variables.min(MOST_VARIABLES) {
        let value = match word(tables, LOCK_WORDS + variable - 1)? {
            0 => continue,
            1 => false,
            2 => true,
            _ => return None,
        };
        locks.push(Lock { variable, value });
    }
    let mut clauses = Vec::new();
    for clause in 0..word(tables, 1)? as usize {
        let (first, count) = (
            word(tables, CLAUSE_WORDS + 2 * clause)?,
            word(tables, CLAUSE_WORDS + 2 * clause + 1)?,
        );
        let mut rules = Vec::new();
        for rule in first..first.checked_add(count)? {
            let at = RULE_WORDS + 5 * rule as usize;
            let (first, count, mode) = (
                word(tables, at)?,
                word(tables, at + 1)?,
                word(tables, at + 2)?,
            );
            if !(1..=3).contains(&mode) {
                return None;
            }
            let mut terms_of_rule = Vec::new();
            for term in first..first.checked_add(count)? {
                terms_of_rule.push(Term {
                    variable: word(terms, 2 * term as usize)? as usize,
                    weight: signed(word(terms, 2 * term as usize + 1)?),
                });
            }
            rules.push(Rule {
                lower: (mode & 1 != 0).then_some(signed(word(tables, at + 3)?)),
                upper: (mode & 2 != 0).then_some(signed(word(tables, at + 4)?)),
                terms: terms_of_rule,
            });
        }
        clauses.push(Clause { rules });
    }
    Some(Plan {
        variables,
        objective,
        locks,
        clauses,
    })
}

/// The plan whose loading leaves these tables, if there is one: the condition of refusal 22. Places
/// past the full limits do not matter.
pub fn loaded(tables: &[u8], terms: &[u8]) -> Option<Plan> {
    let (tables_now, terms_now) = (&tables[..TABLES], &terms[..TERM_TABLE]);
    let plan = file::parse(&file::write(&plan(tables_now, terms_now)?)).ok()?;
    let (tables, terms) = self::tables(&plan);
    (tables == tables_now && terms == terms_now).then_some(plan)
}

/// What a word of the two tables belongs to: the locks, the order with the ends of its runs, or all
/// else, of which the order follows.
#[derive(Clone, Copy, Debug, PartialEq, Eq)]
pub enum Part {
    Locks,
    Order,
    Rest,
}

/// Turns over one bit of a plan's tables, most often among the words in use. It gives where.
pub fn turn_a_bit(random: &mut Random, plan: &Plan, tables: &mut [u8], terms: &mut [u8]) -> Part {
    let [_, _, locks, ends, order] = SECTIONS;
    let place = match random.below(8) {
        0 => random.below(16 + 4 * plan.variables),
        1 => TABLES + random.below(8 * plan.clauses.len().max(1)),
        2 => locks + random.below(4 * plan.variables),
        // The lowest two bits of a lock.
        3 => locks + 4 * random.below(plan.variables),
        4 => ends + random.below(4 * (plan.variables + 1)),
        5 => order + random.below(4 * self::order(plan).len().max(1)),
        _ => random.below(TABLES + TERM_TABLE),
    };
    let part = match place {
        _ if (locks..ends).contains(&place) => Part::Locks,
        _ if (ends..TABLES).contains(&place) => Part::Order,
        _ => Part::Rest,
    };
    let low_lock = part == Part::Locks && place % 4 == 0;
    let change = 1 << random.below(if low_lock { 2 } else { 8 });
    match place.checked_sub(TABLES) {
        None => tables[place] ^= change,
        Some(place) => terms[place] ^= change,
    }
    part
}

#[cfg(test)]
mod tests {
    use super::*;
    use reference::making::{at_least, at_most, locking, plan};

    /// The sizes that docs/FORMAT.md names.
    #[test]
    fn sizes() {
        assert_eq!((TABLES, TERM_TABLE, TALLIES), (56_816, 52_096, 6_156));
        assert_eq!(SECTIONS, [2_064, 6_168, 26_668, 28_716, 30_768]);
        assert!(TABLES.max(TERM_TABLE) <= 65_536);
    }

    /// "0 free, 1 locked at 0, 2 locked at 1", and 0 beyond n.
    #[test]
    fn words_of_locks() {
        let locked = locking(plan(3, &[], &[]), &[(1, 1), (3, 0)]);
        let (tables, terms) = tables(&locked);
        assert_eq!(tables[26_668..26_680], [2, 0, 0, 0, 0, 0, 0, 0, 1, 0, 0, 0]);
        assert!(tables[26_680..].iter().all(|&byte| byte == 0));
        assert_eq!(loaded(&tables, &terms), Some(locked));
        // A word above 2, and one that is not 0 beyond n.
        for (place, word) in [(26_672, 3), (26_671, 1), (26_680, 1), (28_712, 2)] {
            let mut tables = tables.clone();
            tables[place] = word;
            assert_eq!(loaded(&tables, &terms), None, "byte {place}");
        }
    }

    /// "By variable, then rule": x1 stands in rules 0 and 2, x2 in both rules of the first clause, x3
    /// in none and x4 in rule 2.
    #[test]
    fn words_of_the_order() {
        let first = [at_least(1, &[(1, 2), (2, -3)]), at_most(4, &[(2, 5)])];
        let second = [at_least(0, &[(1, -1), (4, 1)])];
        let plan = plan(4, &[], &[&first, &second]);
        let (tables, terms) = tables(&plan);
        let ends = [0, 2, 4, 4, 5];
        let words: [u32; 5] = [
            1 << 31,
            1 << 12 | 2 << 1 | 1,
            1 << 31 | 1 << 22 | 1,
            1 << 31 | 1 << 1,
            1 << 22 | 1 << 12 | 2 << 1,
        ];
        let bytes = |words: &[u32]| -> Vec<u8> {
            words.iter().flat_map(|word| word.to_le_bytes()).collect()
        };
        assert_eq!(tables[28_716..28_736], bytes(&ends));
        assert!(tables[28_736..30_768].iter().all(|&byte| byte == 0));
        assert_eq!(tables[30_768..30_788], bytes(&words));
        assert!(tables[30_788..].iter().all(|&byte| byte == 0));
        assert_eq!(loaded(&tables, &terms), Some(plan));
        // Any bit of it, used or not.
        for place in (28_716..30_800).chain([56_815]) {
            let mut tables = tables.clone();
            tables[place] ^= 1 << (place % 8);
            assert_eq!(loaded(&tables, &terms), None, "byte {place}");
        }
    }
}
