//! Random plans, assignments, settings, calls and damaged files; the same seed gives the same.

use crate::book::Call;
use crate::counts::CAP;
use crate::file::{
    write, write_field, write_numbers, write_settings, LOCKS, MOST_BOUND, MOST_CLAUSES, MOST_RULES,
    MOST_TERMS, MOST_VARIABLES, MOST_WEIGHT,
};
use crate::literals::Literals;
use crate::plan::{sum, Clause, Lock, Plan, Rule, Term};
use crate::walk::{limit, Settings, NOISE_PLACES};

/// The generator xorshift64*, with a few ways to draw from it.
#[derive(Clone, Debug)]
pub struct Random {
    state: u64,
}

impl Random {
    pub fn new(seed: u64) -> Random {
        // Neighbouring seeds are spread out, and the state must not be 0.
        let state = seed.wrapping_add(1).wrapping_mul(0x9E37_79B9_7F4A_7C15) | 1;
        let mut random = Random { state };
        for _ in 0..8 {
            random.draw();
        }
        random
    }

    pub fn draw(&mut self) -> u64 {
        self.state ^= self.state >> 12;
        self.state ^= self.state << 25;
        self.state ^= self.state >> 27;
        self.state.wrapping_mul(0x2545_F491_4F6C_DD1D)
    }

    /// A number of 32 bits.
    pub fn number(&mut self) -> u32 {
        (self.draw() >> 32) as u32
    }

    /// A place from 0 to m − 1.
    pub fn below(&mut self, m: usize) -> usize {
        ((self.draw() >> 32) % m as u64) as usize
    }

    /// A number from least to most, both included.
    pub fn between(&mut self, least: i64, most: i64) -> i64 {
        least + (self.draw() >> 1) as i64 % (most - least + 1)
    }

    /// True so many times in a hundred.
    pub fn percent(&mut self, share: usize) -> bool {
        self.below(100) < share
    }

    /// A list of numbers.
    pub fn numbers(&mut self, count: usize) -> Vec<u32> {
        (0..count).map(|_| self.number()).collect()
    }

    /// A list of which half the numbers lie around the limits of picks, so that many are discarded;
    /// at times nothing but the highest number stands from some place on, so that the list is likely
    /// to end among discards.
    pub fn numbers_at_limits(&mut self, count: usize) -> Vec<u32> {
        let mut list: Vec<u32> = (0..count).map(|_| self.number_at_limits()).collect();
        if self.percent(30) {
            let from = self.below(count + 1);
            list[from..].fill(u32::MAX);
        }
        list
    }

    fn number_at_limits(&mut self) -> u32 {
        match self.below(6) {
            0 => u32::MAX - self.below(4) as u32,
            1 => u32::MAX - self.below(2 * NOISE_PLACES) as u32,
            2 => {
                let m = [NOISE_PLACES, 1 + self.below(12)][self.below(2)];
                let beside = limit(m) - 2 + self.below(4) as u64;
                beside.min(u32::MAX as u64) as u32
            }
            _ => self.number(),
        }
    }

    /// A list of either kind.
    pub fn any_numbers(&mut self, count: usize) -> Vec<u32> {
        match self.percent(50) {
            true => self.numbers_at_limits(count),
            false => self.numbers(count),
        }
    }

    /// An assignment of n variables.
    pub fn assignment(&mut self, n: usize) -> Vec<bool> {
        (0..n).map(|_| self.percent(50)).collect()
    }

    /// Some of the variables 1 to n, in ascending order.
    pub fn some_variables(&mut self, n: usize, count: usize) -> Vec<usize> {
        let mut left: Vec<usize> = (1..=n).collect();
        let mut some: Vec<usize> = (0..count)
            .map(|_| left.swap_remove(self.below(left.len())))
            .collect();
        some.sort_unstable();
        some
    }

    /// A weight from 1 to most, small ones as likely as large ones, or its negative.
    pub fn weight(&mut self, most: i64) -> i64 {
        let scale = self.between(0, most.ilog2() as i64 + 1);
        let weight = self.between(1, (1 << scale).min(most));
        if self.percent(35) {
            -weight
        } else {
            weight
        }
    }

    /// So many terms over n variables.
    pub fn terms(&mut self, n: usize, count: usize, most_weight: i64) -> Vec<Term> {
        let variables = self.some_variables(n, count);
        variables
            .into_iter()
            .map(|variable| Term {
                variable,
                weight: self.weight(most_weight),
            })
            .collect()
    }
}

/// Locks for n variables: none, a few, about half, or all; at the values of `hidden` if given,
/// else at any.
fn some_locks(random: &mut Random, n: usize, hidden: Option<&[bool]>) -> Vec<Lock> {
    let count = match random.below(20) {
        0..=11 => 0,
        12..=16 => 1 + random.below(n.div_ceil(4)),
        17..=18 => random.below(n + 1),
        _ => n,
    };
    locks_of(random, n, count, hidden)
}

/// So many locks.
fn locks_of(random: &mut Random, n: usize, count: usize, hidden: Option<&[bool]>) -> Vec<Lock> {
    let variables = random.some_variables(n, count);
    let mut value = |variable: usize| match hidden {
        Some(bits) => bits[variable - 1],
        None => random.percent(50),
    };
    variables
        .into_iter()
        .map(|variable| Lock {
            variable,
            value: value(variable),
        })
        .collect()
}

/// How large a plan is made.
#[derive(Clone, Copy, Debug)]
pub struct Shape {
    pub variables: usize,
    pub clauses: usize,
    /// The most rules in a clause.
    pub rules: usize,
    /// The most terms in a rule.
    pub terms: usize,
    pub weight: i64,
}

/// The least and the greatest sum of the terms.
fn range(terms: &[Term]) -> (i64, i64) {
    let below: i64 = terms.iter().map(|term| term.weight.min(0)).sum();
    let above: i64 = terms.iter().map(|term| term.weight.max(0)).sum();
    (below, above)
}

/// A bound of any kind: within the sums, at or past their ends, 0, or as far out as is lawful.
fn any_bound(random: &mut Random, terms: &[Term]) -> i64 {
    let (least, most) = range(terms);
    let bound = match random.below(10) {
        0 => 0,
        1 | 2 => least + random.between(-3, 3),
        3 | 4 => most + random.between(-3, 3),
        5 if random.percent(20) => [-MOST_BOUND, MOST_BOUND][random.below(2)],
        _ => random.between(least, most),
    };
    bound.clamp(-MOST_BOUND, MOST_BOUND)
}

/// The rule with the bounds of a random mode.
fn with_bounds(random: &mut Random, terms: Vec<Term>, lower: i64, upper: i64) -> Rule {
    let mode = random.below(3);
    Rule {
        lower: (mode != 1).then_some(lower),
        upper: (mode != 0).then_some(upper),
        terms,
    }
}

/// A rule whose bounds may be any, an l above u too.
pub fn any_rule(random: &mut Random, n: usize, terms: usize, weight: i64) -> Rule {
    let count = 1 + random.below(terms.min(n));
    let terms = random.terms(n, count, weight);
    let (lower, upper) = (any_bound(random, &terms), any_bound(random, &terms));
    with_bounds(random, terms, lower, upper)
}

/// A rule that the assignment meets, with bounds up to `slack` away.
fn met_rule(random: &mut Random, terms: Vec<Term>, assignment: &[bool], slack: i64) -> Rule {
    let sum = sum(&terms, assignment);
    let (lower, upper) = (
        sum - random.between(0, slack),
        sum + random.between(0, slack),
    );
    with_bounds(random, terms, lower, upper)
}

/// A plan of any lawful rules within the shape, most likely without a solution. A shape that can
/// pass the limits of a file gives plans that do.
pub fn any_plan(random: &mut Random, shape: &Shape) -> Plan {
    let n = 1 + random.below(shape.variables);
    let objective_terms = random.below(n + 1);
    let clauses = (0..random.below(shape.clauses + 1))
        .map(|_| Clause {
            rules: (0..1 + random.below(shape.rules))
                .map(|_| any_rule(random, n, shape.terms, shape.weight))
                .collect(),
        })
        .collect();
    Plan {
        variables: n,
        objective: random.terms(n, objective_terms, shape.weight),
        locks: some_locks(random, n, None),
        clauses,
    }
}

/// A plan with a solution: in each clause one rule is met by one hidden assignment, which most
/// often has the locked values too.
pub fn met_plan(random: &mut Random, shape: &Shape) -> Plan {
    let mut plan = any_plan(random, shape);
    let hidden = random.assignment(plan.variables);
    for clause in &mut plan.clauses {
        let place = random.below(clause.rules.len());
        let terms = clause.rules[place].terms.clone();
        clause.rules[place] = met_rule(random, terms, &hidden, shape.weight);
    }
    if random.percent(80) {
        plan.locks = some_locks(random, plan.variables, Some(&hidden));
    }
    plan
}

/// A plan whose expansion can be listed.
pub fn small_plan(random: &mut Random) -> Plan {
    let shape = Shape {
        variables: 5,
        clauses: 3,
        rules: 3,
        terms: 4,
        weight: 3,
    };
    any_plan(random, &shape)
}

/// A small plan that a walk often solves.
pub fn small_met_plan(random: &mut Random) -> Plan {
    let shape = Shape {
        variables: 12,
        clauses: 12,
        rules: 2,
        terms: 4,
        weight: 4,
    };
    met_plan(random, &shape)
}

/// A plan with few heavy terms, whose counts lie on both sides of the cap: a size A or B is small,
/// or near the number of copies, where the binomials are neither 0 nor beyond all bounds.
pub fn heavy_plan(random: &mut Random) -> Plan {
    let shape = Shape {
        variables: 6,
        clauses: 2,
        rules: 3,
        terms: 5,
        weight: MOST_WEIGHT,
    };
    let mut plan = any_plan(random, &shape);
    for rule in plan.clauses.iter_mut().flat_map(|clause| &mut clause.rules) {
        let reading = Literals::of(rule);
        let k = reading.k();
        let size = |random: &mut Random| match random.below(3) {
            0 => random.between(0, 8),
            1 => random.between((k - 8).max(0), k + 1),
            _ => random.between(0, 4),
        };
        // A = K − l + 1 and B = u + 1, solved for the bounds before they rose.
        let (a, b) = (size(random), size(random));
        rule.lower = rule
            .lower
            .map(|lower| lower + k + 1 - a - reading.lower.unwrap());
        rule.upper = rule
            .upper
            .map(|upper| upper + b - 1 - reading.upper.unwrap());
    }
    plan
}

/// A rule over one variable that holds where it is at home, and whose parts a flip away from there
/// spoils `weight` times.
fn home_rule(random: &mut Random, variable: usize, home: bool, weight: i64) -> Rule {
    let rule = |lower, weight, upper| Rule {
        lower,
        upper,
        terms: vec![Term { variable, weight }],
    };
    match (home, random.percent(50)) {
        (false, true) => rule(None, weight, Some(0)),
        (false, false) => rule(Some(0), -weight, None),
        (true, true) => rule(Some(weight), weight, None),
        (true, false) => rule(None, -weight, Some(-weight)),
    }
}

/// Clauses of which a flip of the variable away from home spoils so many in the expansion, as long as
/// the variable `door` is 0, which each of them has for a way out: the product of two weights, and
/// what is left of the number.
fn home_clauses(
    random: &mut Random,
    (variable, home): (usize, bool),
    door: usize,
    number: i64,
) -> Vec<Clause> {
    let first = random.between((number / MOST_WEIGHT).max(1), MOST_WEIGHT.min(number));
    let second = (number / first).min(MOST_WEIGHT);
    let rest = number - first * second;
    let way_out = Rule {
        lower: Some(1),
        upper: None,
        terms: vec![Term {
            variable: door,
            weight: 1,
        }],
    };
    let mut clause = |weights: &[i64]| {
        let mut rules: Vec<Rule> = weights
            .iter()
            .map(|&weight| home_rule(random, variable, home, weight))
            .collect();
        rules.insert(random.below(rules.len() + 1), way_out.clone());
        Clause { rules }
    };
    let mut clauses = vec![clause(&[first, second])];
    clauses.extend((rest > 0).then(|| clause(&[rest])));
    clauses
}

/// A plan in which some variables have, where all are at home, break counts around the cap: the cap
/// itself, its neighbours, or far from it. One clause asks that one of them leave home; what that
/// spoils is met again by the last variable, the door, which may be locked.
pub fn cap_plan(random: &mut Random) -> Plan {
    let n = 1 + random.below(4);
    let door = n + 1;
    let homes = random.assignment(n);
    let all_cut = random.percent(20);
    let mut clauses = Vec::new();
    for variable in 1..=n {
        let number = match random.below(8) {
            0..=6 if all_cut => CAP as i64 + random.between(1, 1_000_000_000),
            0..=2 => CAP as i64,
            3..=4 => CAP as i64 + 1,
            5..=6 => CAP as i64 - 1,
            _ => random.between(1, 1_000_000),
        };
        let home = (variable, homes[variable - 1]);
        clauses.extend(home_clauses(random, home, door, number));
    }
    let away = |variable: usize| Term {
        variable,
        weight: if homes[variable - 1] { -1 } else { 1 },
    };
    let at_home = homes.iter().filter(|&&home| home).count() as i64;
    let leave = Clause {
        rules: vec![Rule {
            lower: Some(1 - at_home),
            upper: None,
            terms: (1..=n).map(away).collect(),
        }],
    };
    clauses.insert(random.below(clauses.len() + 1), leave);
    let locked = random.percent(60).then_some(Lock {
        variable: door,
        value: random.percent(10),
    });
    let objective_terms = random.below(n + 1);
    Plan {
        variables: door,
        objective: random.terms(n, objective_terms, 9),
        locks: locked.into_iter().collect(),
        clauses,
    }
}

/// A plan of the owner's kind: zones with "between two and four marshals, or no course uses it",
/// crossings that need a unit, metres to carry, and some sites that are fixed already.
pub fn race_plan(random: &mut Random) -> Plan {
    let n = 20 + random.below(61);
    let objective = (1..=n)
        .map(|variable| Term {
            variable,
            weight: random.between(1, 3_000),
        })
        .collect();
    let ones = |random: &mut Random, count: usize, weight: i64| -> Vec<Term> {
        let variables = random.some_variables(n, count);
        let term = |variable| Term { variable, weight };
        variables.into_iter().map(term).collect()
    };
    let mut clauses = Vec::new();
    for _ in 0..n / 2 {
        let count = 4 + random.below(5);
        let terms = ones(random, count, 1);
        let between = Rule {
            lower: Some(2),
            upper: Some(4),
            terms: terms.clone(),
        };
        let unused = Rule {
            lower: None,
            upper: Some(0),
            terms,
        };
        let rules = match random.below(3) {
            0 => vec![between, unused],
            1 => vec![between],
            _ => {
                let count = 2 + random.below(3);
                vec![Rule {
                    lower: Some(1),
                    upper: None,
                    terms: ones(random, count, 1),
                }]
            }
        };
        clauses.push(Clause { rules });
    }
    let locked = [0, 0, 1, n / 10, n / 4][random.below(5)];
    Plan {
        variables: n,
        objective,
        locks: locks_of(random, n, locked, None),
        clauses,
    }
}

/// A plan at every limit, with no lock and one hidden solution.
pub fn full_plan(random: &mut Random) -> Plan {
    full_plan_and_solution(random).0
}

/// A plan at every limit, with so many locks at the values of a hidden solution. With all 512 its
/// file is the largest there is.
pub fn locked_full_plan(random: &mut Random, count: usize) -> Plan {
    let (mut plan, hidden) = full_plan_and_solution(random);
    plan.locks = locks_of(random, plan.variables, count, Some(&hidden));
    plan
}

fn full_plan_and_solution(random: &mut Random) -> (Plan, Vec<bool>) {
    let n = MOST_VARIABLES;
    let hidden = random.assignment(n);
    // Each clause has one rule and each rule one term; the rest is dealt out at random.
    let mut rules_of = vec![1; MOST_CLAUSES];
    for _ in MOST_CLAUSES..MOST_RULES {
        rules_of[random.below(MOST_CLAUSES)] += 1;
    }
    let mut terms_of = vec![1; MOST_RULES];
    for _ in MOST_RULES..MOST_TERMS {
        terms_of[random.below(MOST_RULES)] += 1;
    }
    let most_weight = [2, 1_000, MOST_WEIGHT][random.below(3)];
    let clauses = rules_of
        .into_iter()
        .map(|count| {
            let met = random.below(count);
            let rules = (0..count)
                .map(|place| {
                    let count = terms_of.pop().expect("as many as rules");
                    let terms = random.terms(n, count, most_weight);
                    if place == met {
                        return met_rule(random, terms, &hidden, most_weight);
                    }
                    let (lower, upper) = (any_bound(random, &terms), any_bound(random, &terms));
                    with_bounds(random, terms, lower, upper)
                })
                .collect();
            Clause { rules }
        })
        .collect();
    let plan = Plan {
        variables: n,
        objective: random.terms(n, n, MOST_WEIGHT),
        locks: Vec::new(),
        clauses,
    };
    (plan, hidden)
}

/// Lawful settings, short walks more often than long ones.
pub fn settings(random: &mut Random) -> Settings {
    Settings {
        noise: [0, 1, 500, 999, 1_000, random.number() % 1_001][random.below(6)],
        tries: 1 + random.number() % [2, 5, 1_000][random.below(3)],
        flips: 1 + random.number() % [2, 20, 1_000, 1_000_000][random.below(4)],
        mode: random.number() % 2,
        heuristic: random.number() % 2,
        chance: [0, 1, 10, 500, 1_000, random.number() % 1_001][random.below(6)],
    }
}

/// Settings of which any may be outside its range.
pub fn any_settings(random: &mut Random) -> Settings {
    let mut settings = settings(random);
    if random.percent(30) {
        settings.noise = [1_000, 1_001, 65_535][random.below(3)];
    }
    if random.percent(30) {
        settings.tries = [0, 1, 1_000, 1_001, 65_535][random.below(5)];
    }
    if random.percent(30) {
        settings.flips = [0, 1, 1_000_000, 1_000_001, u32::MAX][random.below(5)];
    }
    if random.percent(30) {
        settings.mode = [0, 1, 2, 255][random.below(4)];
    }
    if random.percent(30) {
        settings.heuristic = [0, 1, 2, 255][random.below(4)];
    }
    if random.percent(30) {
        settings.chance = [0, 1_000, 1_001, 65_535][random.below(4)];
    }
    settings
}

/// A call of demand 3: mostly of a variable from 1 to n, at times of another.
pub fn call(random: &mut Random, n: usize) -> Call {
    let variable = if random.percent(15) {
        [0, n as u32 + 1, 513, 65_536 + 1, u32::MAX, random.number()][random.below(6)]
    } else {
        1 + random.below(n) as u32
    };
    if random.percent(50) {
        Call::Flip(variable)
    } else {
        Call::Counts(variable)
    }
}

/// The places where the fields of an undamaged file begin.
fn field_places(bytes: &[u8]) -> Vec<usize> {
    let mut places = Vec::new();
    let mut place = 0;
    while place + 3 <= bytes.len() {
        places.push(place);
        place += 3 + u16::from_le_bytes([bytes[place + 1], bytes[place + 2]]) as usize;
    }
    places
}

/// A file of fields with one fault, or a change that may be lawful still.
pub fn damage(random: &mut Random, file: &[u8]) -> Vec<u8> {
    let mut bytes = file.to_vec();
    let places = field_places(&bytes);
    let field = random.below(places.len());
    let place = places[field];
    let next = places.get(field + 1).copied().unwrap_or(bytes.len());
    match random.below(11) {
        // The file is cut.
        0 => bytes.truncate(random.below(file.len())),
        // Bytes are added.
        1 => {
            for _ in 0..1 + random.below(6) {
                bytes.push(random.number() as u8 % 7);
            }
        }
        // A field's tag or length changes.
        2 => bytes[place] = random.number() as u8 % 8,
        3 => bytes[place + 1] = bytes[place + 1].wrapping_add(random.number() as u8 % 13),
        4 => bytes[place + 2] = random.number() as u8,
        // A field is left out, or stands twice.
        5 => drop(bytes.drain(place..next)),
        6 => {
            let again = bytes[place..next].to_vec();
            bytes.splice(next..next, again);
        }
        // A byte of a body changes, or any byte, or is left out.
        7 if next > place + 3 => {
            let at = place + 3 + random.below(next - place - 3);
            bytes[at] = [0, 1, 2, 4, 15, 127, 255, random.number() as u8][random.below(8)];
        }
        8 => {
            let at = random.below(bytes.len());
            bytes[at] = random.number() as u8;
        }
        // A field of locks is put in, an empty one at times.
        9 => {
            let entries = random.below(4);
            let body: Vec<u8> = (1..=entries)
                .flat_map(|variable| [variable as u8, 0, random.below(3) as u8])
                .collect();
            bytes.splice(place..place, write_field(LOCKS, &body));
        }
        _ => {
            let at = random.below(bytes.len());
            bytes.remove(at);
        }
    }
    bytes
}

/// The three files of one run of the program; at times one of them is damaged.
pub fn program_files(random: &mut Random) -> [Vec<u8>; 3] {
    let plan = match random.below(10) {
        0..=3 => small_plan(random),
        4..=8 => small_met_plan(random),
        _ => race_plan(random),
    };
    let most = [20, 200, 2_000][random.below(3)];
    let count = random.below(most);
    let mut files = [
        write(&plan),
        write_settings(&settings(random)),
        write_numbers(&random.any_numbers(count)),
    ];
    match random.below(8) {
        0 => files[0] = damage(random, &files[0]),
        1 => files[1] = damage(random, &files[1]),
        2 => files[1] = write_settings(&any_settings(random)),
        3 => files[2].truncate(random.below(files[2].len() + 1)),
        _ => {}
    }
    files
}
