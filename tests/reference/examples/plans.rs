//! Writes the plans that the benchmarks run on into a folder, the same ones each time.
//!
//! cargo run --release -p reference --example plans -- FOLDER

use reference::file::{write, write_numbers};
use reference::making::{at_least, at_most, plan};
use reference::plan::{Clause, Lock, Plan, Rule, Term};
use reference::random::{full_plan, Random};

/// A rule over some variables, with weights up to `most`.
fn rule(random: &mut Random, n: usize, count: usize, most: i64) -> Rule {
    let terms = random.terms(n, count, most);
    let least: i64 = terms.iter().map(|term| term.weight.min(0)).sum();
    let greatest: i64 = terms.iter().map(|term| term.weight.max(0)).sum();
    let lower = least + (greatest - least) / 3;
    let upper = greatest - (greatest - least) / 4;
    Rule {
        lower: random.percent(70).then_some(lower),
        upper: Some(upper),
        terms,
    }
}

fn metres(random: &mut Random, n: usize) -> Vec<Term> {
    (1..=n)
        .map(|variable| Term {
            variable,
            weight: random.between(1, 900),
        })
        .collect()
}

/// About 120 variables and 150 clauses, each of one or two short rules with small weights.
fn race_day(random: &mut Random) -> Plan {
    let n = 120;
    let clauses = (0..150)
        .map(|_| Clause {
            rules: (0..1 + random.below(2))
                .map(|_| {
                    let count = 3 + random.below(4);
                    rule(random, n, count, 3)
                })
                .collect(),
        })
        .collect();
    Plan {
        variables: n,
        objective: metres(random, n),
        locks: Vec::new(),
        clauses,
    }
}

/// 512 rules 'so many of these eleven'.
fn cardinality(random: &mut Random) -> Plan {
    let n = 512;
    let clauses = (0..512)
        .map(|_| Clause {
            rules: vec![rule(random, n, 11, 1)],
        })
        .collect();
    Plan {
        variables: n,
        objective: metres(random, n),
        locks: Vec::new(),
        clauses,
    }
}

/// Eleven rules over all 512 variables, with weights up to 1,000,000.
fn dense(random: &mut Random) -> Plan {
    let n = 512;
    let clauses = (0..11)
        .map(|_| Clause {
            rules: vec![rule(random, n, n, 1_000_000)],
        })
        .collect();
    Plan {
        variables: n,
        objective: metres(random, n),
        locks: Vec::new(),
        clauses,
    }
}

/// Two clauses of 512 rules each.
fn wide(random: &mut Random) -> Plan {
    let n = 512;
    let clauses = (0..2)
        .map(|_| Clause {
            rules: (0..512).map(|_| rule(random, n, 5, 9)).collect(),
        })
        .collect();
    Plan {
        variables: n,
        objective: metres(random, n),
        locks: Vec::new(),
        clauses,
    }
}

/// Groups of three variables: one of the first two must be 1, and each of these would spoil as many
/// clauses as the product of its two weights unless the third is 1. 65,535·65,537 is the cap itself,
/// 65,536² is one more and cut, so that the least break count is told by its mark.
fn cap(groups: usize) -> Plan {
    let spoils = |variable, [v, w]: [i64; 2], door| {
        let low = |weight| at_most(0, &[(variable, weight)]);
        vec![low(v), low(w), at_least(1, &[(door, 1)])]
    };
    let (at_cap, above) = ([65_535, 65_537], [65_536, 65_536]);
    let clauses: Vec<Vec<Rule>> = (0..groups)
        .flat_map(|group| {
            let [x, y, door] = [1, 2, 3].map(|place| 3 * group + place);
            let [first, second] = [[at_cap, above], [above, at_cap]][group % 2];
            [
                vec![at_least(1, &[(x, 1), (y, 1)])],
                spoils(x, first, door),
                spoils(y, second, door),
            ]
        })
        .collect();
    let clauses: Vec<&[Rule]> = clauses.iter().map(Vec::as_slice).collect();
    plan(3 * groups, &[], &clauses)
}

fn main() -> std::io::Result<()> {
    let folder = std::env::args().nth(1).expect("usage: plans FOLDER");
    let mut random = Random::new(2026);
    let plans = [
        ("race-day", race_day(&mut random)),
        ("full-sparse", full_plan(&mut random)),
        ("cardinality", cardinality(&mut random)),
        ("dense", dense(&mut random)),
        ("wide", wide(&mut random)),
    ];
    let numbers = random.numbers(16_384);
    // The race day with a quarter of its sites locked, and one with all of them: each try is stuck.
    let race_day = plans[0].1.clone();
    let locked = |every: usize| -> Plan {
        let mut plan = race_day.clone();
        let lock = |variable| Lock {
            variable,
            value: variable % 3 == 0,
        };
        plan.locks = (1..=plan.variables).step_by(every).map(lock).collect();
        plan
    };
    let more = [
        ("locked", locked(4)),
        ("stuck", locked(1)),
        ("cap", cap(32)),
    ];
    let plans = plans.into_iter().chain(more);
    for (name, plan) in plans {
        std::fs::write(format!("{folder}/{name}.plan"), write(&plan))?;
    }
    std::fs::write(format!("{folder}/numbers.bin"), write_numbers(&numbers))
}
