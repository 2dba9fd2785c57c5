//! Texts that the library writes, read by the library: "Texts may pass our own limits; one of
//! single-rule clauses that does not, read again, has the same solutions." (document 02, T-02)

use harness::layout::{self, TABLES, TERM_TABLE};
use harness::planner::{read_opb, write_opb, Loaded, Written};
use reference::making::at_most;
use reference::plan::{Clause, Lock, Plan};
use reference::random::{self, Random, Shape};

/// The text that the library writes of a plan.
fn written(plan: &Plan) -> Vec<u8> {
    let (tables, terms) = layout::tables(plan);
    let Written { refusal, length } = write_opb(&tables, &terms, &mut []);
    assert_eq!(refusal, 33);
    let mut text = vec![0; length];
    let answer = write_opb(&tables, &terms, &mut text);
    assert_eq!(answer, Written { refusal: 0, length });
    text
}

/// The plan that the library reads from a text, or its refusal.
fn read(text: &[u8]) -> Result<Plan, Loaded> {
    let (mut tables, mut terms) = (vec![0; TABLES], vec![0; TERM_TABLE]);
    let answer = read_opb(text, &mut tables, &mut terms);
    match answer.refusal {
        0 => Ok(layout::loaded(&tables, &terms).expect("tables that a loading leaves")),
        _ => Err(answer),
    }
}

/// A plan whose clauses have one rule each, with some locks.
fn single_rules(random: &mut Random, shape: &Shape) -> Plan {
    let mut plan = match random.percent(50) {
        true => random::any_plan(random, shape),
        false => random::met_plan(random, shape),
    };
    let count = random.below(plan.variables.min(3));
    let locked = random.some_variables(plan.variables, count);
    plan.locks = locked
        .into_iter()
        .map(|variable| Lock {
            variable,
            value: random.percent(50),
        })
        .collect();
    plan
}

#[test]
fn the_same_solutions() {
    let shape = Shape {
        variables: 7,
        clauses: 5,
        rules: 1,
        terms: 5,
        weight: 9,
    };
    let mut random = Random::new(210);
    let (mut solvable, mut unsolvable, mut locked) = (0, 0, 0);
    for _ in 0..4_000 {
        let plan = single_rules(&mut random, &shape);
        assert!(plan.clauses.iter().all(|clause| clause.rules.len() == 1));
        let again = read(&written(&plan)).unwrap();
        assert_eq!(again.variables, plan.variables);
        assert_eq!(again.objective, plan.objective);
        assert!(again.locks.is_empty());
        let mut solutions = 0;
        for k in 0..1_u32 << plan.variables {
            let bits: Vec<bool> = (0..plan.variables).map(|i| k >> i & 1 == 1).collect();
            let solves = plan.satisfied(&bits) && plan.obeyed(&bits);
            assert_eq!(again.satisfied(&bits), solves, "{bits:?} of {plan:?}");
            solutions += solves as u32;
        }
        solvable += (solutions > 0) as u32;
        unsolvable += (solutions == 0) as u32;
        locked += !plan.locks.is_empty() as u32;
    }
    let counts = [solvable, unsolvable, locked];
    assert!(counts.iter().all(|&count| count > 500), "{counts:?}");
}

/// The offset of a line's first byte, the lines numbered from 0.
fn offset_of(text: &[u8], line: usize) -> usize {
    text.split_inclusive(|&byte| byte == b'\n')
        .take(line)
        .map(<[u8]>::len)
        .sum()
}

/// So many clauses of one rule with both bounds, each written in two lines of so many terms.
fn two_lines_each(count: usize, terms: usize) -> Plan {
    let sum: Vec<(usize, i64)> = (1..=terms).map(|x| (x, 1)).collect();
    let mut rule = at_most(0, &sum);
    rule.lower = Some(0);
    let clause = Clause { rules: vec![rule] };
    Plan {
        variables: 512,
        objective: Vec::new(),
        locks: Vec::new(),
        clauses: vec![clause; count],
    }
}

#[test]
fn texts_at_our_limits_and_past_them() {
    let refused = |text: &[u8], line| Loaded {
        refusal: 4,
        offset: offset_of(text, line),
    };
    // 512 constraints; one more.
    let plan = two_lines_each(256, 1);
    assert_eq!(read(&written(&plan)).unwrap().clauses.len(), 512);
    let mut locked = plan;
    locked.locks.push(Lock {
        variable: 512,
        value: true,
    });
    let text = written(&locked);
    assert_eq!(read(&text), Err(refused(&text, 513)));
    // 6,000 terms in 500 lines of 12; 12 more in the 501st.
    let plan = two_lines_each(250, 12);
    assert_eq!(read(&written(&plan)).unwrap().clauses.len(), 500);
    let text = written(&two_lines_each(251, 12));
    assert_eq!(read(&text), Err(refused(&text, 501)));
    // A clause of two rules takes six new variables: 512 in all; one more.
    let mut joined = two_lines_each(1, 1);
    joined.clauses[0].rules.push(at_most(0, &[(2, 1)]));
    joined.variables = 506;
    assert_eq!(read(&written(&joined)).unwrap().variables, 512);
    joined.variables = 507;
    let text = written(&joined);
    assert!(text.starts_with(b"* #variable= 513 "));
    assert_eq!(read(&text), Err(refused(&text, 0)));
}

/// The text of any plan within our limits is the text of the plan that it is read as.
#[test]
fn a_text_read_and_written_again() {
    let mut random = Random::new(211);
    let mut met = [0; 2];
    for case in 0..4_000 {
        let plan = match case % 20 {
            0 => random::race_plan(&mut random),
            1..=3 => random::heavy_plan(&mut random),
            _ => random::small_met_plan(&mut random),
        };
        let text = written(&plan);
        let read = read(&text);
        met[read.is_ok() as usize] += 1;
        if let Ok(again) = read {
            // A line `=` comes back as two lines `>=`: a text without locks is the same.
            if plan.locks.is_empty() {
                assert_eq!(written(&again), text);
            }
            assert_eq!(again.objective, plan.objective);
        }
    }
    assert!(met.iter().all(|&count| count > 100), "{met:?}");
}
