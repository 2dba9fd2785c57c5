//! Plans as OPB texts (document 02, T-02): the cases of a separately written program, examples along
//! the edges, and every assignment of the text's variables of small random plans.

use reference::file::parse;
use reference::making::{at_least, at_most, between, from_hexadecimal, locking, plan};
use reference::opb_write::{text, write};
use reference::plan::{Plan, Rule};
use reference::random::{self, Random, Shape};

#[test]
fn cases_of_a_separately_written_program() {
    let cases = include_str!("../../vectors/opb-written.txt");
    for case in cases.lines() {
        let (file, wanted) = case.split_once(" = ").unwrap();
        let plan = parse(&from_hexadecimal(file)).unwrap();
        assert_eq!(write(&plan), wanted.replace('/', "\n"));
    }
    assert_eq!(cases.lines().count(), 150);
}

/// The lines of the clause of some rules over two variables, without the first one.
fn lines(rules: &[Rule]) -> Vec<String> {
    let spelled = write(&plan(2, &[], &[rules]));
    spelled.lines().skip(1).map(str::to_string).collect()
}

#[test]
fn clauses_of_one_rule() {
    let sum = [(1, 3), (2, -2)];
    assert_eq!(lines(&[at_least(1, &sum)]), ["+3 x1 -2 x2 >= 1 ;"]);
    assert_eq!(lines(&[at_most(1, &sum)]), ["-3 x1 +2 x2 >= -1 ;"]);
    let both = ["+3 x1 -2 x2 >= 0 ;", "-3 x1 +2 x2 >= 0 ;"];
    assert_eq!(lines(&[between(0, &sum, 0)]), both);
    let crossed = ["+3 x1 -2 x2 >= 2 ;", "-3 x1 +2 x2 >= 1 ;"];
    assert_eq!(lines(&[between(2, &sum, -1)]), crossed);
}

#[test]
fn a_clause_of_two_rules() {
    // Σ of the positive weights is 3, of the negative ones −2; x3 to x5 are W⁺, W⁻, W of the first
    // rule, x6 to x8 those of the second.
    let rules = [between(0, &[(1, 3), (2, -2)], 1), at_most(0, &[(2, 1)])];
    let wanted = [
        "+1 x5 +1 x8 >= 1 ;",
        "-3 x1 +2 x2 -2 x4 >= -3 ;",
        "+3 x1 -2 x2 +4 x4 >= 2 ;",
        "+3 x1 -2 x2 -2 x3 >= -2 ;",
        "-3 x1 +2 x2 +4 x3 >= 1 ;",
        "+1 x3 -1 x5 >= 0 ;",
        "+1 x4 -1 x5 >= 0 ;",
        "-1 x3 -1 x4 +1 x5 >= -1 ;",
        "-1 x2 -1 x7 >= -1 ;",
        "+1 x2 +1 x7 >= 1 ;",
        "+1 x6 >= 1 ;",
        "+1 x6 -1 x8 >= 0 ;",
        "+1 x7 -1 x8 >= 0 ;",
        "-1 x6 -1 x7 +1 x8 >= -1 ;",
    ];
    assert_eq!(lines(&rules), wanted);
}

#[test]
fn coefficients_that_are_zero() {
    // u = Σ{w > 0}, u + 1 = Σ{w < 0}, l = Σ{w < 0} and l − 1 = Σ{w > 0}, each beside a rule more.
    let sum = [(1, 3), (2, -2)];
    let second = |rule: Rule, place: usize| lines(&[rule, at_most(0, &[(2, 1)])])[place].clone();
    assert_eq!(second(at_most(3, &sum), 1), "-3 x1 +2 x2 >= -3 ;");
    assert_eq!(second(at_most(-3, &sum), 2), "+3 x1 -2 x2 >= -2 ;");
    assert_eq!(second(at_least(-2, &sum), 2), "+3 x1 -2 x2 >= -2 ;");
    assert_eq!(second(at_least(4, &sum), 3), "-3 x1 +2 x2 >= -3 ;");
}

#[test]
fn first_line_objective_and_locks() {
    let none = plan(2, &[], &[]);
    assert_eq!(write(&none), "* #variable= 2 #constraint= 0\n");
    let some = locking(plan(2, &[(1, -4), (2, 1_000_000)], &[]), &[(1, 0), (2, 1)]);
    let wanted =
        "* #variable= 2 #constraint= 2\nmin: -4 x1 +1000000 x2 ;\n+1 x1 = 0 ;\n+1 x2 = 1 ;\n";
    assert_eq!(write(&some), wanted);
}

/// The assignments of so many variables.
fn assignments(n: usize) -> impl Iterator<Item = Vec<bool>> {
    (0..1u32 << n).map(move |k| (0..n).map(|i| k >> i & 1 == 1).collect())
}

/// "Each assignment that satisfies plan and locks has exactly one extension that satisfies the text,
/// and no other has any."
fn extends(plan: &Plan) -> usize {
    let text = text(plan);
    let mut solutions = 0;
    for assignment in assignments(plan.variables) {
        let solved = |new: &Vec<bool>| text.solved(&[&assignment[..], new].concat());
        let count = assignments(text.variables - plan.variables)
            .filter(solved)
            .count();
        let met = plan.satisfied(&assignment) && plan.obeyed(&assignment);
        assert_eq!(count, met as usize, "{assignment:?} of {plan:?}");
        solutions += count;
    }
    solutions
}

#[test]
fn exactly_one_extension() {
    let shape = Shape {
        variables: 4,
        clauses: 2,
        rules: 3,
        terms: 3,
        weight: 3,
    };
    let mut random = Random::new(20);
    let (mut solvable, mut joined) = (0, 0);
    for case in 0..600 {
        let plan = match case % 2 {
            0 => random::any_plan(&mut random, &shape),
            _ => random::met_plan(&mut random, &shape),
        };
        let new = text(&plan).variables - plan.variables;
        if new > 9 {
            continue;
        }
        joined += (new > 0) as usize;
        solvable += (extends(&plan) > 0) as usize;
    }
    assert!(solvable > 200 && joined > 200, "{solvable} {joined}");
}
