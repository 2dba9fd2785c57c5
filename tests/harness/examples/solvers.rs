//! Texts that the library writes, given to solvers that were written elsewhere: minisat+ and clasp
//! read them as they are, cbc as a linear program made of their lines.
//!
//! cargo run --release -p harness --example solvers -- COUNT SECONDS PLAN..
//!
//! Of COUNT small random plans the three solvers' verdict and optimum must be those of every
//! assignment tried; what a solver gives for the values must satisfy the plan and its locks. Of each
//! plan file it then prints what the solvers find in so many seconds.

use harness::layout;
use harness::planner::{load, write_opb, Written};
use reference::plan::{Lock, Plan};
use reference::random::{self, Random, Shape};
use std::collections::BTreeMap;
use std::fmt::Write;
use std::path::{Path, PathBuf};
use std::process::{self, Command};
use std::time::Instant;
use std::{env, fs};

/// What a solver says: that there is no solution, or some values and whether they are proved best.
#[derive(Clone, Debug, PartialEq, Eq)]
enum Verdict {
    Unsolvable,
    Solved { values: Vec<bool>, best: bool },
    Nothing,
}

/// The text of the plan of some tables, as the library writes it.
fn written(tables: &[u8], terms: &[u8]) -> String {
    let Written { refusal, length } = write_opb(tables, terms, &mut []);
    assert_eq!(refusal, 33);
    let mut text = vec![0; length];
    let answer = write_opb(tables, terms, &mut text);
    assert_eq!(answer, Written { refusal: 0, length });
    String::from_utf8(text).unwrap()
}

/// How many variables a text has.
fn variables(text: &str) -> usize {
    text.split(' ').nth(2).unwrap().parse().unwrap()
}

/// The text as a linear program: the same sums, relations and numbers, each variable 0 or 1.
fn linear_program(text: &str) -> String {
    let lines: Vec<&str> = text.lines().skip(1).collect();
    let (objective, constraints) = match lines.first().and_then(|line| line.strip_prefix("min: ")) {
        Some(sum) => (sum.trim_end_matches(" ;"), &lines[1..]),
        None => ("0 x1", &lines[..]),
    };
    let mut program = format!("Minimize\n obj: {objective}\nSubject To\n");
    // A program without a constraint is not read: x1 is at least 0.
    program += " c0: x1 >= 0\n";
    for (i, line) in constraints.iter().enumerate() {
        let body = line.trim_end_matches(" ;");
        writeln!(program, " c{}: {body}", i + 1).unwrap();
    }
    program += "Binary\n";
    for x in 1..=variables(text) {
        writeln!(program, " x{x}").unwrap();
    }
    program + "End\n"
}

/// What a program prints, given so many seconds.
fn run(seconds: u32, program: &str, arguments: &[&str]) -> String {
    let output = Command::new("timeout")
        .args(["-s", "INT", "-k", "5", &seconds.to_string(), program])
        .args(arguments)
        .output()
        .unwrap_or_else(|error| panic!("{program}: {error}"));
    String::from_utf8_lossy(&output.stdout).into_owned()
}

/// The verdict in the form of the evaluation: a line `s`, and lines `v` with the true variables; one
/// that no line of the text names may be left out.
fn evaluated(n: usize, printed: &str) -> Verdict {
    let status = printed.lines().find_map(|line| line.strip_prefix("s "));
    let given: Vec<&str> = printed
        .lines()
        .filter_map(|line| line.strip_prefix('v'))
        .collect();
    let mut values = vec![false; n];
    for item in given.iter().flat_map(|line| line.split_whitespace()) {
        if let Some(x) = item.strip_prefix('x') {
            values[x.parse::<usize>().unwrap() - 1] = true;
        }
    }
    let best = status == Some("OPTIMUM FOUND");
    match status {
        Some("UNSATISFIABLE") => Verdict::Unsolvable,
        Some("OPTIMUM FOUND" | "SATISFIABLE") if !given.is_empty() => {
            Verdict::Solved { values, best }
        }
        _ => Verdict::Nothing,
    }
}

/// The verdict in cbc's file of a solution: a first line, then a line for each variable.
fn solution(n: usize, printed: &str) -> Verdict {
    let mut lines = printed.lines();
    let first = lines.next().unwrap_or("");
    if first.starts_with("Infeasible") || first.starts_with("Integer infeasible") {
        return Verdict::Unsolvable;
    }
    let mut values = vec![false; n];
    for line in lines {
        let items: Vec<&str> = line.split_whitespace().collect();
        let [.., name, value, _] = items[..] else {
            continue;
        };
        let x: usize = name.strip_prefix('x').unwrap().parse().unwrap();
        values[x - 1] = value.parse::<f64>().unwrap() > 0.5;
    }
    match first.split(' ').next() {
        Some("Optimal") => Verdict::Solved { values, best: true },
        Some("Stopped") if !first.contains("no integer") => Verdict::Solved {
            values,
            best: false,
        },
        _ => Verdict::Nothing,
    }
}

const SOLVERS: [&str; 3] = ["minisat+", "clasp", "cbc"];

/// What one of the solvers says of a text.
fn solve(solver: &str, folder: &Path, text: &str, seconds: u32) -> Verdict {
    let n = variables(text);
    let path = |name: &str| folder.join(name).to_str().unwrap().to_string();
    let (opb, lp, found) = (path("plan.opb"), path("plan.lp"), path("found.txt"));
    fs::write(&opb, text).unwrap();
    match solver {
        "minisat+" => evaluated(n, &run(seconds, solver, &[&opb])),
        "clasp" => evaluated(n, &run(seconds, solver, &["--outf=1", &opb])),
        _ => {
            fs::write(&lp, linear_program(text)).unwrap();
            fs::write(&found, "").unwrap();
            let limit = seconds.to_string();
            let arguments = [&lp[..], "sec", &limit, "solve", "solution", &found, "quit"];
            run(seconds + 5, solver, &arguments);
            solution(n, &fs::read_to_string(&found).unwrap())
        }
    }
}

/// Whether the values of the plan's own variables satisfy it and its locks.
fn solves(plan: &Plan, values: &[bool]) -> bool {
    let own = &values[..plan.variables];
    plan.satisfied(own) && plan.obeyed(own)
}

/// The least cost of an assignment that satisfies plan and locks, every one tried.
fn optimum(plan: &Plan) -> Option<i64> {
    (0..1_u32 << plan.variables)
        .map(|k| (0..plan.variables).map(|i| k >> i & 1 == 1).collect())
        .filter(|bits: &Vec<bool>| solves(plan, bits))
        .map(|bits| plan.cost(&bits))
        .min()
}

fn small_plan(random: &mut Random) -> Plan {
    let shape = Shape {
        variables: 8,
        clauses: 6,
        rules: 3,
        terms: 5,
        weight: 9,
    };
    let mut plan = match random.percent(60) {
        true => random::any_plan(random, &shape),
        false => random::met_plan(random, &shape),
    };
    let count = random.below(plan.variables.min(3));
    let locked = random.some_variables(plan.variables, count);
    plan.locks = locked
        .into_iter()
        .map(|variable| Lock {
            variable,
            value: random.percent(50),
        })
        .collect();
    plan
}

/// Small plans: every verdict and optimum against every assignment tried.
fn compare(folder: &Path, count: usize) {
    let mut random = Random::new(220);
    let mut met: BTreeMap<&str, [u32; 2]> = BTreeMap::new();
    let (mut joined, mut locked) = (0, 0);
    for case in 0..count {
        let plan = small_plan(&mut random);
        let (tables, terms) = layout::tables(&plan);
        let text = written(&tables, &terms);
        let best = optimum(&plan);
        joined += (variables(&text) > plan.variables) as u32;
        locked += !plan.locks.is_empty() as u32;
        for solver in SOLVERS {
            let verdict = solve(solver, folder, &text, 60);
            let agrees = match (&verdict, best) {
                (Verdict::Unsolvable, None) => true,
                (Verdict::Solved { values, best }, Some(cost)) => {
                    let proved = *best || plan.objective.is_empty();
                    proved && solves(&plan, values) && plan.cost(&values[..plan.variables]) == cost
                }
                _ => false,
            };
            if !agrees {
                println!(
                    "case {case}: {solver} says {verdict:?}, and {best:?} is right of\n{text}"
                );
                process::exit(1);
            }
            met.entry(solver).or_default()[best.is_some() as usize] += 1;
        }
    }
    println!("{count} plans, {joined} of them with 'or', {locked} with locks");
    for (solver, [unsolvable, solved]) in met {
        println!("{solver}: {unsolvable} unsolvable and {solved} optima, all as by every assignment tried");
    }
}

/// A plan file: what each solver finds in so many seconds.
fn report(folder: &Path, path: &str, seconds: u32) {
    let file = fs::read(path).unwrap_or_else(|error| panic!("{path}: {error}"));
    let plan = reference::file::parse(&file).expect("a plan file");
    let (mut tables, mut terms) = (vec![0; layout::TABLES], vec![0; layout::TERM_TABLE]);
    assert_eq!(load(&file, &mut tables, &mut terms).refusal, 0);
    let text = written(&tables, &terms);
    let first = text.lines().next().unwrap();
    println!("{path}: {} bytes, {first}", text.len());
    for solver in SOLVERS {
        let begun = Instant::now();
        let verdict = solve(solver, folder, &text, seconds);
        let took = begun.elapsed().as_secs_f64();
        match verdict {
            Verdict::Unsolvable => println!("{solver}: no solution, {took:.1} s"),
            Verdict::Nothing => println!("{solver}: nothing, {took:.1} s"),
            Verdict::Solved { values, best } => {
                assert!(
                    solves(&plan, &values),
                    "{solver} gives values that do not solve"
                );
                let cost = plan.cost(&values[..plan.variables]);
                let proved = if best {
                    "proved best"
                } else {
                    "not proved best"
                };
                println!("{solver}: cost {cost}, {proved}, {took:.1} s");
            }
        }
    }
}

fn main() {
    let arguments: Vec<String> = env::args().skip(1).collect();
    let [count, seconds, plans @ ..] = &arguments[..] else {
        println!("solvers COUNT SECONDS PLAN..");
        process::exit(2);
    };
    let folder: PathBuf = env::temp_dir().join(format!("solvers-{}", process::id()));
    fs::create_dir_all(&folder).unwrap();
    compare(&folder, count.parse().expect("COUNT"));
    for plan in plans {
        report(&folder, plan, seconds.parse().expect("SECONDS"));
    }
    fs::remove_dir_all(&folder).unwrap();
}
