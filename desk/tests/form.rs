//! The text form: what each statement means, and how a plan is printed.

use desk::names::{Names, Role};
use desk::print;
use desk::read::{read, read_bytes, Text};
use desk::report::{counted, grouped};
use reference::file::{parse, write};
use reference::making;
use reference::plan::{Rule, Term};
use reference::walk::{Settings, LBS, LINEAR, SKC};

fn accepted(text: &str) -> Text {
    let read = read(text).unwrap_or_else(|fault| panic!("{fault:?} in:\n{text}"));
    assert_eq!(parse(&write(&read.plan)), Ok(read.plan.clone()));
    read
}

fn terms(list: &[(usize, i64)]) -> Vec<Term> {
    let term = |&(variable, weight)| Term { variable, weight };
    list.iter().map(term).collect()
}

/// The only rule of a plan over a, b and c.
fn rule(text: &str) -> Rule {
    let text = format!("variable 1 a variable 2 b variable 3 c clause {text}");
    let plan = accepted(&text).plan;
    assert_eq!((plan.clauses.len(), plan.clauses[0].rules.len()), (1, 1));
    plan.clauses[0].rules[0].clone()
}

fn bounds(text: &str) -> (Option<i64>, Option<i64>) {
    let rule = rule(text);
    assert_eq!(rule.terms, terms(&[(1, 1), (2, 1)]));
    (rule.lower, rule.upper)
}

#[test]
fn the_bounds_that_are_there_make_the_mode() {
    assert_eq!(bounds("2 <= a + b <= 4"), (Some(2), Some(4)));
    assert_eq!(bounds("2 <= a + b"), (Some(2), None));
    assert_eq!(bounds("a + b >= 2"), (Some(2), None));
    assert_eq!(bounds("a + b <= 4"), (None, Some(4)));
    assert_eq!(bounds("a + b = 1"), (Some(1), Some(1)));
    // A bound that is there may be 0; one below the other is lawful and never met.
    assert_eq!(bounds("0 <= a + b <= 0"), (Some(0), Some(0)));
    assert_eq!(bounds("a + b <= 0"), (None, Some(0)));
    assert_eq!(bounds("0 <= a + b"), (Some(0), None));
    assert_eq!(bounds("4 <= a + b <= -2"), (Some(4), Some(-2)));
    assert_eq!(bounds("-3 <= a + b <= -1"), (Some(-3), Some(-1)));
    let most = 1_000_000_000;
    assert_eq!(
        bounds("-1000000000 <= a + b <= 1000000000"),
        (Some(-most), Some(most))
    );
}

#[test]
fn sums() {
    let sum = |text: &str| rule(&format!("{text} >= 1")).terms;
    assert_eq!(sum("a"), terms(&[(1, 1)]));
    assert_eq!(sum("-a"), terms(&[(1, -1)]));
    assert_eq!(sum("+ 3 a - 4 b + c"), terms(&[(1, 3), (2, -4), (3, 1)]));
    assert_eq!(sum("- 3 a -b"), terms(&[(1, -3), (2, -1)]));
    // By number, in any order, with signs close or apart.
    assert_eq!(sum("x3+2 x1"), terms(&[(1, 2), (3, 1)]));
    assert_eq!(sum("c - 1000000 b"), terms(&[(2, -1_000_000), (3, 1)]));
    assert_eq!(rule("2 a + b <= 7").upper, Some(7));
    assert_eq!(
        rule("2 <= - 2 a + b").terms,
        terms(&[(1, -2), (2, 1)]),
        "a bound first, then a sum with a sign"
    );
}

#[test]
fn a_hyphen_inside_a_name_is_no_minus() {
    let text = accepted("variable 1 a variable 2 a-b variable 3 b clause a-b - a - b <= 0");
    let rule = &text.plan.clauses[0].rules[0];
    assert_eq!(rule.terms, terms(&[(1, -1), (2, 1), (3, -1)]));
}

#[test]
fn names_of_any_script() {
    let text = accepted("variable 1 Brücke-2\nvariable 2 _x1\nclause Brücke-2 - _x1 = 0\n");
    assert_eq!(text.names.called(1), "Brücke-2");
    assert_eq!(text.names.find("_x1"), Some(2));
}

#[test]
fn variables_with_and_without_names() {
    let text = accepted("variables 2 variable 3 ford variables 6");
    assert_eq!((text.plan.variables, text.names.variables()), (6, 6));
    let called: Vec<String> = (1..=6)
        .map(|variable| text.names.called(variable))
        .collect();
    assert_eq!(called, ["x1", "x2", "ford", "x4", "x5", "x6"]);
    assert_eq!(text.names.find("ford"), Some(3));
    assert_eq!(text.names.find("x3"), Some(3));
    assert_eq!(text.names.find("x7"), None);
    assert_eq!(text.names.find("x0"), None);
    assert_eq!(text.names.find("x99999999999999999999"), None);
    assert_eq!(accepted("variables 512").plan.variables, 512);
}

/// A name without a number is the next variable's, whatever it stands for.
#[test]
fn names_without_numbers() {
    let text =
        accepted("site start site 2 ford marshal west course long variable spare variables 6");
    let called: Vec<String> = (1..=6).map(|each| text.names.called(each)).collect();
    assert_eq!(called, ["start", "ford", "west", "long", "spare", "x6"]);
    let roles: Vec<Role> = (1..=6).map(|each| text.names.role(each)).collect();
    use Role::{Course, Marshal, Site, Variable};
    assert_eq!(roles, [Site, Site, Marshal, Course, Variable, Variable]);
    let printed = "site 1 start\nsite 2 ford\nmarshal 3 west\ncourse 4 long\nvariable 5 spare\n\
                   variables 6\n";
    assert_eq!(print::text(&text.plan, &text.names, None), printed);
    assert_eq!(accepted(printed).names, text.names);
}

/// A clause may have a name, which the file does not keep and the texts do.
#[test]
fn names_of_clauses() {
    let text = accepted(
        "variable a variable b clause ford: 1 <= a + b <= 2 or a <= 0 clause b <= 1 clause b: b ≥ 0",
    );
    let names: Vec<Option<&str>> = (0..3).map(|place| text.names.clause(place)).collect();
    assert_eq!(names, [Some("ford"), None, Some("b")]);
    let printed = "variable 1 a\nvariable 2 b\nclause ford:\n  1 <= a + b <= 2\n  or a <= 0\n\
                   clause b <= 1\nclause b: b >= 0\n";
    assert_eq!(print::text(&text.plan, &text.names, None), printed);
    assert_eq!(accepted(printed).names, text.names);
    let clause = &text.plan.clauses[0];
    assert_eq!(
        print::clause_at(0, clause, &text.names),
        "ford: 1 <= a + b <= 2 or a <= 0"
    );
}

/// Other spellings: an editor's signs and the American one.
#[test]
fn other_spellings() {
    let plain = accepted("variable a minimise a clause 0 <= a <= 1 clause a >= 1");
    let other = accepted("variable a minimize a clause 0 ≤ a ≤ 1 clause a≥1");
    assert_eq!(plain.plan, other.plan);
}

/// Comments lend the crew's page their words: the first line's, a variable's own and those above a
/// clause, which the clauses after it share.
#[test]
fn what_comments_say() {
    let text = accepted(
        "# Heath race\n#\n# more\n\nsite a # boulder\nsite b\n\n# --- rules ---\n\n# One of\n# two.\n\
         clause a + b >= 1 # here\nclause a <= 1\n\n# Not b.\nclause b <= 0\n",
    );
    assert_eq!(text.title, "Heath race");
    assert_eq!(text.notes, ["boulder", ""]);
    assert_eq!(text.clause_notes, ["One of two.", "One of two.", "Not b."]);
    assert_eq!(accepted("variable a # first").title, "");
}

#[test]
fn statements_in_any_order_and_over_any_lines() {
    let plain = "variable 1 a\nvariable 2 b\nminimise 3 a - b\nclause a + b >= 1\n\
                 clause\n  a <= 0\n  or b <= 0\nwalk noise 500 tries 10 flips 1000 mode lbs\n";
    let mixed = "walk noise 500 tries 10 # few\r\n flips 1000 mode lbs variable 1\r\na\r\n\r\n\
                 clause x1 >= 0 or a <= 0 # or ford\nvariable 2 b minimise\n3 a\n-\nb # clause";
    let (plain, mixed) = (accepted(plain), accepted(mixed));
    assert_eq!(
        (&plain.names, plain.settings),
        (&mixed.names, mixed.settings)
    );
    assert_eq!(plain.plan.objective, mixed.plan.objective);
    assert_eq!(plain.plan.objective, terms(&[(1, 3), (2, -1)]));
    assert_eq!((plain.lines, plain.last_line), (vec![4, 5], 8));
    assert_eq!((mixed.lines, mixed.last_line), (vec![5], 9));
    assert_eq!(mixed.plan.clauses[0].rules.len(), 2);
}

#[test]
fn locks_of_a_text() {
    let text = "variable 1 a lock a 1 variables 3 variable 4 d\nlock d 0 lock x2 1 clause a <= 1";
    let read = accepted(text);
    let locks: Vec<(usize, bool)> = read
        .plan
        .locks
        .iter()
        .map(|lock| (lock.variable, lock.value))
        .collect();
    assert_eq!(locks, [(1, true), (2, true), (4, false)]);
    let printed = "variable 1 a\nvariables 3\nvariable 4 d\nlock a 1\nlock x2 1\nlock d 0\n\
                   clause a <= 1\n";
    assert_eq!(print::text(&read.plan, &read.names, None), printed);
    assert_eq!(accepted(printed).plan, read.plan);
}

#[test]
fn the_least_text() {
    let text = accepted("variables 1");
    assert!(text.plan.objective.is_empty() && text.plan.clauses.is_empty());
    assert_eq!(text.settings, None);
}

#[test]
fn settings_of_the_walk() {
    let settings = |line: &str| accepted(&format!("variables 1 {line}")).settings.unwrap();
    let [least, most] = [(0, 1, 1, LINEAR), (1_000, 1_000, 1_000_000, LBS)];
    for (line, (noise, tries, flips, mode)) in [
        ("walk noise 0 tries 1 flips 1 mode linear", least),
        ("walk noise 1000 tries 1000 flips 1000000 mode lbs", most),
    ] {
        let expected = Settings {
            noise,
            tries,
            flips,
            mode,
            heuristic: SKC,
            chance: 0,
        };
        assert_eq!(settings(line), expected);
        assert_eq!(print::walk(&expected).trim_end(), line);
        for chance in [0, 10, 1_000] {
            let line = format!("{line} heuristic novelty {chance}");
            let expected = making::novelty(expected, chance);
            assert_eq!(settings(&line), expected);
            assert_eq!(print::walk(&expected).trim_end(), line);
        }
        let beside = Settings {
            chance: 10,
            ..expected
        };
        assert_eq!(settings(&format!("{line} heuristic skc 10")), beside);
        assert_eq!(settings(&format!("{line} heuristic skc 0")), expected);
        let printed = format!("{line} heuristic skc 10");
        assert_eq!(print::walk(&beside).trim_end(), printed);
    }
}

#[test]
fn an_editor_s_mark_at_the_start() {
    let text = b"\xEF\xBB\xBFvariable 1 ford\r\nclause ford >= 1\r\n";
    assert_eq!(read_bytes(text).unwrap().names.called(1), "ford");
}

#[test]
fn a_printed_plan() {
    let text = "variables 2\nvariable 3 ford\nminimise -x1 + 2 x2 - 30 ford\n\
                clause -ford >= -1\nclause x1 = 1\nclause\n  2 <= x1 + 3 ford <= 4\n  \
                or x2 <= 0\nwalk noise 5 tries 6 flips 7 mode linear\n";
    let read = accepted(text);
    let settings = read.settings.as_ref();
    assert_eq!(print::text(&read.plan, &read.names, settings), text);
    // Without names and settings.
    let unnamed = print::text(&read.plan, &Names::unnamed(3), None);
    assert!(unnamed.starts_with("variables 3\nminimise -x1 + 2 x2 - 30 x3\nclause -x3 >= -1\n"));
    assert!(unnamed.ends_with("or x2 <= 0\n"));
    assert_eq!(accepted(&unnamed).plan, read.plan);
}

#[test]
fn long_sums_are_broken_into_lines() {
    let sum: Vec<String> = (1..=200)
        .map(|variable| format!("1000 x{variable}"))
        .collect();
    let sum = sum.join(" + ");
    let read = accepted(&format!(
        "variables 200 minimise {sum} clause 1 <= {sum} <= 2"
    ));
    let printed = print::text(&read.plan, &read.names, None);
    assert!(printed.lines().count() > 40);
    assert!(printed.lines().all(|line| line.chars().count() <= 100));
    assert_eq!(accepted(&printed).plan, read.plan);
}

#[test]
fn numbers_as_the_papers_print_them() {
    let numbers = [0, 7, 999, 1_000, 16_384, 1_000_000, -1_000, -999];
    let printed = numbers.map(grouped);
    let expected = [
        "0",
        "7",
        "999",
        "1,000",
        "16,384",
        "1,000,000",
        "-1,000",
        "-999",
    ];
    assert_eq!(printed, expected);
    assert_eq!(counted(1, "rule"), "1 rule");
    assert_eq!(counted(0, "rule"), "0 rules");
    assert_eq!(counted(6_000, "term"), "6,000 terms");
}
