//! The planner's daily loop: a text is written, searched by the proved planner, and what was found is
//! told by name. What it must tell is worked out by the reference or by hand.

use desk::command::{run, run_with};
use desk::console::Outcome;
use desk::finds::Finds;
use desk::planner::{Planner, PROVED};
use desk::relaxed::{never_met, relaxed};
use reference::file::{parse, parse_numbers, parse_settings};
use reference::making::{at_least, at_most, between, locking, plan};
use reference::races::split;
use reference::random::{race_plan, settings, small_met_plan, Random};
use reference::walk::{search, Ending};
use std::fs;
use std::path::{Path, PathBuf};

fn example(name: &str) -> PathBuf {
    Path::new(env!("CARGO_MANIFEST_DIR"))
        .join("../examples")
        .join(name)
}

/// An empty folder of this test's own, by its path in words.
fn folder(name: &str) -> String {
    let folder = PathBuf::from(env!("CARGO_TARGET_TMPDIR")).join(format!("daily-{name}"));
    let _ = fs::remove_dir_all(&folder);
    fs::create_dir_all(&folder).unwrap();
    folder.display().to_string()
}

/// A text written into a folder, and its path.
fn written(folder: &str, text: &str) -> String {
    let path = format!("{folder}/plan.txt");
    fs::write(&path, text).unwrap();
    path
}

const BY: &str = "searched by the proved planner; the reference agrees\n";

/// The tool that is tested searches by the proved archive; where it were not linked, the other tests
/// would compare the reference with itself.
#[test]
fn the_proved_archive_is_linked() {
    assert!(
        std::hint::black_box(PROVED),
        "run `tools/build planner csv`"
    );
}

#[test]
fn the_race_day() {
    let folder = folder("race-day");
    let text = example("race-day/plan.txt").display().to_string();
    let done = run(&["plan", &text, "20260613", "--folder", &folder, "--check"]);
    assert_eq!((done.code, done.err.as_str()), (0, ""));
    let lines: Vec<&str> = done.out.lines().collect();
    let files = "plan.bin, walk.bin, numbers.bin, names.txt, clauses.txt";
    assert_eq!(
        lines[0],
        format!("wrote {folder}: {files}; 16,384 numbers from seed 20260613")
    );
    // The example's README tells these costs, and expected.txt the rest.
    let costs = [6_260, 3_540, 3_350, 3_100, 3_090, 3_040];
    for (place, cost) in costs.iter().enumerate() {
        assert_eq!(lines[place + 1], format!("find {}: cost {cost}", place + 1));
    }
    let ended =
        "ended: found, and a search for less found nothing; 5,623 flips, 15,754 of 16,384 numbers";
    assert_eq!(lines[7], ended);
    assert_eq!((lines[8], lines[25]), ("start", "long-by-bridge"));
    assert_eq!(
        lines[26..],
        ["cost 3040", "every clause is met", BY.trim_end()]
    );
    for name in [
        "plan.bin",
        "walk.bin",
        "numbers.bin",
        "names.txt",
        "clauses.txt",
    ] {
        let [made, kept] =
            [PathBuf::from(&folder), example("race-day")].map(|at| fs::read(at.join(name)));
        assert_eq!(made.unwrap(), kept.unwrap(), "{name}");
    }
}

/// Each find of growing parts is one of the reference's, in order, and none is passed over.
#[test]
fn every_find_is_told_once() {
    let mut random = Random::new(81);
    let (mut several, mut none) = (0, 0);
    for round in 0..120 {
        let plan = match round % 3 {
            0 => race_plan(&mut random),
            _ => small_met_plan(&mut random),
        };
        let (settings, count) = (settings(&mut random), random.below(1_500));
        let numbers = random.numbers(count);
        let answer = search(&plan, &settings, &numbers).unwrap();
        let mut told = Vec::new();
        let mut planner = Planner::new(&plan, false);
        let finds = Finds {
            planner: &mut planner,
            settings: &settings,
            numbers: &numbers,
            tell: &mut |number, cost| told.push((number, cost)),
        };
        let found = finds.all().unwrap();
        let costs = answer.finds.iter().map(|found| plan.cost(found));
        let expected: Vec<(usize, i64)> = (1..).zip(costs).collect();
        assert_eq!(told, expected);
        assert_eq!(
            (found.ending, found.flips, found.used),
            (answer.ending, answer.flips, answer.used)
        );
        assert_eq!(found.assignment.as_deref(), answer.found());
        several += (told.len() > 2) as u32;
        none += told.is_empty() as u32;
    }
    assert!(several > 20 && none > 5, "{several} {none}");
}

/// Without a walk statement the desk tries settings of its own and takes those with the least cost.
#[test]
fn settings_of_the_desk_s_own() {
    let folder = folder("own");
    let text = fs::read_to_string(example("race-day/plan.txt")).unwrap();
    let path = written(&folder, &text.replace("\nwalk ", "\n# walk "));
    let done = run(&["plan", &path, "3"]);
    assert_eq!(done.code, 0, "{}", done.err);
    let cost = |line: &str| line.rsplit(' ').next().unwrap().parse::<i64>().unwrap();
    let tried = done
        .out
        .lines()
        .filter(|line| line.starts_with("tried walk "));
    let costs: Vec<i64> = tried.map(cost).collect();
    let last = done
        .out
        .lines()
        .find(|line| line.starts_with("cost "))
        .unwrap();
    assert_eq!((costs.len(), costs.iter().min()), (3, Some(&cost(last))));
    // The box gets the settings that found it: the reference finds it with them.
    let file = |name: &str| fs::read(format!("{folder}/plan.box/{name}")).unwrap();
    let (plan, walk) = (
        parse(&file("plan.bin")).unwrap(),
        parse_settings(&file("walk.bin")).unwrap(),
    );
    let numbers = parse_numbers(&file("numbers.bin")).unwrap();
    assert_eq!(search(&plan, &walk, &numbers).unwrap().cost, cost(last));
}

/// Where nothing is found the nearest to a plan is told: of two clauses that shut each other out one
/// is left out, and the third, which costs nothing, is met.
#[test]
fn what_stands_in_the_way() {
    let folder = folder("none");
    let text = "site a\nsite b\nminimise a\nclause a >= 1\nclause shut: a <= 0\nclause b >= 1\n\
                walk noise 500 tries 2 flips 50 mode lbs\n";
    let path = written(&folder, text);
    let done = run(&["plan", &path, "--check"]);
    assert_eq!((done.code, done.err.as_str()), (1, ""));
    let lines: Vec<&str> = done.out.lines().collect();
    // Two tries of fifty flips, each try and each flip with numbers as the reference takes them.
    let file = |name: &str| fs::read(format!("{folder}/plan.box/{name}")).unwrap();
    let (plan, walk) = (
        parse(&file("plan.bin")).unwrap(),
        parse_settings(&file("walk.bin")).unwrap(),
    );
    let used = search(&plan, &walk, &parse_numbers(&file("numbers.bin")).unwrap())
        .unwrap()
        .used;
    let ended = format!("none: nothing was found; 100 flips, {used} of 16,384 numbers");
    assert_eq!(lines[1], ended);
    assert_eq!(lines[2], "the nearest to a plan that was found:");
    let unmet: Vec<&&str> = lines
        .iter()
        .filter(|line| line.ends_with(" is not met"))
        .collect();
    let [one] = unmet[..] else {
        panic!("{lines:?}");
    };
    let either = [
        "the clause on line 4 is not met",
        "the clause 'shut' on line 5 is not met",
    ];
    assert!(either.contains(one), "{one}");
    assert!(lines.contains(&"b"));
}

/// A clause that no values can meet is told before any search.
#[test]
fn clauses_that_are_never_met() {
    let folder = folder("never");
    let text = "site a\nsite b\nlock b 1\nclause a >= 1\nclause both: a + b >= 3 or b <= 0\n";
    let path = written(&folder, text);
    let done = run(&["plan", &path, "--numbers", "200"]);
    assert_eq!(done.code, 1);
    let words = "desk: the clause 'both' on line 5 can never be met, whatever is chosen\n";
    assert_eq!(done.err, words);
    let hopeless = plan(
        2,
        &[],
        &[
            &[at_least(3, &[(1, 1), (2, 1)])],
            &[at_least(2, &[(1, 1), (2, 1)])],
            &[at_most(-2, &[(1, -1)]), at_least(1, &[(1, 1)])],
            &[between(2, &[(1, 2), (2, 1)], 1)],
            &[at_most(0, &[(1, 1)])],
        ],
    );
    assert_eq!(never_met(&hopeless), [0, 3]);
    assert_eq!(never_met(&locking(hopeless, &[(1, 1)])), [0, 3, 4]);
}

/// A plan in which clauses may be left out has one variable and one rule more for each.
#[test]
fn a_plan_with_clauses_left_out() {
    let clauses: [&[_]; 2] = [&[at_least(1, &[(1, 1)])], &[at_most(0, &[(1, 1)])]];
    let both = plan(1, &[(1, 5)], &clauses);
    let first = [at_least(1, &[(1, 1)]), at_least(1, &[(2, 1)])];
    let second = [at_most(0, &[(1, 1)]), at_least(1, &[(3, 1)])];
    let expected = plan(3, &[(2, 1), (3, 1)], &[&first, &second]);
    assert_eq!(relaxed(&both), Some(expected));
    let many: Vec<&[_]> = vec![clauses[0]; 500];
    assert!(relaxed(&plan(12, &[], &many)).is_some());
    assert_eq!(relaxed(&plan(13, &[], &many)), None);
}

/// `tent | desk name PLAN.txt -`.
#[test]
fn the_program_s_lines_by_name() {
    let text = example("two-sites/plan.txt").display().to_string();
    let name = |lines: &str| run_with(&["name", &text, "-"], lines.as_bytes());
    let expected = fs::read_to_string(example("two-sites/expected.txt")).unwrap();
    let words =
        "ended: found, and a search for less found nothing; 2 found, 2 flips, 10 numbers used\n";
    let told = name(&expected);
    assert_eq!((told.code, told.err.as_str()), (0, ""));
    assert!(told.out.starts_with(words), "{}", told.out);
    assert!(
        told.out.ends_with("cost 1\nevery clause is met\n"),
        "{}",
        told.out
    );
    let said = |code: u8, words: &str| Outcome {
        code,
        out: String::new(),
        err: format!("desk: {words}\n"),
    };
    assert_eq!(
        name("none 0 0 2 10\n-\n"),
        said(1, "none: nothing was found")
    );
    let refused = "the box refuses (7, offset 50): the file goes on after its end";
    assert_eq!(name("refused 7 50\n"), said(1, refused));
    let other = "the box says cost 4, but by this text it is 1: the box has another plan";
    assert_eq!(name("ended 4 2 2 10\n10\n"), said(1, other));
    let row = "an assignment of this plan is a row of 2 digits, each 0 or 1, not '101'";
    assert_eq!(name("ended 1 2 2 10\n101\n"), said(1, row));
    for lines in ["", "plan\n10\n", "end 1 2 2 10\n10\n"] {
        let first = lines.lines().next().unwrap_or_default();
        let words = format!("'{first}' is no first line of the program's");
        assert_eq!(name(lines), said(1, &words));
    }
}

/// A festival is planned as the reference plans each race with its part of the list.
#[test]
fn a_festival() {
    let folder = folder("festival");
    let texts = ["race-day", "two-sites"].map(|name| example(name).join("plan.txt"));
    let [first, second] = texts.map(|path| path.display().to_string());
    let done = run(&[
        "festival", &folder, "7", "4000", "3", &first, "1", &second, "--check",
    ]);
    assert_eq!((done.code, done.err.as_str()), (0, ""));
    let numbers = parse_numbers(&fs::read(format!("{folder}/numbers.bin")).unwrap()).unwrap();
    let parts = split(&[3, 1], numbers.len()).unwrap();
    for (i, part) in parts.iter().enumerate() {
        let file = |name: &str| fs::read(format!("{folder}/race{}/{name}", i + 1)).unwrap();
        let plan = parse(&file("plan.bin")).unwrap();
        let own = &numbers[part.first..part.first + part.length];
        let answer = search(&plan, &parse_settings(&file("walk.bin")).unwrap(), own).unwrap();
        assert_ne!(answer.ending, Ending::None);
        let (number, from, to) = (i + 1, part.first, part.first + part.length);
        let heading = format!(
            "race{number}: numbers {from} to {to}. {}: ",
            answer.ending.name()
        );
        let (_, rest) = done
            .out
            .split_once(&heading)
            .unwrap_or_else(|| panic!("{heading}"));
        let cost = rest.lines().find(|line| line.starts_with("cost ")).unwrap();
        assert_eq!(cost, format!("cost {}", answer.cost));
    }
    // Seed and count may be left out.
    let done = run(&["festival", &folder, "3", &first, "1", &second]);
    let words = "16,384 numbers from seed 1\n";
    assert!(done.out.contains(words), "{}", done.out);
}

/// What the archive does for the other commands, the reference does too.
#[test]
fn the_second_opinion() {
    let folder = folder("check");
    let text = "site a site b site c lock b 1 minimise 3 a + 5 b clause a + b + c >= 2";
    let path = written(&folder, text);
    assert_eq!(run(&["write", &path, &folder]).code, 0);
    let [old, new] = ["plan.bin", "new.bin"].map(|name| format!("{folder}/{name}"));
    let squeezed = run(&["squeeze", &old, &new, &path, "--check"]);
    assert_eq!((squeezed.code, squeezed.err.as_str()), (0, ""));
    assert!(
        squeezed.out.ends_with("constant 5\nx1 was a\nx2 was c\n"),
        "{}",
        squeezed.out
    );
    let [sites, zones] =
        ["sites.csv", "zones.csv"].map(|name| example("mapper").join(name).display().to_string());
    let mapped = run(&["csv", &sites, &zones, &folder, "--check"]);
    assert_eq!((mapped.code, mapped.err.as_str()), (0, ""));
}
