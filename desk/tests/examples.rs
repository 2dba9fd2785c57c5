//! The bundled examples and the one in docs/DESK.md: their files come from their texts, and their
//! lines from the reference.

use desk::command::run;
use desk::read::read_bytes;
use reference::file::{parse, parse_numbers, parse_settings, write, write_settings};
use reference::program::lines;
use reference::walk::{search, Ending};
use std::fs;
use std::path::{Path, PathBuf};
use std::process::Command;

const FILES: [&str; 3] = ["plan.bin", "walk.bin", "numbers.bin"];

/// The command by which examples/race-day was made.
const RACE_DAY: [&str; 5] = ["write", "plan.txt", ".", "20260613", "16384"];

fn root() -> PathBuf {
    Path::new(env!("CARGO_MANIFEST_DIR")).join("..")
}

fn example(name: &str) -> PathBuf {
    root().join("examples").join(name)
}

fn text(path: &Path) -> String {
    fs::read_to_string(path).unwrap_or_else(|error| panic!("{}: {error}", path.display()))
}

fn three_files(folder: &Path) -> [Vec<u8>; 3] {
    FILES.map(|name| fs::read(folder.join(name)).unwrap())
}

/// What the reference's program prints in a folder.
fn program(folder: &Path) -> String {
    let [plan, walk, numbers] = three_files(folder);
    lines(Some(&plan), Some(&walk), Some(&numbers))
}

fn empty_folder(name: &str) -> PathBuf {
    let folder = PathBuf::from(env!("CARGO_TARGET_TMPDIR")).join(format!("examples-{name}"));
    let _ = fs::remove_dir_all(&folder);
    fs::create_dir_all(&folder).unwrap();
    folder
}

/// What the built tool prints in a folder.
fn desk(folder: &Path, arguments: &[&str]) -> String {
    let output = Command::new(env!("CARGO_BIN_EXE_desk"))
        .args(arguments)
        .current_dir(folder)
        .output()
        .unwrap();
    assert!(output.status.success() && output.stderr.is_empty());
    String::from_utf8(output.stdout).unwrap()
}

#[test]
fn every_example_prints_what_it_expects() {
    let mut names: Vec<PathBuf> = fs::read_dir(root().join("examples"))
        .unwrap()
        .map(|entry| entry.unwrap().path())
        .filter(|path| path.join("plan.bin").exists())
        .collect();
    names.sort();
    assert!(names.len() >= 2);
    for folder in names {
        let expected = text(&folder.join("expected.txt"));
        assert_eq!(program(&folder), expected, "{}", folder.display());
    }
}

#[test]
fn the_race_day_s_files_come_from_its_text() {
    let (folder, bundled) = (empty_folder("race-day"), example("race-day"));
    fs::copy(bundled.join("plan.txt"), folder.join("plan.txt")).unwrap();
    desk(&folder, &RACE_DAY);
    for name in FILES.iter().chain(&["names.txt", "clauses.txt"]) {
        let [made, kept] = [&folder, &bundled].map(|place| fs::read(place.join(name)).unwrap());
        assert!(made == kept, "{name} is not what plan.txt gives");
    }
    let command = format!("desk {}", RACE_DAY.join(" "));
    assert!(text(&bundled.join("README.md")).contains(&command));
}

/// The list of numbers is document 01's; plan and settings are those of the text.
#[test]
fn the_two_sites_come_from_their_text() {
    let folder = example("two-sites");
    let text = read_bytes(&fs::read(folder.join("plan.txt")).unwrap());
    let text = text.ok().unwrap();
    let [plan, walk, _] = three_files(&folder);
    assert_eq!(write(&text.plan), plan);
    assert_eq!(write_settings(&text.settings.unwrap()), walk);
}

#[test]
fn the_race_day_is_worth_a_walk() {
    let [plan, walk, numbers] = three_files(&example("race-day"));
    let plan = parse(&plan).unwrap();
    let settings = parse_settings(&walk).unwrap();
    let answer = search(&plan, &settings, &parse_numbers(&numbers).unwrap()).unwrap();
    assert_eq!(answer.ending, Ending::Ended);
    assert!(answer.finds.iter().all(|found| plan.satisfied(found)));
    // The README names these costs.
    let costs: Vec<i64> = answer.finds.iter().map(|found| plan.cost(found)).collect();
    assert_eq!(costs, [6_260, 3_540, 3_350, 3_100, 3_090, 3_040]);
}

#[test]
fn the_race_day_s_plan_by_name() {
    let folder = example("race-day");
    let expected = text(&folder.join("expected.txt"));
    let digits = expected.lines().nth(1).unwrap();
    let plan = folder.join("plan.txt");
    let outcome = run(&["name", plan.to_str().unwrap(), digits]);
    assert_eq!((outcome.code, outcome.err.as_str()), (0, ""));
    // The README tells what is chosen.
    let chosen: Vec<&str> = outcome.out.lines().collect();
    let readme = text(&folder.join("README.md"));
    let (cost, names) = (chosen[chosen.len() - 2], &chosen[..chosen.len() - 2]);
    assert_eq!(cost, "cost 3040");
    assert!(
        readme.contains(&format!("    {}\n", names.join(" "))),
        "{names:?}"
    );
}

/// The blocks between lines of three back quotes.
fn blocks(text: &str) -> Vec<String> {
    let parts: Vec<&str> = text.split("```").collect();
    let inner = |part: &&str| part.split_once('\n').unwrap().1.to_string();
    parts.iter().skip(1).step_by(2).map(inner).collect()
}

#[test]
fn the_example_of_the_desk_s_page() {
    let page = text(&root().join("docs/DESK.md"));
    let [plan, session] = &blocks(&page)[..] else {
        panic!("the page has a text and a session");
    };
    assert!(read_bytes(plan.as_bytes()).is_ok());
    let folder = empty_folder("page");
    fs::write(folder.join("crossing.txt"), plan).unwrap();
    let mut commands = 0;
    for part in session.split("$ desk ").skip(1) {
        let (command, printed) = part.split_once('\n').unwrap();
        let arguments: Vec<&str> = command.split(' ').collect();
        assert_eq!(desk(&folder, &arguments), printed);
        commands += 1;
    }
    assert_eq!(commands, 5);
    let lines = program(&folder);
    let (first, second) = lines.trim_end().split_once('\n').unwrap();
    assert!(page.contains(&format!("prints `{first}` and `{second}`:")));
}
