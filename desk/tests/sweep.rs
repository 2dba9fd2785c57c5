//! The sweep: settings in an order, how far each is from the best known, and the picture. Its figures
//! are those of the reference, which --check asks too.

use desk::command::run;
use desk::picture::colour;
use desk::planner::Figures;
use desk::sweep::{away, better, grid, Tried};
use reference::walk::{LBS, LINEAR, NOVELTY, SKC};
use std::cmp::Ordering;
use std::fs;
use std::path::{Path, PathBuf};

fn folder(name: &str) -> PathBuf {
    let folder = PathBuf::from(env!("CARGO_TARGET_TMPDIR")).join(format!("sweep-{name}"));
    let _ = fs::remove_dir_all(&folder);
    fs::create_dir_all(&folder).unwrap();
    folder
}

fn tried(share: (i64, u64), cost: Option<(i64, u64)>) -> Tried {
    Tried {
        settings: grid()[0],
        figures: Figures {
            share,
            flips: (1, 1),
            cost,
        },
        least: None,
    }
}

#[test]
fn all_settings_of_the_first_round() {
    let grid = grid();
    assert_eq!(grid.len(), 3 * 2 * 11);
    for heuristic in [SKC, NOVELTY] {
        for mode in [LINEAR, LBS] {
            for noise in [0, 500, 1_000] {
                let there = |each: &&reference::walk::Settings| {
                    (each.heuristic, each.mode, each.noise) == (heuristic, mode, noise)
                };
                let expected = if heuristic == SKC { 1 } else { 2 };
                assert_eq!(grid.iter().filter(there).count(), expected);
            }
        }
    }
    assert!(grid.iter().all(|settings| settings.refusal().is_none()));
}

#[test]
fn which_settings_are_better() {
    let half = tried((1, 2), Some((10, 1)));
    let dear = tried((1, 1), Some((70, 3)));
    let cheap = tried((1, 1), Some((41, 2)));
    let none = tried((0, 1), None);
    assert_eq!(better(&dear, &half), Ordering::Less);
    assert_eq!(better(&cheap, &dear), Ordering::Less);
    assert_eq!(better(&half, &none), Ordering::Less);
    assert_eq!(better(&none, &none), Ordering::Equal);
}

#[test]
fn how_far_from_the_best() {
    assert_eq!(away(103.0, 100), Some(3.0));
    assert_eq!(away(-97.0, -100), Some(3.0));
    assert_eq!(away(5.0, 0), None);
}

#[test]
fn colours_of_the_heat_map() {
    let ends = [0.0, 0.5, 1.0, -3.0, 7.0].map(colour);
    assert_eq!(
        ends,
        ["#5ab464", "#fae68c", "#dc5a46", "#5ab464", "#dc5a46"]
    );
}

const LISTS: [&str; 2] = ["--numbers", "600"];

/// The race day without its settings, in a folder of its own: the text and its path.
fn race_day(folder: &Path) -> (String, String) {
    let example = Path::new(env!("CARGO_MANIFEST_DIR")).join("../examples/race-day/plan.txt");
    let text = fs::read_to_string(example).unwrap();
    let text = text.replace("\nwalk ", "\n# walk ");
    let path = folder.join("race.txt").display().to_string();
    fs::write(&path, &text).unwrap();
    (text, path)
}

/// The sweep's advice: the least cost, the settings that found it, and the seed.
fn advice(out: &str) -> [String; 3] {
    let line = out.lines().find(|line| line.starts_with("to have cost "));
    let parts: Vec<&str> = line.unwrap().split('\'').collect();
    let cost = parts[0].split(' ').nth(3).unwrap();
    let seed = parts[2].rsplit(' ').next().unwrap();
    [cost, parts[1], seed].map(str::to_string)
}

/// Whole, on a small plan, over short lists: both planners agree in all figures, a progress line is
/// shown, the least cost is the one that the same settings and seed find again, and its row says how
/// far that is from the best known.
#[test]
fn a_sweep_of_the_race_day() {
    let folder = folder("race-day");
    let (text, path) = race_day(&folder);
    let done = run(&[
        "sweep", &path, "--best", "3040", "--check", LISTS[0], LISTS[1],
    ]);
    assert_eq!(done.code, 0, "{}", done.err);
    assert!(
        done.err.contains("\rsweep: round 1 of 2, 33 of 66, "),
        "{}",
        done.err
    );
    assert!(done.err.ends_with(" s \n"));
    assert!(done.out.starts_with("66 settings tried\n"));
    assert!(
        done.out.contains("\nbest known: 3,040, given\n"),
        "{}",
        done.out
    );
    let [cost, walk, seed] = advice(&done.out);
    fs::write(&path, format!("{text}\n{walk}\n")).unwrap();
    let again = run(&["plan", &path, &seed, LISTS[0], LISTS[1]]);
    assert!(
        again.out.contains(&format!("\ncost {cost}\n")),
        "{cost} {walk} {seed}"
    );
    let far = 100.0 * (cost.parse::<f64>().unwrap() - 3_040.0) / 3_040.0;
    let row = done.out.lines().find(|line| line.ends_with(&walk)).unwrap();
    assert!(row.contains(&format!(" {far:.1} %")), "{row}");
}

/// The picture has a cell for each setting, a curve for each choice, the table and the best cost.
#[test]
fn the_picture_of_a_sweep() {
    let folder = folder("picture");
    let (_, path) = race_day(&folder);
    let done = run(&["sweep", &path, "--best", "3040", LISTS[0], LISTS[1]]);
    let [_, walk, _] = advice(&done.out);
    let picture = fs::read_to_string(folder.join("race.box/sweep.html")).unwrap();
    for part in [
        "id=\"heat\"",
        "id=\"flips\"",
        "best known 3,040",
        &walk,
        "Novelty+ 100, LBS",
    ] {
        assert!(picture.contains(part), "{part}");
    }
    assert_eq!(picture.matches("<rect ").count(), 66);
    assert_eq!(picture.matches(" stroke-width=\"2\"").count(), 3);
}

/// Where nothing can be found the sweep says so, and draws nothing.
#[test]
fn a_plan_without_a_solution() {
    let folder = folder("none");
    let path = folder.join("none.txt").display().to_string();
    fs::write(&path, "site a clause a >= 1 clause a <= 0").unwrap();
    let done = run(&["sweep", &path, "--numbers", "40"]);
    assert_eq!(done.code, 1);
    let words = "no settings found a plan: desk plan tells what stands in the way\n";
    assert!(done.out.contains(words), "{}", done.out);
    let picture = fs::read_to_string(folder.join("none.box/sweep.html")).unwrap();
    assert_eq!(picture.matches(">none</text>").count(), 66);
    assert!(picture.contains("No settings found a plan."));
}
