//! From a mapper's two lists to the box's files: what is written, and what is said of a row at fault.

use desk::command::run;
use desk::names::Role;
use desk::read::read_bytes;
use reference::csv::{mapped, LEAST_ROOM};
use reference::file::{parse, parse_settings, write};
use std::fs;
use std::path::{Path, PathBuf};

fn folder(name: &str) -> PathBuf {
    let folder = PathBuf::from(env!("CARGO_TARGET_TMPDIR")).join(format!("map-{name}"));
    let _ = fs::remove_dir_all(&folder);
    fs::create_dir_all(&folder).unwrap();
    folder
}

/// Exit code and what is said, for the example's lists with a row added to each.
fn with_rows(name: &str, site: &str, zone: &str) -> (u8, String) {
    let folder = folder(name);
    let example = Path::new(env!("CARGO_MANIFEST_DIR")).join("../examples/mapper");
    for (file, row) in [("sites.csv", site), ("zones.csv", zone)] {
        let mut list = fs::read(example.join(file)).unwrap();
        list.extend(row.as_bytes());
        fs::write(folder.join(file), list).unwrap();
    }
    let path = |name: &str| folder.join(name).display().to_string();
    let (sites, zones) = (path("sites.csv"), path("zones.csv"));
    let words = folder.display().to_string();
    let done = run(&["map", &sites, &zones, &words, "7", "100"]);
    (done.code, done.err.replace(&(words + "/"), ""))
}

#[test]
fn the_files_of_two_lists() {
    assert_eq!(with_rows("written", "", ""), (0, String::new()));
    let folder = PathBuf::from(env!("CARGO_TARGET_TMPDIR")).join("map-written");
    let file = |name: &str| fs::read(folder.join(name)).unwrap();
    let plan = parse(&file("plan.bin")).unwrap();
    let lists = (file("sites.csv"), file("zones.csv"));
    assert_eq!(Ok(plan.clone()), mapped(&lists.0, &lists.1, LEAST_ROOM));
    assert_eq!(parse_settings(&file("walk.bin")).unwrap().tries, 10);
    assert_eq!(file("numbers.bin").len(), 400);
    let names = String::from_utf8(file("names.txt")).unwrap();
    assert_eq!(names.lines().count(), plan.variables);
    assert_eq!(names.lines().nth(13), Some("51 \"old\""));
    let clauses = String::from_utf8(file("clauses.txt")).unwrap();
    let second = clauses.lines().nth(1);
    assert_eq!(second, Some("crossing, east: 2 to 4 of its sites, or none"));
}

/// The text of the lists is their plan, with names that a text may have; codes that are none stand in
/// comments, and so on the crew's page.
#[test]
fn the_text_of_two_lists() {
    let folder = folder("text");
    let path = |name: &str| folder.join(name).display().to_string();
    let [sites, zones] = ["sites.csv", "zones.csv"].map(path);
    let codes = ["31", "s31", "lock", "x7", "\"a, \"\"b\"\"\"", "--", "north"];
    let rows: Vec<String> = codes
        .iter()
        .map(|code| format!("{code},10,\"w, 1\""))
        .collect();
    fs::write(&sites, rows.join("\r\n")).unwrap();
    fs::write(&zones, "\"w, 1\",2,3,yes\r\n").unwrap();
    let done = run(&["csv", &sites, &zones, &folder.display().to_string()]);
    assert_eq!((done.code, done.err.as_str()), (0, ""));
    let text = read_bytes(&fs::read(path("plan.txt")).unwrap()).unwrap();
    assert_eq!(write(&text.plan), fs::read(path("plan.bin")).unwrap());
    let called: Vec<String> = (1..=7).map(|each| text.names.called(each)).collect();
    assert_eq!(
        called,
        ["s31", "s31-2", "slock", "sx7", "a-b", "s", "north"]
    );
    assert_eq!(
        text.notes,
        ["31", "s31", "lock", "x7", "a, \"b\"", "--", ""]
    );
    assert_eq!(text.names.clause(0), Some("w-1"));
    assert!((1..=7).all(|each| text.names.role(each) == Role::Site));
}

#[test]
fn a_row_at_fault_is_told_with_its_list() {
    for (site, zone, words) in [
        ("90,80", "", "sites.csv, row 31: the row is malformed (51)"),
        (
            "90,1000001,river",
            "",
            "sites.csv, row 31: a number is out of its range (52)",
        ),
        (
            "31,0,river",
            "",
            "sites.csv, row 31: an earlier row has this code or zone (53)",
        ),
        (
            "90,80,meadow",
            "",
            "sites.csv, row 31: the zone list does not have this zone (54)",
        ),
        (
            "",
            "meadow,0,1,no",
            "zones.csv, row 8: no site lies in this zone (55)",
        ),
    ] {
        assert_eq!(
            with_rows("refused", site, zone),
            (1, format!("desk: {words}\n"))
        );
    }
}
