//! Every refusal has one name and the same words in include/planner.h, in docs/REFUSALS.md and at
//! the desk.

use desk::report::{plain, REFUSALS};
use std::collections::BTreeMap;
use std::fs;
use std::path::{Path, PathBuf};
use std::process::Command;

fn root() -> PathBuf {
    Path::new(env!("CARGO_MANIFEST_DIR")).join("..")
}

fn text(name: &str) -> String {
    fs::read_to_string(root().join(name)).unwrap()
}

/// The enumerators of the header with their numbers.
fn enumerators() -> BTreeMap<u32, String> {
    let header = text("include/planner.h");
    let (_, rest) = header.split_once("enum planner_refusal {").unwrap();
    let (inner, _) = rest.split_once("};").unwrap();
    inner
        .lines()
        .filter_map(|line| line.trim().strip_prefix("PLANNER_"))
        .map(|line| {
            let (name, rest) = line.split_once(" = ").unwrap();
            let digits: String = rest.chars().take_while(char::is_ascii_digit).collect();
            (digits.parse().unwrap(), format!("PLANNER_{name}"))
        })
        .collect()
}

/// The words that the header has for each number below 100, as a C program prints them.
fn words_in_c() -> Vec<String> {
    let folder = PathBuf::from(env!("CARGO_TARGET_TMPDIR"));
    let [source, built] = ["refusals.c", "refusals"].map(|name| folder.join(name));
    let program = "#include \"planner.h\"\n#include <stdio.h>\nint main(void) {\n\
        for (uint32_t i = 0; i < 100; i++) puts(planner_refusal_text(i));\n return 0;\n}\n";
    fs::write(&source, program).unwrap();
    let compiled = Command::new("gcc")
        .arg("-I")
        .arg(root().join("include"))
        .arg("-o")
        .args([&built, &source])
        .status()
        .expect("gcc");
    assert!(compiled.success());
    let output = Command::new(&built).output().unwrap();
    let printed = String::from_utf8(output.stdout).unwrap();
    printed.lines().map(str::to_string).collect()
}

/// Number, name and words of each row of the page's first table.
fn rows() -> Vec<(u32, String, String)> {
    let page = text("docs/REFUSALS.md");
    let table = page.lines().skip_while(|line| !line.starts_with("|---"));
    table
        .skip(1)
        .take_while(|line| line.starts_with('|'))
        .map(|line| {
            let cells: Vec<&str> = line.trim_matches('|').split('|').map(str::trim).collect();
            let [number, name, words, cause, remedy] = cells[..] else {
                panic!("{line}");
            };
            assert!(!cause.is_empty() && !remedy.is_empty());
            let name = name.trim_matches('`').to_string();
            (number.parse().unwrap(), name, words.to_string())
        })
        .collect()
}

#[test]
fn one_name_and_the_same_words_everywhere() {
    let names = enumerators();
    let words = words_in_c();
    assert_eq!(words[0], "accepted");
    for (number, words) in words.iter().enumerate().skip(1) {
        assert_eq!(words, plain(number as u32), "{number}");
    }
    // 0 is no refusal.
    assert_eq!(names.len(), 1 + REFUSALS.len());
    let table: Vec<(u32, String, String)> = REFUSALS
        .iter()
        .map(|&(number, words)| (number, names[&number].clone(), words.to_string()))
        .collect();
    assert_eq!(rows(), table);
}
