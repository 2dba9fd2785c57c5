//! The program: its lines, the order in which its files are judged, and the built program itself.

mod common;

use common::*;
use reference::file::{write, write_numbers, write_settings};
use reference::program::lines;
use reference::random::{program_files, Random};
use std::path::PathBuf;
use std::process::Command;

/// The program's lines for three files.
fn printed(plan: &[u8], walk: &[u8], numbers: &[u8]) -> String {
    lines(Some(plan), Some(walk), Some(numbers))
}

#[test]
fn a_missing_file_is_read_as_empty() {
    let numbers = write_numbers(&EXAMPLE_NUMBERS);
    assert_eq!(lines(None, None, None), "refused 1 0\n");
    assert_eq!(
        lines(None, Some(&EXAMPLE_WALK), Some(&numbers)),
        "refused 1 0\n"
    );
    assert_eq!(lines(Some(&EXAMPLE), None, Some(&numbers)), "refused 1 0\n");
    let answer = "short-none 0 0 0 0\n-\n";
    assert_eq!(lines(Some(&EXAMPLE), Some(&EXAMPLE_WALK), None), answer);
    assert_eq!(printed(&EXAMPLE, &EXAMPLE_WALK, &[]), answer);
}

#[test]
fn sizes_before_all_else() {
    let (full, over) = (vec![0; 65_536], vec![0; 65_537]);
    for (plan, walk, numbers) in [
        (&over, &full, &full),
        (&full, &over, &full),
        (&full, &full, &over),
    ] {
        assert_eq!(printed(plan, walk, numbers), "refused 9 0\n");
    }
    // A full file is judged as any other.
    assert_eq!(printed(&full, &full, &full), "refused 2 0\n");
    assert_eq!(printed(&EXAMPLE, &full, &full), "refused 2 0\n");
    // 16,384 zeros: the first start 00 is not met, each further step needs numbers; one flip at a
    // time the walk tries and fails: 3 numbers.
    let answer = "none 0 0 1 3\n-\n";
    assert_eq!(printed(&EXAMPLE, &EXAMPLE_WALK, &full), answer);
}

#[test]
fn each_file_is_judged_before_the_next() {
    let bad_plan = &EXAMPLE[..49];
    let bad_walk = write_settings(&settings(1_001, 0, 0, 2));
    let odd = [0; 5];
    assert_eq!(printed(bad_plan, &bad_walk, &odd), "refused 1 47\n");
    assert_eq!(printed(&EXAMPLE, &bad_walk, &odd), "refused 11 0\n");
    let bad_walk = write_settings(&settings(1_000, 1, 1, 2));
    assert_eq!(printed(&EXAMPLE, &bad_walk, &odd), "refused 14 0\n");
    let longer = [&bad_walk[..], &[0]].concat();
    assert_eq!(printed(&EXAMPLE, &longer, &odd), "refused 7 12\n");
    assert_eq!(printed(&EXAMPLE, &EXAMPLE_WALK, &odd), "refused 8 0\n");
}

#[test]
fn the_lines_of_an_answer() {
    // Cost and digits of a find below zero, and nothing found.
    let free = write(&plan(3, &[(1, -2), (3, 5)], &[]));
    let walk = write_settings(&settings(0, 1, 1, 0));
    assert_eq!(
        printed(&free, &walk, &write_numbers(&[3])),
        "floor -2 1 0 1\n110\n"
    );
    assert_eq!(
        printed(&free, &walk, &write_numbers(&[5])),
        "short-found 3 1 0 1\n101\n"
    );
    let never = write(&plan(1, &[], &[&[at_least(2, &[(1, 1)])]]));
    assert_eq!(
        printed(&never, &walk, &write_numbers(&[1, 2, 3, 4])),
        "none 0 0 1 3\n-\n"
    );
}

/// The lines of the built program in a folder of its own with these files.
fn run_built(name: &str, files: [Option<&[u8]>; 3]) -> String {
    let folder: PathBuf =
        std::env::temp_dir().join(format!("reference-{}-{name}", std::process::id()));
    std::fs::create_dir_all(&folder).unwrap();
    for (file, bytes) in ["plan.bin", "walk.bin", "numbers.bin"].iter().zip(files) {
        let path = folder.join(file);
        match bytes {
            Some(bytes) => std::fs::write(path, bytes).unwrap(),
            None => drop(std::fs::remove_file(path)),
        }
    }
    let output = Command::new(env!("CARGO_BIN_EXE_reference"))
        .current_dir(&folder)
        .output()
        .unwrap();
    std::fs::remove_dir_all(&folder).unwrap();
    assert!(output.status.success() && output.stderr.is_empty());
    String::from_utf8(output.stdout).unwrap()
}

#[test]
fn the_built_program() {
    let numbers = write_numbers(&EXAMPLE_NUMBERS);
    let example = [
        Some(&EXAMPLE[..]),
        Some(&EXAMPLE_WALK[..]),
        Some(&numbers[..]),
    ];
    assert_eq!(run_built("example", example), "ended 1 2 2 10\n10\n");
    assert_eq!(run_built("missing", [None; 3]), "refused 1 0\n");
    let over = vec![0; 70_000];
    let files = [example[0], example[1], Some(&over[..])];
    assert_eq!(run_built("over", files), "refused 9 0\n");
    let mut random = Random::new(51);
    let (mut answered, mut refused) = (0, 0);
    for _ in 0..60 {
        let [plan, walk, numbers] = program_files(&mut random);
        let lines = printed(&plan, &walk, &numbers);
        let files = [Some(&plan[..]), Some(&walk[..]), Some(&numbers[..])];
        assert_eq!(run_built("random", files), lines);
        match lines.starts_with("refused ") {
            true => refused += 1,
            false => answered += 1,
        }
    }
    assert!(answered > 10 && refused > 5);
}

#[test]
fn a_folder_in_place_of_a_file_is_read_as_empty() {
    let folder = std::env::temp_dir().join(format!("reference-{}-folder", std::process::id()));
    std::fs::create_dir_all(folder.join("plan.bin")).unwrap();
    let output = Command::new(env!("CARGO_BIN_EXE_reference"))
        .current_dir(&folder)
        .output()
        .unwrap();
    std::fs::remove_dir_all(&folder).unwrap();
    assert_eq!(output.stdout, b"refused 1 0\n");
}
