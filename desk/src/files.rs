//! The desk's files: texts read, and the box's files written.

use crate::console::{faulty, unable, Stop};
use crate::print::clause_at;
use crate::read::{read_bytes, Text};
use crate::report::counted;
use crate::tokens::Fault;
use reference::file::{write, write_numbers, write_settings};
use reference::plan::Plan;
use reference::program::MOST_BYTES;
use reference::random::Random;
use reference::walk::Settings;
use std::fs;
use std::path::{Path, PathBuf};

/// As many numbers as the box has room for.
pub const MOST_NUMBERS: usize = MOST_BYTES / 4;

/// A file's name, its bytes, and what is said behind its size.
pub type File = (&'static str, Vec<u8>, String);

pub fn bytes_of(path: &Path) -> Result<Vec<u8>, Stop> {
    match fs::read(path) {
        Ok(bytes) => Ok(bytes),
        Err(error) => unable(format!("cannot read {}: {error}", path.display())),
    }
}

/// A fault with the line that has it and a mark below its column.
fn told(path: &str, bytes: &[u8], fault: &Fault) -> String {
    let Fault {
        line,
        column,
        words,
    } = fault;
    let text = String::from_utf8_lossy(bytes);
    let shown = text.lines().nth(line - 1).unwrap_or_default();
    let shown = shown.trim_start_matches('\u{feff}').replace('\t', " ");
    let mark = " ".repeat(column - 1);
    format!("{path}:{line}:{column}: {words}\n    {shown}\n    {mark}^")
}

pub fn text_of(path: &str) -> Result<Text, Stop> {
    let bytes = bytes_of(Path::new(path))?;
    match read_bytes(&bytes) {
        Ok(text) => Ok(text),
        Err(fault) => faulty(told(path, &bytes, &fault)),
    }
}

/// What the screen calls variables and clauses: one line for each.
pub fn names_and_clauses(text: &Text) -> [String; 2] {
    let names = (1..=text.plan.variables).map(|variable| text.names.called(variable) + "\n");
    let clauses = text.plan.clauses.iter().enumerate();
    let clauses = clauses.map(|(place, each)| clause_at(place, each, &text.names) + "\n");
    [names.collect(), clauses.collect()]
}

/// Writes files into a folder, and says which.
pub fn write_all(folder: &Path, files: &[File]) -> Result<String, Stop> {
    let mut out = String::new();
    for (name, bytes, more) in files {
        let file = folder.join(name);
        write_file(&file, bytes)?;
        let size = counted(bytes.len(), "byte");
        out += &format!("wrote {}: {size}{more}\n", file.display());
    }
    Ok(out)
}

pub fn write_file(path: &Path, bytes: &[u8]) -> Result<(), Stop> {
    match fs::write(path, bytes) {
        Ok(()) => Ok(()),
        Err(error) => unable(format!("cannot write {}: {error}", path.display())),
    }
}

pub fn make_folder(path: &Path) -> Result<(), Stop> {
    match fs::create_dir_all(path) {
        Ok(()) => Ok(()),
        Err(error) => unable(format!("cannot make {}: {error}", path.display())),
    }
}

/// The folder that the box gets, where none is named: race.txt's is race.box, beside it.
pub fn box_folder(path: &str, named: &Option<String>) -> PathBuf {
    match named {
        Some(folder) => PathBuf::from(folder),
        None => Path::new(path).with_extension("box"),
    }
}

/// The files of a plan, its settings and its words.
pub fn plan_files(plan: &Plan, settings: &Settings, [names, clauses]: [String; 2]) -> Vec<File> {
    vec![
        ("plan.bin", write(plan), String::new()),
        ("walk.bin", write_settings(settings), String::new()),
        ("names.txt", names.into_bytes(), String::new()),
        ("clauses.txt", clauses.into_bytes(), String::new()),
    ]
}

/// The numbers that a seed gives.
pub fn drawn(seed: u64, count: usize) -> Vec<u32> {
    Random::new(seed).numbers(count)
}

/// The file of numbers drawn from a seed.
pub fn numbers_file(seed: u64, count: usize) -> File {
    let bytes = write_numbers(&drawn(seed, count));
    let more = format!(", {} from seed {seed}", counted(count, "number"));
    ("numbers.bin", bytes, more)
}

/// All five files of a plan.
pub fn five_files(
    plan: &Plan,
    settings: &Settings,
    seed: u64,
    count: usize,
    words: [String; 2],
) -> Vec<File> {
    let mut files = plan_files(plan, settings, words);
    files.insert(2, numbers_file(seed, count));
    files
}
