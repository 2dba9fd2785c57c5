//! The program target/bin/tent, run in folders of its own.

use reference::program::lines;
use std::fs;
use std::path::{Path, PathBuf};
use std::process::{Command, Stdio};
use std::sync::atomic::{AtomicUsize, Ordering};

pub const NAMES: [&str; 3] = ["plan.bin", "walk.bin", "numbers.bin"];

/// The three files; None is one that is not there.
pub type Files = [Option<Vec<u8>>; 3];

/// The repository's root.
pub fn root() -> PathBuf {
    Path::new(env!("CARGO_MANIFEST_DIR")).join("../..")
}

/// What a C program over the headers prints, compiled by this standard.
pub fn printed_by_c(standard: &str, program: &str) -> String {
    let folder = Folder::empty();
    let [source, built] = ["main.c", "main"].map(|name| folder.0.join(name));
    fs::write(&source, program).unwrap();
    let compiled = Command::new("gcc")
        .args([standard, "-Wall", "-Wextra", "-Werror", "-I"])
        .arg(root().join("include"))
        .arg("-o")
        .args([&built, &source])
        .status()
        .expect("gcc");
    assert!(compiled.success());
    let output = Command::new(&built).output().unwrap();
    assert!(output.status.success());
    String::from_utf8(output.stdout).unwrap()
}

/// A temporary folder, removed when it is dropped.
pub struct Folder(pub PathBuf);

impl Folder {
    /// An empty folder.
    pub fn empty() -> Folder {
        static MADE: AtomicUsize = AtomicUsize::new(0);
        let made = MADE.fetch_add(1, Ordering::Relaxed);
        let name = format!("tent-{}-{made}", std::process::id());
        let folder = Folder(std::env::temp_dir().join(name));
        fs::create_dir(&folder.0).unwrap();
        folder
    }

    /// A folder with these files.
    pub fn new(files: &Files) -> Folder {
        let folder = Folder::empty();
        for (name, bytes) in NAMES.iter().zip(files) {
            if let Some(bytes) = bytes {
                fs::write(folder.0.join(name), bytes).unwrap();
            }
        }
        folder
    }
}

impl Drop for Folder {
    fn drop(&mut self) {
        let _ = fs::remove_dir_all(&self.0);
    }
}

/// All that the program prints in a folder.
pub fn printed(folder: &Path) -> String {
    let program = root().join("target/bin/tent");
    assert!(
        program.exists(),
        "no target/bin/tent: run `tools/build tent` in the repository's root"
    );
    let output = Command::new(program)
        .current_dir(folder)
        .stdin(Stdio::null())
        .output()
        .unwrap();
    assert!(output.status.success(), "{}", output.status);
    assert_eq!(String::from_utf8_lossy(&output.stderr), "");
    String::from_utf8(output.stdout).unwrap()
}

/// A file's start, for the message of a failure.
fn start(file: &Option<Vec<u8>>) -> String {
    match file {
        Some(bytes) => format!("{} bytes {:?}", bytes.len(), &bytes[..bytes.len().min(400)]),
        None => "missing".to_string(),
    }
}

/// What the reference prints.
pub fn wanted(files: &Files) -> String {
    let [plan, walk, numbers] = files.each_ref().map(Option::as_deref);
    lines(plan, walk, numbers)
}

/// Runs the program on these files and compares what it prints with the reference.
#[track_caller]
pub fn check_files(files: &Files) -> String {
    let wanted = wanted(files);
    let printed = printed(&Folder::new(files).0);
    assert!(
        printed == wanted,
        "printed {printed:?}, wanted {wanted:?}\n{}",
        files.each_ref().map(start).join("\n")
    );
    printed
}
