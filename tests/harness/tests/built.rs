//! The archives and the program under target/ are newer than the code that they are made of: a
//! stale one would be tested in place of the code.

use harness::program::root;
use std::fs;
use std::path::{Path, PathBuf};
use std::time::SystemTime;

fn changed(path: &Path) -> SystemTime {
    let data = fs::metadata(path).unwrap_or_else(|error| panic!("{}: {error}", path.display()));
    data.modified().unwrap()
}

/// The file of some crate's code that was changed last.
fn newest_source() -> PathBuf {
    let crates = fs::read_dir(root().join("crates")).unwrap();
    let sources = crates
        .filter_map(|folder| fs::read_dir(folder.unwrap().path().join("src")).ok())
        .flatten()
        .map(|file| file.unwrap().path())
        .filter(|file| file.extension().is_some_and(|kind| kind == "rt"));
    sources.max_by_key(|file| changed(file)).unwrap()
}

#[test]
fn archives_and_program_are_newer_than_the_code() {
    let source = newest_source();
    for (built, command) in [
        ("target/staticlib/libplanner.a", "tools/build planner"),
        ("target/staticlib/libprobe.a", "tools/build probe"),
        ("target/staticlib/libreplay.a", "tools/build replay"),
        ("target/staticlib/libcsv.a", "tools/build csv"),
        ("target/staticlib/libraces.a", "tools/build races"),
        ("target/bin/tent", "tools/build tent"),
    ] {
        assert!(
            changed(&root().join(built)) >= changed(&source),
            "{built} is older than {}: run `{command}`",
            source.display()
        );
    }
}
