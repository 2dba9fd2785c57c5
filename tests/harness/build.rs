//! Links the archives that `tools/build` writes. `.ci/run` makes them before it runs these tests.

use std::path::Path;

fn main() {
    let archives = Path::new(env!("CARGO_MANIFEST_DIR")).join("../../target/staticlib");
    println!("cargo:rustc-link-search=native={}", archives.display());
    for name in ["planner", "probe", "replay", "csv", "races"] {
        let archive = archives.join(format!("lib{name}.a"));
        assert!(
            archive.exists(),
            "no {name} archive: run `tools/build {name}` in the repository's root"
        );
        println!("cargo:rustc-link-lib=static={name}");
        println!("cargo:rerun-if-changed={}", archive.display());
    }
}
