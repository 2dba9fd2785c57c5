//! Links the proved archives where `tools/build` has put them, or in the folder that
//! PLANNER_ARCHIVES names, with the calls of `src/archive.c`. Where they are not there yet the tool is
//! built all the same: it then searches by the reference alone, and says so.

use std::env;
use std::path::{Path, PathBuf};
use std::process::Command;

/// Runs a program of the C toolchain.
fn made(command: &mut Command) {
    let status = command
        .status()
        .unwrap_or_else(|error| panic!("{command:?}: {error}"));
    assert!(status.success(), "{command:?} failed");
}

/// Compiles the calls against the headers, into an archive of their own.
fn compile(root: &Path, out: &Path) {
    let [object, archive] = ["archive.o", "libdeskcalls.a"].map(|name| out.join(name));
    let source = root.join("desk/src/archive.c");
    made(
        Command::new("gcc")
            .args([
                "-std=c99",
                "-O2",
                "-fPIC",
                "-Wall",
                "-Wextra",
                "-Wpedantic",
                "-Wconversion",
            ])
            .args(["-Werror", "-c", "-I"])
            .arg(root.join("include"))
            .arg("-o")
            .args([&object, &source]),
    );
    let _ = std::fs::remove_file(&archive);
    made(Command::new("ar").arg("crs").args([&archive, &object]));
}

fn main() {
    let root = Path::new(env!("CARGO_MANIFEST_DIR")).join("..");
    let out = PathBuf::from(env::var_os("OUT_DIR").expect("cargo gives a folder to write into"));
    let archives = ["planner", "csv"];
    println!("cargo:rerun-if-env-changed=PLANNER_ARCHIVES");
    let folder = match env::var_os("PLANNER_ARCHIVES") {
        Some(folder) => PathBuf::from(folder),
        None => root.join("target/staticlib"),
    };
    let paths = archives.map(|name| folder.join(format!("lib{name}.a")));
    println!("cargo:rustc-check-cfg=cfg(proved)");
    for path in &paths {
        println!("cargo:rerun-if-changed={}", path.display());
    }
    for name in [
        "desk/src/archive.c",
        "include/planner.h",
        "include/mapper.h",
    ] {
        println!("cargo:rerun-if-changed={}", root.join(name).display());
    }
    if !paths.iter().all(|path| path.exists()) {
        println!("cargo:warning=no proved archives yet: this desk searches by the reference");
        return;
    }
    compile(&root, &out);
    println!("cargo:rustc-cfg=proved");
    println!("cargo:rustc-link-search=native={}", out.display());
    println!("cargo:rustc-link-search=native={}", folder.display());
    for name in ["deskcalls", "planner", "csv"] {
        println!("cargo:rustc-link-lib=static={name}");
    }
}
