//! The pages of docs/calls, held to the headers: a page for each call, with its prototype and its
//! refusals, and an example that compiles. And the version, which stands in several places.

use std::collections::BTreeMap;
use std::fs;
use std::path::{Path, PathBuf};
use std::process::Command;

fn root() -> PathBuf {
    Path::new(env!("CARGO_MANIFEST_DIR")).join("..")
}

fn text(name: &str) -> String {
    fs::read_to_string(root().join(name)).unwrap_or_else(|error| panic!("{name}: {error}"))
}

/// Every header that there is.
fn headers() -> Vec<String> {
    let files = fs::read_dir(root().join("include")).unwrap();
    let names = files.map(|file| file.unwrap().file_name().into_string().unwrap());
    names.filter(|name| name.ends_with(".h")).collect()
}

/// With one blank between two words, wherever lines end.
fn in_one_line(text: &str) -> String {
    text.split_whitespace().collect::<Vec<&str>>().join(" ")
}

/// What stands before a bracket: the last word, which is a function's name.
fn name_of(prototype: &str) -> &str {
    let before = prototype.split('(').next().unwrap().trim_end();
    before.rsplit([' ', '*']).next().unwrap()
}

/// The declarations of the headers, calls and inline functions: each begins a line, and ends before
/// ';' or '{'.
fn declared() -> (BTreeMap<String, String>, BTreeMap<String, String>) {
    let (mut calls, mut inline) = (BTreeMap::new(), BTreeMap::new());
    for header in headers() {
        let header = text(&format!("include/{header}"));
        for (place, _) in header.match_indices('\n') {
            let rest = &header[place + 1..];
            let line = rest.lines().next().unwrap_or_default();
            if line.starts_with([' ', '#', '/', '*', '}'])
                || !line.contains("planner_")
                || !line.contains('(')
            {
                continue;
            }
            let end = rest.find([';', '{']).unwrap();
            let whole = in_one_line(&rest[..end]);
            if !name_of(&whole).starts_with("planner_") {
                continue;
            }
            match whole.strip_prefix("static inline ") {
                Some(own) => inline.insert(name_of(own).to_string(), own.to_string()),
                None => calls.insert(name_of(&whole).to_string(), whole.clone()),
            };
        }
    }
    (calls, inline)
}

/// The blocks of C on a page.
fn blocks(page: &str) -> Vec<String> {
    let parts = page.split("```c\n").skip(1);
    parts
        .map(|part| part.split("```").next().unwrap().to_string())
        .collect()
}

#[test]
fn a_page_for_each_call() {
    let (calls, inline) = declared();
    let files = headers().into_iter();
    let headers: String = files
        .map(|header| text(&format!("include/{header}")))
        .collect();
    assert_eq!(
        inline.len(),
        headers
            .matches(
                "
static inline "
            )
            .count()
    );
    assert!(calls.len() >= 12, "{}", calls.len());
    let mut pages: Vec<String> = fs::read_dir(root().join("docs/calls"))
        .unwrap()
        .map(|file| file.unwrap().file_name().into_string().unwrap())
        .filter(|name| name != "README.md")
        .map(|name| name.trim_end_matches(".md").to_string())
        .collect();
    pages.sort();
    assert_eq!(pages, calls.keys().cloned().collect::<Vec<String>>());
    let index = text("docs/calls/README.md");
    for name in calls.keys() {
        let link = format!("[{name}]({name}.md)");
        assert!(index.contains(&link), "{name} is not in the index");
    }
}

/// A page shows its call, and the inline functions that it names, as the headers declare them.
#[test]
fn prototypes_as_they_are() {
    let (calls, inline) = declared();
    for (name, prototype) in &calls {
        let page = text(&format!("docs/calls/{name}.md"));
        assert!(page.starts_with(&format!("# {name}\n")));
        let blocks = blocks(&page);
        let lines: Vec<String> = blocks.iter().map(|block| in_one_line(block)).collect();
        assert!(
            lines.contains(&format!("{prototype};")),
            "{name} has another prototype"
        );
        for block in &lines {
            let shown = block
                .strip_suffix(';')
                .filter(|block| !block.contains(['{', ';']));
            if let Some(shown) = shown.filter(|shown| *shown != prototype) {
                assert_eq!(inline.get(name_of(shown)).map(String::as_str), Some(shown));
            }
        }
    }
}

#[test]
fn every_inline_function_is_on_a_page() {
    let (calls, inline) = declared();
    let mut pages = text("docs/calls/README.md");
    for name in calls.keys() {
        pages += &text(&format!("docs/calls/{name}.md"));
    }
    for name in inline.keys() {
        let there = pages.contains(&format!("`{name}`")) || pages.contains(&format!("{name}("));
        assert!(there, "{name} is on no page");
    }
}

/// The refusals of each call are those that docs/REFUSALS.md lists, in the same words.
#[test]
fn the_refusals_of_each_call() {
    let (calls, _) = declared();
    let refusals = text("docs/REFUSALS.md");
    let mut listed = 0;
    for name in calls.keys() {
        let page = text(&format!("docs/calls/{name}.md"));
        let (_, rest) = page
            .split_once("In the order in which they are tried: ")
            .unwrap();
        let (own, _) = rest.split_once(". [REFUSALS]").unwrap();
        let row = refusals
            .lines()
            .find(|line| line.starts_with(&format!("| `{name}` | ")));
        if let Some(row) = row {
            assert_eq!(row, format!("| `{name}` | {own} |"));
            listed += 1;
        }
    }
    assert!(listed >= 10, "{listed}");
    let lists = text("docs/calls/planner_map_csv.md");
    let order = "21; then the site list row by row, in a row 51, 52, 53; then the zone list likewise; then 54, 55, and 4";
    assert!(lists.contains(order) && refusals.contains(&format!("Order: {order}.")));
}

#[test]
fn every_example_compiles() {
    let (calls, _) = declared();
    let folder = PathBuf::from(env!("CARGO_TARGET_TMPDIR"));
    for name in calls.keys() {
        let page = text(&format!("docs/calls/{name}.md"));
        let blocks = blocks(&page);
        let example = blocks.last().unwrap();
        assert!(example.starts_with("#include \"") && example.contains(&name[..7]));
        let source = folder.join(format!("{name}.c"));
        fs::write(&source, example).unwrap();
        let compiled = Command::new("gcc")
            .args([
                "-std=c11",
                "-Wall",
                "-Wextra",
                "-Wpedantic",
                "-Werror",
                "-fsyntax-only",
                "-I",
            ])
            .arg(root().join("include"))
            .arg(&source)
            .status()
            .expect("gcc");
        assert!(compiled.success(), "the example of {name}");
    }
}

/// One version: in the header as words and as a number, at the top of the changelog, and at the desk.
#[test]
fn one_version() {
    let header = text("include/planner.h");
    let after = |text: &str, words: &str| {
        let (_, rest) = text
            .split_once(words)
            .unwrap_or_else(|| panic!("no {words}"));
        rest.lines().next().unwrap().to_string()
    };
    let version = after(&header, "#define PLANNER_VERSION ");
    let version = version.trim_matches('"');
    assert_eq!(version, desk::command::VERSION);
    let parts: Vec<u32> = version
        .split('.')
        .map(|part| part.parse().unwrap())
        .collect();
    let [first, second, third] = parts[..] else {
        panic!("{version}");
    };
    let number: u32 = after(&header, "#define PLANNER_VERSION_NUMBER ")
        .parse()
        .unwrap();
    assert_eq!(number, 10_000 * first + 100 * second + third);
    assert_eq!(after(&text("CHANGELOG.md"), "\n## "), version);
    assert!(text("desk/Cargo.toml").contains(&format!("\nversion = \"{version}\"\n")));
}
