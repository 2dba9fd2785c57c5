//! The documents: every link leads to a file, every name that is said to stand in a file does, and
//! every quoted statement is there line by line.

use desk::command::run;
use std::fs;
use std::path::{Path, PathBuf};

fn root() -> PathBuf {
    Path::new(env!("CARGO_MANIFEST_DIR")).join("..")
}

fn text(path: &Path) -> String {
    fs::read_to_string(path).unwrap_or_else(|error| panic!("{}: {error}", path.display()))
}

/// The pages in these folders.
fn pages() -> Vec<PathBuf> {
    let folders = [
        "",
        "docs",
        "docs/calls",
        "docs/requests",
        "examples/big-race",
        "examples/festival",
        "examples/mapper",
        "examples/race-day",
        "examples/two-sites",
        "tests/vectors",
    ];
    let mut pages: Vec<PathBuf> = folders
        .iter()
        .flat_map(|folder| fs::read_dir(root().join(folder)).unwrap())
        .map(|entry| entry.unwrap().path())
        .filter(|path| path.extension().is_some_and(|kind| kind == "md"))
        .collect();
    pages.sort();
    pages
}

/// A link, and what stands after it.
struct Link<'a> {
    target: &'a str,
    after: &'a str,
}

fn links(page: &str) -> Vec<Link<'_>> {
    let pieces = page
        .match_indices("](")
        .map(|(place, _)| &page[place + 2..]);
    pieces
        .map(|rest| {
            let (target, after) = rest.split_once(')').unwrap();
            Link { target, after }
        })
        .collect()
}

/// The file that a link of a page leads to; None for a place in the page itself or on the net.
fn led_to(page: &Path, target: &str) -> Option<PathBuf> {
    let file = target.split('#').next().unwrap();
    if file.is_empty() || file.contains("://") {
        return None;
    }
    Some(page.parent().unwrap().join(file))
}

/// The names in `a`, `b` and `c` at the start of a text.
fn names(mut after: &str) -> Vec<&str> {
    let mut names = Vec::new();
    while let Some((name, rest)) = after
        .strip_prefix('`')
        .filter(|rest| !rest.starts_with('`'))
        .and_then(|rest| rest.split_once('`'))
    {
        names.push(name);
        let rest = rest.trim_start_matches(',').trim_start();
        after = rest.strip_prefix("and ").unwrap_or(rest).trim_start();
    }
    names
}

/// Whether a file has a name as a word of its own.
fn has(text: &str, name: &str) -> bool {
    let inner = |c: char| c.is_alphanumeric() || c == '-' || c == '_';
    text.match_indices(name).any(|(place, _)| {
        let (before, after) = (&text[..place], &text[place + name.len()..]);
        !before.ends_with(inner) && !after.starts_with(inner)
    })
}

#[test]
fn links_lead_somewhere_and_names_stand_there() {
    let (mut led, mut named) = (0, 0);
    for page in pages() {
        let shown = page.display();
        for Link { target, after } in links(&text(&page)) {
            let Some(file) = led_to(&page, target) else {
                continue;
            };
            assert!(file.exists(), "{shown}: {target} is not there");
            led += 1;
            // "[file](link): `name`, `name`"
            for name in after
                .strip_prefix(':')
                .map_or(Vec::new(), |after| names(after.trim_start()))
            {
                assert!(has(&text(&file), name), "{shown}: {target} has no {name}");
                named += 1;
            }
        }
    }
    assert!(led > 100 && named > 30, "{led} links, {named} names");
}

/// A block of the languages that the repository is written in stands after a link to its file.
#[test]
fn quoted_statements_are_there() {
    let mut quoted = 0;
    for page in pages() {
        let shown = page.display();
        let text_of_page = text(&page);
        let mut parts = text_of_page.split("```");
        let mut before = parts.next().unwrap();
        while let (Some(block), Some(after)) = (parts.next(), parts.next()) {
            let (language, lines) = block.split_once('\n').unwrap();
            if language == "antt" || language == "rattle" {
                let target = links(before)
                    .last()
                    .expect("a link before the block")
                    .target;
                let file = text(&led_to(&page, target).unwrap());
                let there: Vec<&str> = file.lines().map(str::trim).collect();
                for line in lines.lines().map(str::trim).filter(|line| !line.is_empty()) {
                    assert!(
                        there.contains(&line),
                        "{shown}: {target} has no line\n{line}"
                    );
                    quoted += 1;
                }
            }
            before = after;
        }
    }
    assert!(quoted > 20, "{quoted} lines");
}

/// README.md shows what the race day prints, and what its own program does.
#[test]
fn the_lines_shown_are_those_printed() {
    let readme = text(&root().join("README.md"));
    let expected = text(&root().join("examples/race-day/expected.txt"));
    let lines: Vec<&str> = expected.lines().collect();
    assert!(readme.contains(&format!("\n    {}\n    {}\n", lines[0], lines[1])));
    let words: Vec<&str> = lines[0].split(' ').collect();
    let shown = format!(": cost {} after {} flips`", words[1], words[3]);
    assert!(readme.contains(&shown));
}

/// The commands of README.md's section for the planner, run as they stand there, in a folder of this
/// test's own: the first ends with the race day's cost.
#[test]
fn the_commands_at_the_desk() {
    let readme = text(&root().join("README.md"));
    let (_, section) = readme.split_once("\n## At the desk\n").unwrap();
    let (section, _) = section.split_once("\n## ").unwrap();
    let folder = PathBuf::from(env!("CARGO_TARGET_TMPDIR")).join("readme");
    let examples = format!("{}/examples/", root().display());
    let lines = section
        .lines()
        .filter_map(|line| line.strip_prefix("    tests/target/release/desk "));
    let mut outputs = Vec::new();
    for line in lines {
        let words = line.replace("target/race", &folder.display().to_string());
        let words = words.replace("examples/", &examples);
        let done = run(&words.split(' ').collect::<Vec<&str>>());
        assert_eq!(done.code, 0, "{line}: {}", done.err);
        outputs.push(done.out);
    }
    assert_eq!(outputs.len(), 3);
    let expected = text(&root().join("examples/race-day/expected.txt"));
    let cost = expected.split(' ').nth(1).unwrap();
    assert!(section.contains(&format!(
        "ends with `cost {cost}` and `every clause is met`"
    )));
    assert!(outputs[0].contains(&format!("\ncost {cost}\nevery clause is met\n")));
    for name in ["report.html", "sweep.html"] {
        assert!(section.contains(&format!("`target/race/{name}`")));
        assert!(folder.join(name).exists(), "{name}");
    }
}
