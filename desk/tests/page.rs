//! The crew's page: sites and metres, marshals at each crossing, and what holds there. The race day's
//! rows are worked out by hand from its text and its expected assignment.

use desk::command::run_with;
use desk::page::layout;
use std::fs;
use std::path::{Path, PathBuf};

fn example(name: &str) -> PathBuf {
    Path::new(env!("CARGO_MANIFEST_DIR"))
        .join("../examples")
        .join(name)
}

/// Exit code and page of a report from the program's two lines.
fn page(name: &str, text: &Path, lines: &str) -> (u8, String) {
    let folder = PathBuf::from(env!("CARGO_TARGET_TMPDIR")).join(format!("page-{name}"));
    let _ = fs::remove_dir_all(&folder);
    let (text, words) = (text.display().to_string(), folder.display().to_string());
    let done = run_with(
        &["report", &text, "-", "--folder", &words],
        lines.as_bytes(),
    );
    assert_eq!(done.err, "");
    let file = folder.join("report.html");
    assert_eq!(done.out, format!("the page: {}\n", file.display()));
    (done.code, fs::read_to_string(file).unwrap())
}

/// The cells of the row that begins with this one.
fn row(page: &str, first: &str) -> Vec<String> {
    let start = format!("<tr><td><b>{first}</b>");
    let line = page.lines().find(|line| line.starts_with(&start));
    let line = line.unwrap_or_else(|| panic!("no row of {first}"));
    let inner = line
        .trim_start_matches("<tr><td>")
        .trim_end_matches("</td></tr>");
    inner.split("</td><td>").map(str::to_string).collect()
}

#[test]
fn the_race_day_for_the_crew() {
    let lines = fs::read_to_string(example("race-day/expected.txt")).unwrap();
    let (code, page) = page("race-day", &example("race-day/plan.txt"), &lines);
    assert_eq!(code, 0);
    assert!(page.contains("<h1>Race day on the heath: 32 sites, 4 courses.</h1>"));
    assert!(page.contains("<b id=\"cost\">3,040 metres</b> in all."));
    assert!(page.contains("Every one of the 28 clauses is met."));
    // 40 + 10 + 90 + 320 + 210 + 390 + 540 + 420 + 530 + 880; 30 + 60 + 260 + 460; 0 - 700 - 500.
    for heading in [
        "Sites that get a unit: 10, 3,430 m",
        "Marshals: 4, 810 m",
        "Courses held: 3, -1,200 m",
        "Also chosen: 1, 0 m",
        "Crossings: 3",
    ] {
        assert!(page.contains(&format!("<h2>{heading}</h2>")), "{heading}");
    }
    assert_eq!(
        row(&page, "c31"),
        ["<b>c31</b> <small>boulder</small>", "320"]
    );
    assert_eq!(row(&page, "short"), ["<b>short</b>", "-700"]);
    assert_eq!(
        row(&page, "road")[1..],
        ["2", "2 to 4", "road-b, road-c", "the rule holds"]
    );
    let or = "its 'or' holds: long-by-ford + middle-by-ford &lt;= 0";
    assert_eq!(row(&page, "ford")[1..], ["0", "2 to 4", "", or]);
    let posts = "bridge-a, bridge-d";
    assert_eq!(
        row(&page, "footbridge")[1..],
        ["2", "2 to 4", posts, "the rule holds"]
    );
    assert!(!page.contains("c33") && !page.contains("NOT"));
    // Nothing beside the page is asked for.
    for word in ["http", "src=", "href=", "<script", "@import", "url("] {
        assert!(!page.contains(word), "{word}");
    }
}

/// Post bridge-a is taken back, as in the bundled session: 260 metres less, two clauses unmet.
#[test]
fn what_is_not_met_is_shown() {
    let lines = fs::read_to_string(example("race-day/expected.txt")).unwrap();
    let row_of = lines.lines().nth(1).unwrap();
    let changed = format!("{}0{}", &row_of[..28], &row_of[29..]);
    assert_ne!(changed, row_of);
    let lines = format!("ended 2780 6 5623 15754\n{changed}\n");
    let (code, page) = page("unmet", &example("race-day/plan.txt"), &lines);
    assert_eq!(code, 1);
    let not_met = "<strong>NOT MET</strong>";
    assert_eq!(
        row(&page, "footbridge")[1..],
        ["1", "2 to 4", "bridge-d", not_met]
    );
    assert!(page.contains("<strong>NOT A PLAN:</strong>"));
    for name in ["footbridge", "rescue"] {
        let words = format!("<li>the clause '{name}' on line ");
        assert!(page.contains(&words), "{name}");
    }
    assert!(page.contains("2,780 metres"));
}

/// A plan without roles has one list; what a name or comment holds is shown as it is, and a locked
/// site is marked.
#[test]
fn a_plan_without_roles() {
    let folder = PathBuf::from(env!("CARGO_TARGET_TMPDIR")).join("page-text");
    fs::create_dir_all(&folder).unwrap();
    let text = folder.join("small.txt");
    let words = "variable a # <b> & \"c\"\nvariable b\nlock b 1\nminimise 5 a + 1200 b\nclause a + b >= 2\n";
    fs::write(&text, words).unwrap();
    let (code, page) = page("small", &text, "ended 1205 1 0 1\n11\n");
    assert_eq!(code, 0);
    assert!(page.contains("<h2>Chosen: 2, 1,205 m</h2>"));
    let note = "<b>a</b> <small>&lt;b&gt; &amp; &quot;c&quot;</small>";
    assert_eq!(row(&page, "a"), [note, "5"]);
    assert_eq!(
        row(&page, "b"),
        ["<b>b</b> <small>(fixed)</small>", "1,200"]
    );
    assert!(!page.contains("Crossings"));
}

/// 18 rows in two columns of nine, 3 crossings and 14 lines of headings are 26 lines; 46 of 10 point
/// fit. 512 rows in six columns are 86 lines and 14 more; 116 of 4 point fit, and 93 of 5 do not.
#[test]
fn columns_and_type_that_fit_one_page() {
    assert_eq!(layout(18, 3), (2, 100));
    assert_eq!(layout(512, 0), (6, 40));
    assert_eq!(layout(0, 0), (2, 100));
    // With more to show the type is never larger.
    let sizes: Vec<usize> = (0..=512).map(|rows| layout(rows, rows / 4).1).collect();
    assert!(sizes.windows(2).all(|pair| pair[1] <= pair[0]));
}
