//! `desk report`: a page for the crew to print. Which sites get a unit and how far each is carried,
//! how many marshals stand at each crossing, and whether its rule or its 'or' holds there.

use crate::chosen::unmet;
use crate::command::told_assignment;
use crate::console::{Console, Stop};
use crate::daily::{search, searched_by, settings_for, warn, Job};
use crate::files::{make_folder, write_file};
use crate::html::{escaped, page as whole_page, table};
use crate::names::Role;
use crate::options::Options;
use crate::print;
use crate::read::Text;
use crate::report::grouped;
use crate::screen::ending;
use reference::plan::{value, Clause, Rule};

/// What is known of a found plan.
pub struct Report<'a> {
    pub text: &'a Text,
    pub assignment: &'a [bool],
    /// How it was found, in plain words.
    pub how: &'a str,
}

/// A list of so many rows is not broken over columns.
const SHORT: usize = 12;

/// The chosen variables of a role.
fn chosen_of(report: &Report, role: Role) -> Vec<usize> {
    let variables = 1..=report.text.plan.variables;
    let chosen = variables.filter(|&each| value(report.assignment, each));
    chosen
        .filter(|&each| report.text.names.role(each) == role)
        .collect()
}

/// What a variable adds to the cost.
fn metres(text: &Text, variable: usize) -> i64 {
    let mut terms = text.plan.objective.iter();
    let term = terms.find(|term| term.variable == variable);
    term.map_or(0, |term| term.weight)
}

/// A name with what the text's comment says of it, and whether the mapper has fixed it.
fn described(text: &Text, variable: usize) -> String {
    let name = escaped(&text.names.called(variable));
    let note = match text.notes[variable - 1].as_str() {
        "" => String::new(),
        note => format!(" <small>{}</small>", escaped(note)),
    };
    let fixed = if text.plan.lock(variable).is_some() {
        " <small>(fixed)</small>"
    } else {
        ""
    };
    format!("<b>{name}</b>{note}{fixed}")
}

/// One role's chosen variables with their metres, under a heading; empty where there are none.
fn section(report: &Report, role: Role, heading: &str) -> String {
    let chosen = chosen_of(report, role);
    if chosen.is_empty() {
        return String::new();
    }
    let rows: Vec<Vec<String>> = chosen
        .iter()
        .map(|&each| {
            vec![
                described(report.text, each),
                grouped(metres(report.text, each)),
            ]
        })
        .collect();
    let sum: i64 = chosen.iter().map(|&each| metres(report.text, each)).sum();
    let (count, sum) = (chosen.len(), grouped(sum));
    let table = table("chosen", &["", "metres"], &rows);
    // A short list stays in one column.
    let class = if count <= SHORT { "short" } else { "long" };
    format!("<section class=\"{class}\"><h2>{heading}: {count}, {sum} m</h2>\n{table}</section>\n")
}

/// A clause is a crossing where it has an 'or', and its first rule says between how many and how
/// many.
pub fn is_crossing(clause: &Clause) -> bool {
    let two = |rule: &Rule| matches!((rule.lower, rule.upper), (Some(l), Some(u)) if l != u);
    clause.rules.len() > 1 && clause.rules.first().is_some_and(two)
}

/// What holds at a crossing: its rule, one of the rules behind its 'or', or nothing.
fn what_holds(report: &Report, clause: &Clause) -> String {
    match clause
        .rules
        .iter()
        .position(|rule| rule.holds(report.assignment))
    {
        Some(0) => "the rule holds".to_string(),
        Some(place) => {
            let own = Clause {
                rules: vec![clause.rules[place].clone()],
            };
            let words = print::clause(&own, &report.text.names);
            format!("its 'or' holds: {}", escaped(&words))
        }
        None => "<strong>NOT MET</strong>".to_string(),
    }
}

/// One crossing: its name, how many marshals it has, how many it may have, who they are and what
/// holds.
fn crossing(report: &Report, place: usize, clause: &Clause) -> Vec<String> {
    let (text, rule) = (report.text, &clause.rules[0]);
    let name = match text.names.clause(place) {
        Some(name) => name.to_string(),
        None => format!("line {}", text.lines[place]),
    };
    let there = rule
        .terms
        .iter()
        .filter(|term| value(report.assignment, term.variable));
    let names: Vec<String> = there
        .clone()
        .map(|term| text.names.called(term.variable))
        .collect();
    let sum: i64 = there.map(|term| term.weight).sum();
    let bound = |bound: Option<i64>| bound.map_or(String::new(), grouped);
    vec![
        format!("<b>{}</b>", escaped(&name)),
        sum.to_string(),
        format!("{} to {}", bound(rule.lower), bound(rule.upper)),
        escaped(&names.join(", ")),
        what_holds(report, clause),
    ]
}

/// The crossings' table; empty where there are none.
fn crossings(report: &Report) -> String {
    let clauses = report.text.plan.clauses.iter().enumerate();
    let rows: Vec<Vec<String>> = clauses
        .filter(|(_, clause)| is_crossing(clause))
        .map(|(place, clause)| crossing(report, place, clause))
        .collect();
    if rows.is_empty() {
        return String::new();
    }
    let headings = ["crossing", "marshals", "asked", "posts", "what holds"];
    format!(
        "<h2>Crossings: {}</h2>\n{}",
        rows.len(),
        table("crossings", &headings, &rows)
    )
}

/// Whether every clause is met, and which are not.
fn verdict(report: &Report) -> String {
    let count = report.text.plan.clauses.len();
    match unmet(report.text, report.assignment).as_str() {
        "" => format!("<p>Every one of the {count} clauses is met.</p>\n"),
        lines => {
            let items: String = lines
                .lines()
                .map(|line| format!("<li>{}</li>\n", escaped(line)))
                .collect();
            format!("<p><strong>NOT A PLAN:</strong></p>\n<ul>\n{items}</ul>\n")
        }
    }
}

/// Columns and the size of type, in tenths of a point, with which so many rows and crossings fit on
/// one page of A4: 700 points are left for them, and a row takes one and a half of its type.
pub fn layout(rows: usize, crossings: usize) -> (usize, usize) {
    let sizes = [
        (2, 100),
        (2, 90),
        (3, 80),
        (3, 70),
        (4, 60),
        (5, 50),
        (6, 40),
        (8, 30),
    ];
    let fits = |&(columns, size): &(usize, usize)| {
        let lines = 70_000 / (15 * size);
        rows.div_ceil(columns) + crossings + 14 <= lines
    };
    sizes.into_iter().find(fits).unwrap_or((8, 25))
}

fn style(report: &Report) -> String {
    let rows = report.assignment.iter().filter(|&&bit| bit).count();
    let clauses = report.text.plan.clauses.iter();
    let crossings = clauses.filter(|clause| is_crossing(clause)).count();
    let (columns, size) = layout(rows, crossings);
    let size = size as f64 / 10.0;
    format!(
        "@page {{ size: A4; margin: 12mm; }}\n\
         body {{ font: {size}pt/1.3 sans-serif; color: #000; max-width: 186mm; margin: auto; }}\n\
         h1 {{ font-size: 1.5em; margin: 0 0 .2em; }} h2 {{ font-size: 1.1em; margin: .6em 0 .1em; }}\n\
         p {{ margin: .2em 0; }} small {{ color: #444; }}\n\
         .columns {{ columns: {columns}; column-gap: 8mm; }}\n\
         .short, tr {{ break-inside: avoid; }} h2 {{ break-after: avoid; }}\n\
         table {{ border-collapse: collapse; width: 100%; }}\n\
         td, th {{ padding: 0 .4em; text-align: left; border-bottom: .3pt solid #bbb; vertical-align: top; }}\n\
         .chosen td:last-child, .chosen th:last-child {{ text-align: right; }}\n\
         strong {{ color: #b00000; }}\n"
    )
}

/// The page's heading: what the text's first comment says, or the plan's name.
fn title(report: &Report, path: &str) -> String {
    match report.text.title.as_str() {
        "" => path.to_string(),
        title => title.to_string(),
    }
}

/// What is chosen, role by role.
fn sections(report: &Report) -> String {
    let variables = 1..=report.text.plan.variables;
    let told_apart = variables
        .into_iter()
        .any(|each| report.text.names.role(each) != Role::Variable);
    let others = if told_apart { "Also chosen" } else { "Chosen" };
    let roles = [
        (Role::Site, "Sites that get a unit"),
        (Role::Marshal, "Marshals"),
        (Role::Course, "Courses held"),
        (Role::Variable, others),
    ];
    let sections = roles.iter();
    sections
        .map(|&(role, heading)| section(report, role, heading))
        .collect()
}

/// The whole page.
pub fn page(report: &Report, path: &str) -> String {
    let title = title(report, path);
    let cost = grouped(report.text.plan.cost(report.assignment));
    let sections = sections(report);
    let body = format!(
        "<h1>{}</h1>\n<p><b id=\"cost\">{cost} metres</b> in all. {}</p>\n{}\
         <div class=\"columns\">\n{sections}</div>\n{}",
        escaped(&title),
        escaped(report.how),
        verdict(report),
        crossings(report),
    );
    whole_page(&title, &style(report), &body)
}

/// The assignment that is reported, and how it was found; None where nothing was found.
fn found(
    job: &Job,
    words: Option<&str>,
    console: &mut Console,
) -> Result<Option<(Vec<bool>, String)>, Stop> {
    if words == Some("-") {
        let (how, assignment) = told_assignment(&job.text, &console.read()?)?;
        return Ok(Some((assignment, how.trim_end().to_string())));
    }
    let mut planner = job.planner();
    let settings = settings_for(job, &mut planner, console)?;
    console.say(&job.write(&settings)?);
    let found = search(job, &mut planner, &settings, console)?;
    console.say(searched_by(job.check));
    let (seed, how) = (job.seed, ending(found.ending));
    let line = print::walk(&settings);
    let how = format!("Seed {seed}, {}: {how}.", line.trim_end());
    Ok(found.assignment.map(|assignment| (assignment, how)))
}

/// `desk report PLAN.txt [SEED | -]`. Exit code 1 where there is no plan.
pub fn report(
    path: &str,
    words: Option<&str>,
    options: &Options,
    console: &mut Console,
) -> Result<u8, Stop> {
    let seed = words.filter(|&words| words != "-");
    let job = Job::new(path, seed, options)?;
    warn(&job.text, console);
    let Some((assignment, how)) = found(&job, words, console)? else {
        console.say(
            "no plan was found, and no page is written; desk plan tells what stands in the way\n",
        );
        return Ok(1);
    };
    let report = Report {
        text: &job.text,
        assignment: &assignment,
        how: &how,
    };
    make_folder(&job.folder)?;
    let file = job.folder.join("report.html");
    write_file(&file, page(&report, path).as_bytes())?;
    let right = job.text.plan.satisfied(&assignment) && job.text.plan.obeyed(&assignment);
    console.say(&format!("the page: {}\n", file.display()));
    Ok(!right as u8)
}
