//! A plan in the text form. Reading it again gives the same plan, names and settings.

use crate::names::Names;
use reference::plan::{Clause, Plan, Rule, Term};
use reference::walk::{Settings, LINEAR, SKC};

/// A sum's lines are broken before this column; the word before a sum is short.
const WIDTH: usize = 90;

/// The items with a space between two, on as many lines as they need; all but the first line are
/// indented.
fn lines(items: &[String], indent: usize) -> String {
    let mut text = String::new();
    let mut column = 0;
    for item in items {
        let length = item.chars().count();
        if column > 0 && column + 1 + length > WIDTH {
            text += "\n";
            text += &" ".repeat(indent);
            column = indent;
        } else if column > 0 {
            text += " ";
            column += 1;
        }
        text += item;
        column += length;
    }
    text + "\n"
}

/// `3 ford`, `- bridge`, `+ 2 road`: each term with the sign before it.
fn sum(terms: &[Term], names: &Names) -> Vec<String> {
    let term = |(place, term): (usize, &Term)| {
        let sign = match (place, term.weight < 0) {
            (0, false) => "",
            (0, true) => "-",
            (_, false) => "+ ",
            (_, true) => "- ",
        };
        let size = match term.weight.abs() {
            1 => String::new(),
            size => format!("{size} "),
        };
        format!("{sign}{size}{}", names.called(term.variable))
    };
    terms.iter().enumerate().map(term).collect()
}

/// The rule's sum between the bounds it has.
fn rule(rule: &Rule, names: &Names) -> Vec<String> {
    let sum = sum(&rule.terms, names);
    let (before, behind) = match (rule.lower, rule.upper) {
        (Some(lower), Some(upper)) if lower == upper => (None, Some(format!("= {lower}"))),
        (Some(lower), Some(upper)) => (Some(format!("{lower} <=")), Some(format!("<= {upper}"))),
        (Some(lower), None) => (None, Some(format!(">= {lower}"))),
        (None, Some(upper)) => (None, Some(format!("<= {upper}"))),
        (None, None) => panic!("a rule has a bound"),
    };
    before.into_iter().chain(sum).chain(behind).collect()
}

/// A clause on one line, without the word that begins it; its name, where it has one, comes first.
pub fn clause_at(place: usize, clause: &Clause, names: &Names) -> String {
    match names.clause(place) {
        Some(name) => format!("{name}: {}", self::clause(clause, names)),
        None => self::clause(clause, names),
    }
}

/// A clause's rules on one line.
pub fn clause(clause: &Clause, names: &Names) -> String {
    let rules: Vec<String> = clause
        .rules
        .iter()
        .map(|one| rule(one, names).join(" "))
        .collect();
    rules.join(" or ")
}

/// `variable 7 ford` for each name, `variables 7` for a row of variables without one.
fn variables(names: &Names) -> String {
    let most = names.variables();
    let mut text = String::new();
    for variable in 1..=most {
        match names.own(variable) {
            Some(name) => {
                let word = names.role(variable).word();
                text += &format!("{word} {variable} {name}\n")
            }
            None if variable == most || names.own(variable + 1).is_some() => {
                text += &format!("variables {variable}\n")
            }
            None => {}
        }
    }
    text
}

/// `walk noise 500 tries 10 flips 1000 mode lbs`, and `heuristic novelty 10` where it is not SKC
/// alone.
pub fn walk(settings: &Settings) -> String {
    let Settings {
        noise,
        tries,
        flips,
        mode,
        heuristic,
        chance,
    } = settings;
    let mode = if *mode == LINEAR { "linear" } else { "lbs" };
    let choice = match (*heuristic, *chance) {
        (SKC, 0) => String::new(),
        (SKC, chance) => format!(" heuristic skc {chance}"),
        (_, chance) => format!(" heuristic novelty {chance}"),
    };
    format!("walk noise {noise} tries {tries} flips {flips} mode {mode}{choice}\n")
}

/// The text of a plan, and of the walk's settings where they are known.
pub fn text(plan: &Plan, names: &Names, settings: Option<&Settings>) -> String {
    let mut text = variables(names);
    if !plan.objective.is_empty() {
        text += "minimise ";
        text += &lines(&sum(&plan.objective, names), 4);
    }
    for lock in &plan.locks {
        let (name, value) = (names.called(lock.variable), lock.value as u8);
        text += &format!("lock {name} {value}\n");
    }
    for (place, clause) in plan.clauses.iter().enumerate() {
        text += "clause";
        if let Some(name) = names.clause(place) {
            text += &format!(" {name}:");
        }
        // Several rules stand on lines of their own.
        let alone = clause.rules.len() == 1;
        text += if alone { " " } else { "\n  " };
        for (place, one) in clause.rules.iter().enumerate() {
            text += if place == 0 { "" } else { "  or " };
            text += &lines(&rule(one, names), 6);
        }
    }
    if let Some(settings) = settings {
        text += &walk(settings);
    }
    text
}
