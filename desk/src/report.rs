//! What the desk says about the three files beside their text: sizes, and refusals in plain words.
//! All of it stands in comments, so that what `show` prints can be read again.

use crate::names::Names;
use crate::print;
use reference::file::{
    parse, parse_numbers, parse_settings, Refusal, CLAUSE, MOST_CLAUSES, MOST_RULES, MOST_TERMS,
    MOST_VARIABLES, RULE,
};
use reference::plan::Plan;
use reference::program::MOST_BYTES;

/// The largest plan file in bytes.
pub const MOST_PLAN: usize = 54_446;

/// The buffers of the box, in words of 4 bytes (docs/FORMAT.md). There is room for one clause, one
/// rule and the terms of one rule more than a plan may have.
pub const TABLES: usize = 4
    * (4 + MOST_VARIABLES + 2 * (MOST_CLAUSES + 1) + 5 * (MOST_RULES + 1) + MOST_VARIABLES + ORDER);
pub const TERMS: usize = 4 * 2 * (MOST_TERMS + MOST_VARIABLES);
pub const TALLIES: usize = 4 * ((MOST_RULES + 1) + (MOST_CLAUSES + 1) + 1);

/// The terms by variable: where each run ends, and a word for each term.
const ORDER: usize = (MOST_VARIABLES + 1) + (MOST_TERMS + MOST_VARIABLES);

/// A number as the papers print it: 16,384.
pub fn grouped(number: i64) -> String {
    let digits = number.unsigned_abs().to_string();
    let mut text = String::from(if number < 0 { "-" } else { "" });
    for (place, digit) in digits.chars().enumerate() {
        if place > 0 && (digits.len() - place).is_multiple_of(3) {
            text.push(',');
        }
        text.push(digit);
    }
    text
}

/// `1 clause`, `2 clauses`.
pub fn counted(count: usize, what: &str) -> String {
    let ending = if count == 1 { "" } else { "s" };
    format!("{} {what}{ending}", grouped(count as i64))
}

/// Every refusal in plain words, by its number: those of the files, of the settings, and of what a
/// program lends. include/planner.h and docs/REFUSALS.md have the same words.
pub const REFUSALS: [(u32, &str); 32] = [
    (1, "the file ends in the middle of a field"),
    (2, "a field of this kind may not stand here"),
    (3, "no field of this kind has this length"),
    (
        4,
        "the number of variables is not from 1 to 512, or this is one clause, rule or term too \
         many",
    ),
    (
        5,
        "the variable of a term or lock is not in the plan or not above the one before it, or a \
         coefficient is 0 or beyond 1,000,000 either way",
    ),
    (
        6,
        "a rule's mode is not 1, 2 or 3, a bound is beyond 1,000,000,000 either way, or an \
         absent bound is not written 0",
    ),
    (7, "the file goes on after its end"),
    (8, "the list of numbers ends in the middle of a number"),
    (9, "the file has more than 65,536 bytes"),
    (10, "a lock's value is neither 0 nor 1"),
    (11, "the noise is not from 0 to 1,000"),
    (12, "the number of tries is not from 1 to 1,000"),
    (13, "the number of flips is not from 1 to 1,000,000"),
    (14, "the mode is neither 0 (linear) nor 1 (LBS)"),
    (15, "the heuristic is neither 0 (SKC) nor 1 (Novelty+)"),
    (16, "the walk chance is not from 0 to 1,000"),
    (21, "a buffer is too small"),
    (22, "the tables hold no plan as loading leaves it"),
    (23, "the plan has no such variable"),
    (24, "the assignment has a byte other than 0 and 1"),
    (25, "the tallies are not those of this assignment"),
    (26, "the plan has locked this variable"),
    (31, "this line of the text is no statement of its form"),
    (
        32,
        "a variable is above the text's number of variables, or the constraints are not as many as it says",
    ),
    (33, "the text is longer than the buffer"),
    (41, "the five words of the generator's state are all 0"),
    (42, "the number of runs is not from 1 to 1,000"),
    (43, "the numbers of a run are not from 1 to 16,384"),
    (61, "there is no race, or there are more than 8"),
    (62, "a race's stake is not from 1 to 100"),
    (71, "the plan has locked every variable"),
    (72, "the locks leave a clause with no rule that can be met"),
];

/// What a refusal means.
pub fn plain(number: u32) -> &'static str {
    let refusal = REFUSALS.iter().find(|(each, _)| *each == number);
    refusal.map_or("no refusal has this number", |(_, words)| words)
}

/// Where in a plan an offset lies: the fields before it are in order.
fn place(bytes: &[u8], offset: usize) -> String {
    let (mut clauses, mut rules) = (0, 0);
    let mut at = 0;
    while at < offset {
        match bytes[at] {
            CLAUSE => (clauses, rules) = (clauses + 1, 0),
            RULE => rules += 1,
            _ => {}
        }
        at += 3 + u16::from_le_bytes([bytes[at + 1], bytes[at + 2]]) as usize;
    }
    match (clauses, rules) {
        (0, _) => String::from(", before the first clause"),
        (_, 0) => format!(", at the start of clause {clauses}"),
        _ => format!(", after rule {rules} of clause {clauses}"),
    }
}

/// A refused file in words.
pub fn why(file: &str, refusal: Refusal, place: &str) -> String {
    let Refusal { number, offset } = refusal;
    let words = plain(number);
    format!("{file} is refused: number {number}, offset {offset}{place}: {words}")
}

/// One comment for a refused file.
fn refused(file: &str, refusal: Refusal, place: &str) -> String {
    format!("# {}\n", why(file, refusal, place))
}

/// The comments about an accepted plan file of so many bytes.
pub fn sizes(plan: &Plan, bytes: usize) -> String {
    let rules: Vec<usize> = plan
        .clauses
        .iter()
        .flat_map(|clause| clause.rules.iter().map(|rule| rule.terms.len()))
        .collect();
    let counts = [
        ("variable", plan.variables, MOST_VARIABLES),
        ("clause", plan.clauses.len(), MOST_CLAUSES),
        ("rule", rules.len(), MOST_RULES),
        ("term", rules.iter().sum(), MOST_TERMS),
    ];
    let counts: Vec<String> = counts
        .iter()
        .map(|&(what, count, most)| {
            let (count, most) = (counted(count, what), grouped(most as i64));
            format!("{count} of at most {most}")
        })
        .collect();
    let (file, most) = (counted(bytes, "byte"), grouped(MOST_PLAN as i64));
    let [tables, terms, tallies] = [TABLES, TERMS, TALLIES].map(|size| grouped(size as i64));
    format!(
        "# plan.bin: {file} of at most {most}\n# {}\n\
         # on the box: tables {tables} bytes, terms {terms} bytes, tallies {tallies} bytes, \
         whatever the plan\n",
        counts.join(", "),
    )
}

/// What is shown, and whether each file was accepted.
pub struct Shown {
    pub text: String,
    pub accepted: bool,
}

/// "Any of them above 65,536 bytes gives 9."
pub fn judged<T>(bytes: &[u8], parse: fn(&[u8]) -> Result<T, Refusal>) -> Result<T, Refusal> {
    if bytes.len() > MOST_BYTES {
        return Err(Refusal {
            number: 9,
            offset: 0,
        });
    }
    parse(bytes)
}

/// A plan file as text, then its sizes; the other two files where they are at hand. The names are
/// of as many variables as the plan has.
pub fn show(
    plan: &[u8],
    walk: Option<&[u8]>,
    numbers: Option<&[u8]>,
    names: Option<&Names>,
) -> Shown {
    let (mut text, mut about) = (String::new(), String::new());
    let mut accepted = true;
    match judged(plan, parse) {
        Ok(read) => {
            let unnamed = Names::unnamed(read.variables);
            text += &print::text(&read, names.unwrap_or(&unnamed), None);
            about += &sizes(&read, plan.len());
        }
        Err(refusal) => {
            accepted = false;
            let place = match refusal.number {
                7 | 9 => String::new(),
                _ => place(plan, refusal.offset),
            };
            about += &refused("plan.bin", refusal, &place);
        }
    }
    match walk.map(|walk| judged(walk, parse_settings)) {
        Some(Ok(settings)) => text += &print::walk(&settings),
        Some(Err(refusal)) => {
            accepted = false;
            about += &refused("walk.bin", refusal, "");
        }
        None => {}
    }
    match numbers.map(|numbers| judged(numbers, parse_numbers)) {
        Some(Ok(list)) => about += &format!("# numbers.bin: {}\n", counted(list.len(), "number")),
        Some(Err(refusal)) => {
            accepted = false;
            about += &refused("numbers.bin", refusal, "");
        }
        None => {}
    }
    if !text.is_empty() {
        text.push('\n');
    }
    text += &about;
    Shown { text, accepted }
}
