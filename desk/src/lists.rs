//! A mapper's two lists at the desk: their refusals in words, what the screen calls their sites and
//! zones, and their plan as a text, with which the daily loop goes on.

use crate::names::{numbered, Names, Role, RESERVED};
use crate::print;
use reference::csv::{Refusal, Site, Zone};
use reference::plan::Plan;
use std::collections::HashSet;

/// The words of a refusal of the mapper's lists. include/mapper.h and docs/REFUSALS.md have the same.
fn words(number: u32) -> &'static str {
    match number {
        51 => "the row is malformed",
        52 => "a number is out of its range",
        53 => "an earlier row has this code or zone",
        54 => "the zone list does not have this zone",
        55 => "no site lies in this zone",
        _ => "there is no site, or there are more than 512",
    }
}

/// A name on one line.
fn on_a_line(name: &[u8]) -> String {
    String::from_utf8_lossy(name).replace(['\r', '\n'], " ")
}

/// Why lists are turned away.
pub fn refused(paths: [&str; 2], refusal: Refusal) -> String {
    let (number, words) = (refusal.number, words(refusal.number));
    match refusal.list {
        0 => format!("the lists are refused ({number}): {words}"),
        list => {
            let path = paths[list as usize - 1];
            format!("{path}, row {}: {words} ({number})", refusal.row)
        }
    }
}

/// The codes as names and the zones as clauses, a line for each.
pub fn lines(sites: &[Site], zones: &[Zone]) -> [String; 2] {
    let names = sites.iter().map(|site| on_a_line(&site.code) + "\n");
    let clauses = zones.iter().map(|zone| {
        let or = if zone.may_be_empty { ", or none" } else { "" };
        let (name, least, most) = (on_a_line(&zone.name), zone.least, zone.most);
        format!("{name}: {least} to {most} of its sites{or}\n")
    });
    [names.collect(), clauses.collect()]
}

/// A code or zone as a text may call it: letters and digits with hyphens between, and a letter first;
/// one that another has already gets a number behind it.
fn name(letter: char, code: &[u8], taken: &mut HashSet<String>) -> String {
    let code = on_a_line(code);
    let words: Vec<&str> = code
        .split(|c: char| !c.is_alphanumeric())
        .filter(|word| !word.is_empty())
        .collect();
    let mut plain = words.join("-");
    if !plain.starts_with(char::is_alphabetic)
        || RESERVED.contains(&plain.as_str())
        || numbered(&plain).is_some()
    {
        plain = format!("{letter}{plain}");
    }
    let (first, mut more) = (plain.clone(), 2);
    while !taken.insert(plain.clone()) {
        plain = format!("{first}-{more}");
        more += 1;
    }
    plain
}

/// The plan of two lists as a text. A site whose code is no name has the code in a comment.
pub fn text(plan: &Plan, sites: &[Site], zones: &[Zone]) -> String {
    let (mut names, mut taken) = (Names::default(), HashSet::new());
    for site in sites {
        names.push_as(Some(name('s', &site.code, &mut taken)), Role::Site);
    }
    let mut taken = HashSet::new();
    for (place, zone) in zones.iter().enumerate() {
        names.name_clause(place, name('z', &zone.name, &mut taken));
    }
    let text = print::text(plan, &names, None);
    let mut statements = text.lines();
    let mut out = String::from("# From a mapper's lists.\n\n");
    for (place, site) in sites.iter().enumerate() {
        let (statement, code) = (statements.next().unwrap_or_default(), on_a_line(&site.code));
        let shown = names.own(place + 1) == Some(code.as_str());
        out += statement;
        out += &if shown {
            String::new()
        } else {
            format!(" # {code}")
        };
        out += "\n";
    }
    for line in statements {
        out += line;
        out += "\n";
    }
    out
}
