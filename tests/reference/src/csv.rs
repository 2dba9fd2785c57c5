//! From the mapper's two lists to a plan (document 02, T-07; RFC 4180, section 2).

use crate::file::{MOST_CLAUSES, MOST_RULES, MOST_TERMS, MOST_VARIABLES};
use crate::plan::{Clause, Plan, Rule, Term};

/// "21, for a plan buffer below 54,446 bytes too, before either."
pub const LEAST_ROOM: usize = 54_446;
pub const MOST_METRES: u32 = 1_000_000;
pub const MOST_SITES: u32 = 512;
/// "A code or zone has 1 to 16 bytes and a number 1 to 7 digits."
pub const LONGEST_NAME: usize = 16;
pub const LONGEST_NUMBER: usize = 7;

/// The lists' numbers in a refusal; 0 stands for neither.
pub const SITES: u32 = 1;
pub const ZONES: u32 = 2;

/// "Sites: code, carry metres, zone."
#[derive(Clone, Debug, PartialEq, Eq)]
pub struct Site {
    pub code: Vec<u8>,
    pub metres: u32,
    pub zone: Vec<u8>,
}

/// "Zones: zone, least, most, and `yes` or `no` for 'may stay empty'."
#[derive(Clone, Debug, PartialEq, Eq)]
pub struct Zone {
    pub name: Vec<u8>,
    pub least: u32,
    pub most: u32,
    pub may_be_empty: bool,
}

/// "Turned away, with list and row from 1".
#[derive(Clone, Copy, Debug, PartialEq, Eq)]
pub struct Refusal {
    pub number: u32,
    pub list: u32,
    pub row: usize,
}

fn refuse<T>(number: u32, list: u32, row: usize) -> Result<T, Refusal> {
    Err(Refusal { number, list, row })
}

/// TEXTDATA = %x20-21 / %x23-2B / %x2D-7E
fn is_text(byte: u8) -> bool {
    matches!(byte, 0x20..=0x21 | 0x23..=0x2B | 0x2D..=0x7E)
}

/// What a field holds, and how many bytes it takes; None where the grammar has no field.
///
/// escaped = DQUOTE *(TEXTDATA / COMMA / CR / LF / 2DQUOTE) DQUOTE, non-escaped = *TEXTDATA
fn field(bytes: &[u8]) -> Option<(Vec<u8>, usize)> {
    if bytes.first() != Some(&b'"') {
        let length = bytes.iter().take_while(|byte| is_text(**byte)).count();
        return Some((bytes[..length].to_vec(), length));
    }
    let mut value = Vec::new();
    let mut place = 1;
    loop {
        match bytes.get(place..)? {
            [b'"', b'"', ..] => {
                value.push(b'"');
                place += 2;
            }
            [b'"', ..] => return Some((value, place + 1)),
            [byte, ..] if is_text(*byte) || b",\r\n".contains(byte) => {
                value.push(*byte);
                place += 1;
            }
            _ => return None,
        }
    }
}

type Record = Vec<Vec<u8>>;

/// record = field *(COMMA field), and what ends it: CRLF or the end of the list. Answers the
/// fields and how many bytes they take with their end.
fn record(bytes: &[u8]) -> Option<(Record, usize)> {
    let mut fields = Vec::new();
    let mut place = 0;
    loop {
        let (value, length) = field(&bytes[place..])?;
        fields.push(value);
        place += length;
        match &bytes[place..] {
            [] => return Some((fields, place)),
            [b'\r', b'\n', ..] => return Some((fields, place + 2)),
            [b',', ..] => place += 1,
            _ => return None,
        }
    }
}

/// The rows of a list: "no headers, and an empty list has no row". A row without a record is None,
/// and the last: what follows it cannot be told.
pub fn rows(mut bytes: &[u8]) -> Vec<Option<Record>> {
    let mut rows = Vec::new();
    while !bytes.is_empty() {
        match record(bytes) {
            None => {
                rows.push(None);
                break;
            }
            Some((fields, length)) => {
                rows.push(Some(fields));
                bytes = &bytes[length..];
            }
        }
    }
    rows
}

fn name(value: &[u8]) -> Option<Vec<u8>> {
    (1..=LONGEST_NAME)
        .contains(&value.len())
        .then(|| value.to_vec())
}

fn number(value: &[u8]) -> Option<u32> {
    let digits = value.iter().all(u8::is_ascii_digit);
    let lawful = digits && (1..=LONGEST_NUMBER).contains(&value.len());
    lawful.then(|| {
        value
            .iter()
            .fold(0, |n, digit| 10 * n + u32::from(digit - b'0'))
    })
}

/// A site of a row: 51 for a malformed row, 52 for a number out of its range.
fn site(row: &Option<Record>) -> Result<Site, u32> {
    let read = || {
        let [code, metres, zone] = &row.as_ref()?[..] else {
            return None;
        };
        Some(Site {
            code: name(code)?,
            metres: number(metres)?,
            zone: name(zone)?,
        })
    };
    let site = read().ok_or(51u32)?;
    if site.metres > MOST_METRES {
        return Err(52);
    }
    Ok(site)
}

fn zone(row: &Option<Record>) -> Result<Zone, u32> {
    let read = || {
        let [zone, least, most, empty] = &row.as_ref()?[..] else {
            return None;
        };
        Some(Zone {
            name: name(zone)?,
            least: number(least)?,
            most: number(most)?,
            may_be_empty: match &empty[..] {
                b"yes" => true,
                b"no" => false,
                _ => return None,
            },
        })
    };
    let zone = read().ok_or(51u32)?;
    if zone.least > MOST_SITES || zone.most > MOST_SITES {
        return Err(52);
    }
    Ok(zone)
}

/// A list's entries, or its first row at fault: 51, 52, then "53 repeated code or zone".
fn entries<T>(
    bytes: &[u8],
    list: u32,
    entry: fn(&Option<Record>) -> Result<T, u32>,
    key: fn(&T) -> &[u8],
) -> Result<Vec<T>, Refusal> {
    let mut entries: Vec<T> = Vec::new();
    for (place, row) in rows(bytes).iter().enumerate() {
        let entry = match entry(row) {
            Ok(entry) => entry,
            Err(number) => return refuse(number, list, place + 1),
        };
        if entries.iter().any(|before| key(before) == key(&entry)) {
            return refuse(53, list, place + 1);
        }
        entries.push(entry);
    }
    Ok(entries)
}

/// The two lists. "54 and then 55 come after both lists": "54 unlisted zone, 55 zone without
/// sites".
pub fn lists(sites: &[u8], zones: &[u8]) -> Result<(Vec<Site>, Vec<Zone>), Refusal> {
    let sites = entries(sites, SITES, site, |site| &site.code)?;
    let zones = entries(zones, ZONES, zone, |zone| &zone.name)?;
    let listed = |site: &Site| zones.iter().any(|zone| zone.name == site.zone);
    if let Some(place) = sites.iter().position(|site| !listed(site)) {
        return refuse(54, SITES, place + 1);
    }
    let used = |zone: &Zone| sites.iter().any(|site| site.zone == zone.name);
    if let Some(place) = zones.iter().position(|zone| !used(zone)) {
        return refuse(55, ZONES, place + 1);
    }
    Ok((sites, zones))
}

/// "One variable per site in file order; the objective is metres, a site with 0 metres having no
/// term. One clause per zone in list order: between least and most sites (mode 3), or, with `yes`,
/// that rule or none at all (mode 2)."
pub fn plan(sites: &[Site], zones: &[Zone]) -> Plan {
    let terms = |weight: &dyn Fn(&Site) -> u32| -> Vec<Term> {
        let weights = sites.iter().map(weight).enumerate();
        let present = weights.filter(|(_, weight)| *weight != 0);
        present
            .map(|(place, weight)| Term {
                variable: place + 1,
                weight: i64::from(weight),
            })
            .collect()
    };
    let clause = |zone: &Zone| {
        let within = terms(&|site| u32::from(site.zone == zone.name));
        let mut rules = vec![Rule {
            lower: Some(i64::from(zone.least)),
            upper: Some(i64::from(zone.most)),
            terms: within.clone(),
        }];
        if zone.may_be_empty {
            rules.push(Rule {
                lower: None,
                upper: Some(0),
                terms: within,
            });
        }
        Clause { rules }
    };
    Plan {
        variables: sites.len(),
        objective: terms(&|site| site.metres),
        locks: Vec::new(),
        clauses: zones.iter().map(clause).collect(),
    }
}

/// The choices of sites that obey the zone list, told without a plan: each zone has between least
/// and most chosen sites, or, where it may stay empty, none.
pub fn obeyed(sites: &[Site], zones: &[Zone], chosen: &[bool]) -> bool {
    zones.iter().all(|zone| {
        let within = sites.iter().zip(chosen);
        let count = within
            .filter(|(site, chosen)| **chosen && site.zone == zone.name)
            .count() as u32;
        (zone.least..=zone.most).contains(&count) || (zone.may_be_empty && count == 0)
    })
}

/// "then, with both 0, 4 when the plan would be too large or has no site."
fn too_large(plan: &Plan) -> bool {
    let rules: Vec<&Rule> = plan.clauses.iter().flat_map(|c| &c.rules).collect();
    let terms: usize = rules.iter().map(|rule| rule.terms.len()).sum();
    plan.variables > MOST_VARIABLES
        || plan.clauses.len() > MOST_CLAUSES
        || rules.len() > MOST_RULES
        || terms > MOST_TERMS
}

/// The plan of two lists for a plan buffer of so many bytes.
pub fn mapped(sites: &[u8], zones: &[u8], room: usize) -> Result<Plan, Refusal> {
    if room < LEAST_ROOM {
        return refuse(21, 0, 0);
    }
    let (sites, zones) = lists(sites, zones)?;
    let plan = plan(&sites, &zones);
    if sites.is_empty() || too_large(&plan) {
        return refuse(4, 0, 0);
    }
    Ok(plan)
}
