//! The plan file, walk.bin and numbers.bin (document 01, "The plan file", "Who can cause which
//! refusal" and "The program and its two lines"; document 02, T-01).

use crate::plan::{Clause, Lock, Plan, Rule, Term};
use crate::walk::{Settings, SKC};

pub const MOST_VARIABLES: usize = 512;
pub const MOST_CLAUSES: usize = 512;
pub const MOST_RULES: usize = 1_024;
pub const MOST_TERMS: usize = 6_000;
pub const MOST_WEIGHT: i64 = 1_000_000;
pub const MOST_BOUND: i64 = 1_000_000_000;

pub const COUNT: u8 = 1;
pub const OBJECTIVE: u8 = 2;
pub const CLAUSE: u8 = 3;
pub const RULE: u8 = 4;
pub const END: u8 = 5;
pub const LOCKS: u8 = 6;
pub const WALK: u8 = 16;

/// "The answer carries the number and the offset of the field's first byte."
#[derive(Clone, Copy, Debug, PartialEq, Eq)]
pub struct Refusal {
    pub number: u32,
    pub offset: usize,
}

fn refuse<T>(number: u32, offset: usize) -> Result<T, Refusal> {
    Err(Refusal { number, offset })
}

/// "A field is taken apart into tag, body and next place."
struct Field<'a> {
    tag: u8,
    body: &'a [u8],
    next: usize,
}

/// The lengths of the table.
fn lawful_length(tag: u8, length: usize) -> bool {
    match tag {
        COUNT => length == 2,
        OBJECTIVE => length.is_multiple_of(6),
        CLAUSE | END => length == 0,
        // "Length a multiple of 3 or 0."
        LOCKS => length.is_multiple_of(3),
        RULE => length >= 15 && (length - 9).is_multiple_of(6),
        WALK => length == 9 || length == 12,
        _ => false,
    }
}

/// The field at a place where only some tags may stand. "In a field: 1 for the head, 2, 3, 1 for
/// the body."
fn field<'a>(bytes: &'a [u8], place: usize, tags: &[u8]) -> Result<Field<'a>, Refusal> {
    let left = &bytes[place..];
    if left.len() < 3 {
        return refuse(1, place);
    }
    let tag = left[0];
    if !tags.contains(&tag) {
        return refuse(2, place);
    }
    let length = unsigned16(&left[1..]);
    if !lawful_length(tag, length) {
        return refuse(3, place);
    }
    if left.len() - 3 < length {
        return refuse(1, place);
    }
    Ok(Field {
        tag,
        body: &left[3..3 + length],
        next: place + 3 + length,
    })
}

/// "All numbers are little-endian; coefficients and bounds are signed 32-bit, the rest unsigned."
fn unsigned16(bytes: &[u8]) -> usize {
    u16::from_le_bytes([bytes[0], bytes[1]]) as usize
}

fn unsigned32(bytes: &[u8]) -> u32 {
    u32::from_le_bytes([bytes[0], bytes[1], bytes[2], bytes[3]])
}

fn signed32(bytes: &[u8]) -> i64 {
    i32::from_le_bytes([bytes[0], bytes[1], bytes[2], bytes[3]]) as i64
}

/// "5: a term's variable outside 1 to n or not above the one before, or a coefficient 0 or outside
/// ±1,000,000." From left to right.
fn terms(bytes: &[u8], variables: usize, offset: usize) -> Result<Vec<Term>, Refusal> {
    let mut terms: Vec<Term> = Vec::new();
    for entry in bytes.chunks(6) {
        let (variable, weight) = (unsigned16(entry), signed32(&entry[2..]));
        let before = terms.last().map_or(0, |term| term.variable);
        if variable <= before || variable > variables {
            return refuse(5, offset);
        }
        if weight == 0 || weight.abs() > MOST_WEIGHT {
            return refuse(5, offset);
        }
        terms.push(Term { variable, weight });
    }
    Ok(terms)
}

/// "Entries of a variable number and a byte 0 or 1": "5 for a wrong number as in terms, 10 for
/// another value (after 5 of that entry)". Entry by entry, so that an entry's 10 comes before the
/// next one's 5.
fn locks(bytes: &[u8], variables: usize, offset: usize) -> Result<Vec<Lock>, Refusal> {
    let mut locks: Vec<Lock> = Vec::new();
    for entry in bytes.chunks(3) {
        let variable = unsigned16(entry);
        let before = locks.last().map_or(0, |lock| lock.variable);
        if variable <= before || variable > variables {
            return refuse(5, offset);
        }
        let value = match entry[2] {
            0 => false,
            1 => true,
            _ => return refuse(10, offset),
        };
        locks.push(Lock { variable, value });
    }
    Ok(locks)
}

/// "6: mode outside 1 to 3, a bound outside ±1,000,000,000, an absent bound not 0." Mode 1 is lower
/// only, 2 upper only, 3 both.
fn bounds(body: &[u8], offset: usize) -> Result<(Option<i64>, Option<i64>), Refusal> {
    let (mode, lower, upper) = (body[0], signed32(&body[1..]), signed32(&body[5..]));
    if lower.abs() > MOST_BOUND || upper.abs() > MOST_BOUND {
        return refuse(6, offset);
    }
    match mode {
        1 if upper == 0 => Ok((Some(lower), None)),
        2 if lower == 0 => Ok((None, Some(upper))),
        3 => Ok((Some(lower), Some(upper))),
        _ => refuse(6, offset),
    }
}

/// The plan of a file. "The first field at fault decides", and in a field the order is "1 for the
/// head, 2, 3, 1 for the body, 4, 6, then 5". An empty field of locks and none are the same plan.
pub fn parse(bytes: &[u8]) -> Result<Plan, Refusal> {
    let mut plan = Plan {
        variables: 0,
        objective: Vec::new(),
        locks: Vec::new(),
        clauses: Vec::new(),
    };
    let (mut rules, mut rule_terms) = (0, 0);
    let mut place = 0;
    // "Order: 01, 02, then clauses, each 03 followed by one or more 04, then 05." "The plan file
    // gains an optional field, tag 06, between objective and first clause": there may be no clause.
    let mut tags: &[u8] = &[COUNT];
    loop {
        let Field { tag, body, next } = field(bytes, place, tags)?;
        match tag {
            COUNT => {
                plan.variables = unsigned16(body);
                if !(1..=MOST_VARIABLES).contains(&plan.variables) {
                    return refuse(4, place);
                }
                tags = &[OBJECTIVE];
            }
            OBJECTIVE => {
                plan.objective = terms(body, plan.variables, place)?;
                tags = &[LOCKS, CLAUSE, END];
            }
            LOCKS => {
                plan.locks = locks(body, plan.variables, place)?;
                tags = &[CLAUSE, END];
            }
            CLAUSE => {
                if plan.clauses.len() == MOST_CLAUSES {
                    return refuse(4, place);
                }
                plan.clauses.push(Clause { rules: Vec::new() });
                tags = &[RULE];
            }
            RULE => {
                rules += 1;
                rule_terms += (body.len() - 9) / 6;
                if rules > MOST_RULES || rule_terms > MOST_TERMS {
                    return refuse(4, place);
                }
                let (lower, upper) = bounds(body, place)?;
                let terms = terms(&body[9..], plan.variables, place)?;
                let clause = plan.clauses.last_mut().expect("a rule stands in a clause");
                clause.rules.push(Rule {
                    lower,
                    upper,
                    terms,
                });
                tags = &[CLAUSE, RULE, END];
            }
            _ => {
                // The end field: "7: bytes after the end field; the offset is the first of them."
                if next < bytes.len() {
                    return refuse(7, next);
                }
                return Ok(plan);
            }
        }
        place = next;
    }
}

/// The settings of walk.bin: "one field, tag 16, length 9: noise 2 bytes, tries 2, flips 4, mode
/// 1"; it "meets 1, 2, 3 and 7 with offsets as a plan does, then 11 to 14". "Walk.bin may have length
/// 12, with a heuristic byte (0 SKC, 1 this) and a two-byte walk chance; length 9 means SKC."
pub fn parse_settings(bytes: &[u8]) -> Result<Settings, Refusal> {
    let Field { body, next, .. } = field(bytes, 0, &[WALK])?;
    if next < bytes.len() {
        return refuse(7, next);
    }
    let settings = Settings {
        noise: unsigned16(body) as u32,
        tries: unsigned16(&body[2..]) as u32,
        flips: unsigned32(&body[4..]),
        mode: body[8] as u32,
        heuristic: body.get(9).map_or(SKC, |&byte| byte as u32),
        chance: body.get(10..).map_or(0, |rest| unsigned16(rest) as u32),
    };
    match settings.refusal() {
        Some(number) => refuse(number, 0),
        None => Ok(settings),
    }
}

/// The list of numbers.bin: "8 when its length is no multiple of 4".
pub fn parse_numbers(bytes: &[u8]) -> Result<Vec<u32>, Refusal> {
    if !bytes.len().is_multiple_of(4) {
        return refuse(8, 0);
    }
    Ok(bytes.chunks(4).map(unsigned32).collect())
}

/// A field's bytes, whatever tag and body.
pub fn write_field(tag: u8, body: &[u8]) -> Vec<u8> {
    let length = u16::try_from(body.len()).expect("a body's length has two bytes");
    let mut bytes = vec![tag];
    bytes.extend(length.to_le_bytes());
    bytes.extend(body);
    bytes
}

fn write_terms(terms: &[Term]) -> Vec<u8> {
    let mut body = Vec::new();
    for term in terms {
        body.extend((term.variable as u16).to_le_bytes());
        body.extend((term.weight as i32).to_le_bytes());
    }
    body
}

/// The body of the field of locks.
pub fn write_locks(locks: &[Lock]) -> Vec<u8> {
    let mut body = Vec::new();
    for lock in locks {
        body.extend((lock.variable as u16).to_le_bytes());
        body.push(lock.value as u8);
    }
    body
}

/// The field of one rule; "an absent bound is written 0".
pub fn write_rule(rule: &Rule) -> Vec<u8> {
    let mode = match (rule.lower, rule.upper) {
        (Some(_), None) => 1,
        (None, Some(_)) => 2,
        (Some(_), Some(_)) => 3,
        (None, None) => panic!("a rule has a bound"),
    };
    let mut body = vec![mode];
    body.extend((rule.lower.unwrap_or(0) as i32).to_le_bytes());
    body.extend((rule.upper.unwrap_or(0) as i32).to_le_bytes());
    body.extend(write_terms(&rule.terms));
    write_field(RULE, &body)
}

/// The file of a plan, with a field of locks only where it has a lock. The limits are not looked
/// at, so that files beyond them can be made.
pub fn write(plan: &Plan) -> Vec<u8> {
    let mut bytes = write_field(COUNT, &(plan.variables as u16).to_le_bytes());
    bytes.extend(write_field(OBJECTIVE, &write_terms(&plan.objective)));
    if !plan.locks.is_empty() {
        bytes.extend(write_field(LOCKS, &write_locks(&plan.locks)));
    }
    for clause in &plan.clauses {
        bytes.extend(write_field(CLAUSE, &[]));
        for rule in &clause.rules {
            bytes.extend(write_rule(rule));
        }
    }
    bytes.extend(write_field(END, &[]));
    bytes
}

/// walk.bin of these settings: of length 9 where that says all, else of length 12.
pub fn write_settings(settings: &Settings) -> Vec<u8> {
    let mut body = Vec::new();
    body.extend((settings.noise as u16).to_le_bytes());
    body.extend((settings.tries as u16).to_le_bytes());
    body.extend(settings.flips.to_le_bytes());
    body.push(settings.mode as u8);
    if (settings.heuristic, settings.chance) != (SKC, 0) {
        body.push(settings.heuristic as u8);
        body.extend((settings.chance as u16).to_le_bytes());
    }
    write_field(WALK, &body)
}

/// numbers.bin of this list.
pub fn write_numbers(numbers: &[u32]) -> Vec<u8> {
    numbers.iter().flat_map(|r| r.to_le_bytes()).collect()
}
