//! What an assignment chooses, by name: what it costs, which locks it does not keep and which clauses
//! it does not meet.

use crate::read::Text;
use reference::plan::value;

/// A clause as its planner knows it: by its name, if it has one, and its line.
pub fn clause_called(text: &Text, place: usize) -> String {
    let line = text.lines[place];
    match text.names.clause(place) {
        Some(name) => format!("the clause '{name}' on line {line}"),
        None => format!("the clause on line {line}"),
    }
}

/// The clauses that are not met, a line for each.
pub fn unmet(text: &Text, assignment: &[bool]) -> String {
    let clauses = text.plan.clauses.iter().enumerate();
    let unmet = clauses.filter(|(_, clause)| !clause.holds(assignment));
    let line = |(place, _)| format!("{} is not met\n", clause_called(text, place));
    unmet.map(line).collect()
}

/// The locks that are not kept, a line for each.
fn unlocked(text: &Text, assignment: &[bool]) -> String {
    let broken = text.plan.locks.iter();
    let broken = broken.filter(|lock| value(assignment, lock.variable) != lock.value);
    let line = |lock: &reference::plan::Lock| {
        let (name, value) = (text.names.called(lock.variable), lock.value as u8);
        format!("{name} is locked at {value}\n")
    };
    broken.map(line).collect()
}

/// The lines about an assignment, and whether it is a plan.
pub fn chosen(text: &Text, assignment: &[bool]) -> (String, bool) {
    let plan = &text.plan;
    let mut out = String::new();
    for (place, _) in assignment.iter().enumerate().filter(|(_, &bit)| bit) {
        out += &text.names.called(place + 1);
        out += "\n";
    }
    out += &format!("cost {}\n", plan.cost(assignment));
    out += &unlocked(text, assignment);
    out += &unmet(text, assignment);
    let met = plan.satisfied(assignment);
    if met {
        out += "every clause is met\n";
    }
    (out, met && plan.obeyed(assignment))
}

/// An assignment in digits, variable 1 first.
pub fn digits_read(text: &Text, digits: &str) -> Result<Vec<bool>, String> {
    let variables = text.plan.variables;
    if digits.len() != variables || !digits.bytes().all(|digit| b"01".contains(&digit)) {
        return Err(format!(
            "an assignment of this plan is a row of {variables} digits, each 0 or 1, not '{digits}'"
        ));
    }
    Ok(digits.bytes().map(|digit| digit == b'1').collect())
}
