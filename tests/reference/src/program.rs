//! The program (document 01, "The program and its two lines").

use crate::file::{parse, parse_numbers, parse_settings, Refusal};
use crate::walk::{search, Answer};
use std::fs::File;
use std::io::Read;
use std::path::Path;

/// The largest input in bytes.
pub const MOST_BYTES: usize = 65_536;

/// A file's bytes, one more than the limit at most; None where it cannot be opened or read.
pub fn contents(path: &Path) -> Option<Vec<u8>> {
    let file = File::open(path).ok()?;
    let mut bytes = Vec::new();
    file.take(MOST_BYTES as u64 + 1)
        .read_to_end(&mut bytes)
        .ok()?;
    Some(bytes)
}

/// "Any of them above 65,536 bytes gives 9, before all else", then "each judged before the next".
pub fn run(plan: &[u8], walk: &[u8], numbers: &[u8]) -> Result<Answer, Refusal> {
    if [plan, walk, numbers]
        .iter()
        .any(|file| file.len() > MOST_BYTES)
    {
        return Err(Refusal {
            number: 9,
            offset: 0,
        });
    }
    let plan = parse(plan)?;
    let settings = parse_settings(walk)?;
    let numbers = parse_numbers(numbers)?;
    search(&plan, &settings, &numbers)
}

/// What the program prints. An input that "cannot be opened is read as empty" (None).
pub fn lines(plan: Option<&[u8]>, walk: Option<&[u8]>, numbers: Option<&[u8]>) -> String {
    let [plan, walk, numbers] = [plan, walk, numbers].map(Option::unwrap_or_default);
    match run(plan, walk, numbers) {
        Err(refusal) => format!("refused {} {}\n", refusal.number, refusal.offset),
        Ok(answer) => format!(
            "{} {} {} {} {}\n{}\n",
            answer.ending.name(),
            answer.cost,
            answer.finds.len(),
            answer.flips,
            answer.used,
            digits(answer.found()),
        ),
    }
}

/// "Then the assignment, variable 1 first. With nothing found the second line is `-`."
fn digits(found: Option<&[bool]>) -> String {
    match found {
        Some(bits) => bits
            .iter()
            .map(|&bit| if bit { '1' } else { '0' })
            .collect(),
        None => "-".to_string(),
    }
}
