//! A list of calls made one after another by the proved `replay_calls`.

use crate::planner::{Counted, Flipped};
use reference::book::{Answer, Call};

mod raw {
    extern "C" {
        pub fn replay_calls(
            tables: *const u8,
            tables_length: usize,
            terms: *const u8,
            terms_length: usize,
            assignment: *mut u8,
            assignment_length: usize,
            tallies: *mut u8,
            tallies_length: usize,
            list: *const u8,
            list_length: usize,
            out: *mut u8,
            out_length: usize,
        ) -> u32;
    }
}

pub fn replay(
    tables: &[u8],
    terms: &[u8],
    assignment: &mut [u8],
    tallies: &mut [u8],
    list: &[u8],
    out: &mut [u8],
) -> u32 {
    unsafe {
        raw::replay_calls(
            tables.as_ptr(),
            tables.len(),
            terms.as_ptr(),
            terms.len(),
            assignment.as_mut_ptr(),
            assignment.len(),
            tallies.as_mut_ptr(),
            tallies.len(),
            list.as_ptr(),
            list.len(),
            out.as_mut_ptr(),
            out.len(),
        )
    }
}

/// A call in 5 bytes; `other` is the kind byte of a counts call, any but 0.
pub fn call_bytes(call: Call, other: u8) -> Vec<u8> {
    let (kind, variable) = match call {
        Call::Flip(variable) => (0, variable),
        Call::Counts(variable) => (other.max(1), variable),
    };
    let mut bytes = vec![kind];
    bytes.extend(variable.to_le_bytes());
    bytes
}

/// How many bytes an answer has.
pub const ANSWER: usize = 24;

/// An answer in six words: refusal, rules, break count and its mark, make count and its mark. A flip
/// has 0 for the last four, counts for the rules, a refusal for all but the first.
pub fn answer_bytes(answer: Answer) -> Vec<u8> {
    let (flipped, counted) = match answer {
        Answer::Flipped { .. } => (Flipped::from(answer), Counted::refused(0)),
        _ => (Flipped::refused(0), Counted::from(answer)),
    };
    let words: [u32; ANSWER / 4] = [
        counted.refusal,
        flipped.rules,
        counted.break_count,
        counted.break_cut,
        counted.make_count,
        counted.make_cut,
    ];
    words.iter().flat_map(|word| word.to_le_bytes()).collect()
}
