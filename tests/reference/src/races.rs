//! Several races from one list of numbers (document 02, T-10).

/// The most races that a festival has.
pub const RACES: usize = 8;

/// A race's part of the list: its first place, from 0, and its length.
#[derive(Clone, Copy, Debug, PartialEq, Eq)]
pub struct Part {
    pub first: usize,
    pub length: usize,
}

/// "Race i gets the whole part of (numbers times stake over all stakes), and what remains goes one
/// each to the first races. The parts follow one another." 61 for no race or more than 8, 62 for a
/// stake.
pub fn split(stakes: &[usize], numbers: usize) -> Result<Vec<Part>, u32> {
    if stakes.is_empty() || stakes.len() > RACES {
        return Err(61);
    }
    if stakes.iter().any(|stake| !(1..=100).contains(stake)) {
        return Err(62);
    }
    let all: u128 = stakes.iter().map(|&stake| stake as u128).sum();
    let whole = |&stake: &usize| (numbers as u128 * stake as u128 / all) as usize;
    let mut lengths: Vec<usize> = stakes.iter().map(whole).collect();
    let remaining = numbers - lengths.iter().sum::<usize>();
    for length in &mut lengths[..remaining] {
        *length += 1;
    }
    let mut first = 0;
    let mut parts = Vec::new();
    for length in lengths {
        parts.push(Part { first, length });
        first += length;
    }
    Ok(parts)
}
