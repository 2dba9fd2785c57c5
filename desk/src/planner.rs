//! The planner as the desk asks it: the proved archive answers where it is linked, and the reference
//! is the second opinion, or the only one where it is not.

use crate::archive::{self, Answered, Room};
use crate::report::plain;
use reference::csv::{self, LEAST_ROOM};
use reference::file::{parse, write, write_numbers, Refusal};
use reference::opb_write;
use reference::plan::Plan;
use reference::races::split;
use reference::squeeze::squeezed;
use reference::walk::{self, Ending, Settings};
use std::fmt::Debug;

pub use reference::figures::{Figures, Trial};

/// Whether answers come from the proved archive.
pub const PROVED: bool = archive::LINKED;

/// What a search found.
#[derive(Clone, Debug, PartialEq, Eq)]
pub struct Found {
    pub ending: Ending,
    pub cost: i64,
    pub finds: usize,
    pub flips: u64,
    pub used: usize,
    pub assignment: Option<Vec<bool>>,
}

impl Found {
    /// What the reference found.
    fn of(answer: walk::Answer) -> Found {
        Found {
            ending: answer.ending,
            cost: answer.cost,
            finds: answer.finds.len(),
            flips: answer.flips,
            used: answer.used,
            assignment: answer.found().map(<[bool]>::to_vec),
        }
    }

    /// Whether the numbers ran out.
    pub fn is_short(&self) -> bool {
        matches!(self.ending, Ending::ShortFound | Ending::ShortNone)
    }
}

/// A plan file without its locked variables, what these cost, and which old variable each new one
/// was.
#[derive(Clone, Debug, PartialEq, Eq)]
pub struct Squeezed {
    pub file: Vec<u8>,
    pub constant: i64,
    pub old: Vec<usize>,
}

/// One race of a festival: its part of the list, and what a search of it found.
#[derive(Clone, Debug, PartialEq, Eq)]
pub struct Race {
    pub first: usize,
    pub length: usize,
    pub found: Found,
}

/// The plan file of a mapper's two lists, or why they are turned away.
pub type Mapped = Result<Vec<u8>, csv::Refusal>;

/// The archive's answer. The reference is asked too where there is none, or where both are wanted;
/// two that differ are a fault of one of them, which is told and not passed over.
pub fn agreed<T: PartialEq + Debug>(
    check: bool,
    proved: Option<T>,
    reference: impl FnOnce() -> T,
) -> Result<T, String> {
    let Some(first) = proved else {
        return Ok(reference());
    };
    if check {
        let second = reference();
        if first != second {
            return Err(format!(
                "the proved planner and the reference disagree: {first:?} and {second:?}"
            ));
        }
    }
    Ok(first)
}

/// An answer that cannot be a refusal, since what was asked for was judged before.
fn accepted<T>(answer: Answered<T>) -> Result<Option<T>, String> {
    match answer {
        None => Ok(None),
        Some(Ok(answer)) => Ok(Some(answer)),
        Some(Err(number)) => Err(format!("the planner refuses ({number}): {}", plain(number))),
    }
}

/// A plan that is searched, with its room.
pub struct Planner<'a> {
    plan: &'a Plan,
    check: bool,
    room: Room,
}

impl<'a> Planner<'a> {
    /// With `check` the reference answers everything too, and has to agree.
    pub fn new(plan: &'a Plan, check: bool) -> Planner<'a> {
        Planner {
            plan,
            check,
            room: Room::of(&write(plan)),
        }
    }

    pub fn search(&mut self, settings: &Settings, numbers: &[u32]) -> Result<Found, String> {
        let proved = self.room.search(settings, &write_numbers(numbers));
        let reference = || match walk::search(self.plan, settings, numbers) {
            Ok(answer) => Found::of(answer),
            Err(refusal) => panic!("{refusal:?} for settings that were judged"),
        };
        agreed(self.check, accepted(proved)?, reference)
    }

    /// The figures of many runs.
    pub fn runs(&mut self, settings: &Settings, trial: &Trial) -> Result<Figures, String> {
        let proved = self.room.runs(settings, trial);
        let reference = || {
            let answers = reference::figures::answers(self.plan, settings, trial);
            reference::figures::figures(&answers)
        };
        agreed(self.check, accepted(proved)?, reference)
    }

    /// The plan as an OPB text.
    pub fn opb(&self) -> Result<String, String> {
        let reference = || opb_write::write(self.plan);
        agreed(self.check, accepted(self.room.opb())?, reference)
    }
}

/// A plan file without its locked variables; the outer fault is a disagreement.
pub fn squeeze(file: &[u8], check: bool) -> Result<Result<Squeezed, u32>, String> {
    let reference = || {
        let plan = parse(file).map_err(|refusal: Refusal| refusal.number)?;
        let squeezed = squeezed(&plan).map_err(|fault| fault.refusal().number)?;
        Ok(Squeezed {
            file: write(&squeezed.plan),
            constant: squeezed.constant,
            old: squeezed.old,
        })
    };
    agreed(check, archive::squeeze(file), reference)
}

/// Every race of a festival, from one list. A race is its stake, plan and settings.
pub fn races(
    races: &[(usize, Plan, Settings)],
    numbers: &[u32],
    check: bool,
) -> Result<Vec<Race>, String> {
    let mut rooms: Vec<Room> = races
        .iter()
        .map(|(_, plan, _)| Room::of(&write(plan)))
        .collect();
    let asked: Vec<(usize, Settings)> = races.iter().map(|&(stake, _, s)| (stake, s)).collect();
    let proved = archive::races(&mut rooms, &asked, &write_numbers(numbers));
    let reference = || {
        let stakes: Vec<usize> = races.iter().map(|&(stake, ..)| stake).collect();
        let parts = split(&stakes, numbers.len()).expect("stakes that were judged");
        let race =
            |((_, plan, settings), part): (&(usize, Plan, Settings), reference::races::Part)| {
                let own = &numbers[part.first..part.first + part.length];
                Race {
                    first: part.first,
                    length: part.length,
                    found: Found::of(walk::search(plan, settings, own).expect("judged settings")),
                }
            };
        races.iter().zip(parts).map(race).collect()
    };
    agreed(check, accepted(proved)?, reference)
}

/// The plan file of a mapper's two lists; the outer fault is a disagreement.
pub fn map(sites: &[u8], zones: &[u8], check: bool) -> Result<Mapped, String> {
    let reference = || csv::mapped(sites, zones, LEAST_ROOM).map(|plan| write(&plan));
    agreed(check, archive::map(sites, zones), reference)
}

#[cfg(test)]
mod tests {
    use super::agreed;

    #[test]
    fn two_answers_that_differ_are_told() {
        assert_eq!(agreed(false, Some(3), || 4), Ok(3));
        assert_eq!(agreed(true, Some(3), || 3), Ok(3));
        assert_eq!(agreed(true, None, || 4), Ok(4));
        let told = agreed(true, Some(3), || 4).unwrap_err();
        assert_eq!(
            told,
            "the proved planner and the reference disagree: 3 and 4"
        );
    }
}
