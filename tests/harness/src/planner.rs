//! The planner's C interface as Rust sees it (include/planner.h).

use reference::book::Answer;
use reference::counts::Count;
use reference::figures::{self, Trial};
use reference::walk::Settings;

/// What loading answers.
#[repr(C)]
#[derive(Clone, Copy, Debug, PartialEq, Eq)]
pub struct Loaded {
    pub refusal: u32,
    pub offset: usize,
}

/// What a flip answers; with a refusal the number of rules is 0.
#[repr(C)]
#[derive(Clone, Copy, Debug, PartialEq, Eq)]
pub struct Flipped {
    pub refusal: u32,
    pub rules: u32,
}

impl Flipped {
    /// The answer with this refusal.
    pub fn refused(refusal: u32) -> Flipped {
        Flipped { refusal, rules: 0 }
    }
}

/// What a flip answers where the book does so.
impl From<Answer> for Flipped {
    fn from(answer: Answer) -> Flipped {
        match answer {
            Answer::Flipped { rules } => Flipped { refusal: 0, rules },
            Answer::Refused(refusal) => Flipped::refused(refusal),
            Answer::Counts { .. } => panic!("{answer:?} is no answer to a flip"),
        }
    }
}

/// What counts answers; a mark is 1 where its count is cut, else 0.
#[repr(C)]
#[derive(Clone, Copy, Debug, PartialEq, Eq)]
pub struct Counted {
    pub refusal: u32,
    pub break_count: u32,
    pub break_cut: u32,
    pub make_count: u32,
    pub make_cut: u32,
}

impl Counted {
    /// The answer with these counts.
    pub fn of(break_count: Count, make_count: Count) -> Counted {
        Counted {
            refusal: 0,
            break_count: break_count.value,
            break_cut: break_count.cut as u32,
            make_count: make_count.value,
            make_cut: make_count.cut as u32,
        }
    }

    /// The answer with this refusal: every other field is 0.
    pub fn refused(refusal: u32) -> Counted {
        Counted {
            refusal,
            ..Counted::of(Count::ZERO, Count::ZERO)
        }
    }
}

/// What counts answers where the book does so.
impl From<Answer> for Counted {
    fn from(answer: Answer) -> Counted {
        match answer {
            Answer::Counts {
                break_count,
                make_count,
            } => Counted::of(break_count, make_count),
            Answer::Refused(refusal) => Counted::refused(refusal),
            Answer::Flipped { .. } => panic!("{answer:?} is no answer to counts"),
        }
    }
}

/// What a search answers; the ending by its number.
#[repr(C)]
#[derive(Clone, Copy, Debug, PartialEq, Eq)]
pub struct Searched {
    pub refusal: u32,
    pub ending: u32,
    pub cost: i64,
    pub finds: usize,
    pub flips: usize,
    pub used: usize,
}

/// What writing a plan as an OPB text answers.
#[repr(C)]
#[derive(Clone, Copy, Debug, PartialEq, Eq)]
pub struct Written {
    pub refusal: u32,
    pub length: usize,
}

/// What a squeeze answers.
#[repr(C)]
#[derive(Clone, Copy, Debug, PartialEq, Eq)]
pub struct Squeezed {
    pub refusal: u32,
    pub offset: usize,
    pub length: usize,
    pub constant: i64,
}

/// What is reported of many runs: three fractions, top and bottom. `found` is 0 where the mean cost
/// is absent, 0 over 0.
#[repr(C)]
#[derive(Clone, Copy, Debug, PartialEq, Eq)]
pub struct Figures {
    pub refusal: u32,
    pub found: u32,
    pub share: [u64; 2],
    pub flips: [u64; 2],
    pub cost_top: i64,
    pub cost_bottom: u64,
}

impl Figures {
    /// The answer with this refusal: every other field is 0.
    pub fn refused(refusal: u32) -> Figures {
        Figures {
            refusal,
            found: 0,
            share: [0; 2],
            flips: [0; 2],
            cost_top: 0,
            cost_bottom: 0,
        }
    }
}

/// What is reported where the reference has these figures.
impl From<figures::Figures> for Figures {
    fn from(figures: figures::Figures) -> Figures {
        let whole = |(top, bottom): figures::Fraction| [top as u64, bottom];
        let (cost_top, cost_bottom) = figures.cost.unwrap_or((0, 0));
        Figures {
            refusal: 0,
            found: figures.cost.is_some() as u32,
            share: whole(figures.share),
            flips: whole(figures.flips),
            cost_top,
            cost_bottom,
        }
    }
}

/// The functions as they are exported.
pub mod raw {
    use super::{Counted, Figures, Flipped, Loaded, Searched, Squeezed, Written};

    extern "C" {
        pub fn planner_load(
            file: *const u8,
            file_length: usize,
            tables: *mut u8,
            tables_length: usize,
            terms: *mut u8,
            terms_length: usize,
        ) -> Loaded;
        pub fn planner_read_opb(
            text: *const u8,
            text_length: usize,
            tables: *mut u8,
            tables_length: usize,
            terms: *mut u8,
            terms_length: usize,
        ) -> Loaded;
        pub fn planner_open(
            tables: *const u8,
            tables_length: usize,
            terms: *const u8,
            terms_length: usize,
            assignment: *const u8,
            assignment_length: usize,
            tallies: *mut u8,
            tallies_length: usize,
        ) -> u32;
        pub fn planner_flip(
            tables: *const u8,
            tables_length: usize,
            terms: *const u8,
            terms_length: usize,
            assignment: *mut u8,
            assignment_length: usize,
            tallies: *mut u8,
            tallies_length: usize,
            variable: u32,
        ) -> Flipped;
        pub fn planner_counts(
            tables: *const u8,
            tables_length: usize,
            terms: *const u8,
            terms_length: usize,
            assignment: *const u8,
            assignment_length: usize,
            tallies: *const u8,
            tallies_length: usize,
            variable: u32,
        ) -> Counted;
        pub fn planner_search(
            tables: *const u8,
            tables_length: usize,
            terms: *const u8,
            terms_length: usize,
            numbers: *const u8,
            numbers_length: usize,
            noise: u32,
            tries: u32,
            flips: u32,
            mode: u32,
            heuristic: u32,
            chance: u32,
            assignment: *mut u8,
            assignment_length: usize,
            work_tables: *mut u8,
            work_tables_length: usize,
            work_terms: *mut u8,
            work_terms_length: usize,
            work_assignment: *mut u8,
            work_assignment_length: usize,
            work_tallies: *mut u8,
            work_tallies_length: usize,
            work_marks: *mut u8,
            work_marks_length: usize,
        ) -> Searched;
        pub fn planner_runs(
            tables: *const u8,
            tables_length: usize,
            terms: *const u8,
            terms_length: usize,
            x: u32,
            y: u32,
            z: u32,
            w: u32,
            v: u32,
            counter: u32,
            runs: u32,
            count: u32,
            noise: u32,
            tries: u32,
            flips: u32,
            mode: u32,
            heuristic: u32,
            chance: u32,
            numbers: *mut u8,
            numbers_length: usize,
            assignment: *mut u8,
            assignment_length: usize,
            work_tables: *mut u8,
            work_tables_length: usize,
            work_terms: *mut u8,
            work_terms_length: usize,
            work_assignment: *mut u8,
            work_assignment_length: usize,
            work_tallies: *mut u8,
            work_tallies_length: usize,
            work_marks: *mut u8,
            work_marks_length: usize,
        ) -> Figures;
        pub fn planner_write_opb(
            tables: *const u8,
            tables_length: usize,
            terms: *const u8,
            terms_length: usize,
            text: *mut u8,
            text_length: usize,
        ) -> Written;
        pub fn planner_squeeze(
            file: *mut u8,
            file_length: usize,
            old: *mut u8,
            old_length: usize,
        ) -> Squeezed;
    }
}

pub fn load(file: &[u8], tables: &mut [u8], terms: &mut [u8]) -> Loaded {
    unsafe {
        raw::planner_load(
            file.as_ptr(),
            file.len(),
            tables.as_mut_ptr(),
            tables.len(),
            terms.as_mut_ptr(),
            terms.len(),
        )
    }
}

pub fn read_opb(text: &[u8], tables: &mut [u8], terms: &mut [u8]) -> Loaded {
    unsafe {
        raw::planner_read_opb(
            text.as_ptr(),
            text.len(),
            tables.as_mut_ptr(),
            tables.len(),
            terms.as_mut_ptr(),
            terms.len(),
        )
    }
}

pub fn open(tables: &[u8], terms: &[u8], assignment: &[u8], tallies: &mut [u8]) -> u32 {
    unsafe {
        raw::planner_open(
            tables.as_ptr(),
            tables.len(),
            terms.as_ptr(),
            terms.len(),
            assignment.as_ptr(),
            assignment.len(),
            tallies.as_mut_ptr(),
            tallies.len(),
        )
    }
}

pub fn flip(
    tables: &[u8],
    terms: &[u8],
    assignment: &mut [u8],
    tallies: &mut [u8],
    variable: u32,
) -> Flipped {
    unsafe {
        raw::planner_flip(
            tables.as_ptr(),
            tables.len(),
            terms.as_ptr(),
            terms.len(),
            assignment.as_mut_ptr(),
            assignment.len(),
            tallies.as_mut_ptr(),
            tallies.len(),
            variable,
        )
    }
}

pub fn counts(
    tables: &[u8],
    terms: &[u8],
    assignment: &[u8],
    tallies: &[u8],
    variable: u32,
) -> Counted {
    unsafe {
        raw::planner_counts(
            tables.as_ptr(),
            tables.len(),
            terms.as_ptr(),
            terms.len(),
            assignment.as_ptr(),
            assignment.len(),
            tallies.as_ptr(),
            tallies.len(),
            variable,
        )
    }
}

/// The work buffers are tables, terms, assignment, tallies and marks.
pub fn search(
    tables: &[u8],
    terms: &[u8],
    numbers: &[u8],
    settings: &Settings,
    assignment: &mut [u8],
    work: [&mut [u8]; 5],
) -> Searched {
    let [work_tables, work_terms, work_assignment, work_tallies, work_marks] = work;
    unsafe {
        raw::planner_search(
            tables.as_ptr(),
            tables.len(),
            terms.as_ptr(),
            terms.len(),
            numbers.as_ptr(),
            numbers.len(),
            settings.noise,
            settings.tries,
            settings.flips,
            settings.mode,
            settings.heuristic,
            settings.chance,
            assignment.as_mut_ptr(),
            assignment.len(),
            work_tables.as_mut_ptr(),
            work_tables.len(),
            work_terms.as_mut_ptr(),
            work_terms.len(),
            work_assignment.as_mut_ptr(),
            work_assignment.len(),
            work_tallies.as_mut_ptr(),
            work_tallies.len(),
            work_marks.as_mut_ptr(),
            work_marks.len(),
        )
    }
}

/// The written buffers are numbers and assignment; the work buffers are as for a search.
pub fn runs(
    tables: &[u8],
    terms: &[u8],
    trial: &Trial,
    settings: &Settings,
    numbers: &mut [u8],
    assignment: &mut [u8],
    work: [&mut [u8]; 5],
) -> Figures {
    let [x, y, z, w, v] = trial.state.words;
    let [work_tables, work_terms, work_assignment, work_tallies, work_marks] = work;
    unsafe {
        raw::planner_runs(
            tables.as_ptr(),
            tables.len(),
            terms.as_ptr(),
            terms.len(),
            x,
            y,
            z,
            w,
            v,
            trial.state.counter,
            trial.runs,
            trial.count,
            settings.noise,
            settings.tries,
            settings.flips,
            settings.mode,
            settings.heuristic,
            settings.chance,
            numbers.as_mut_ptr(),
            numbers.len(),
            assignment.as_mut_ptr(),
            assignment.len(),
            work_tables.as_mut_ptr(),
            work_tables.len(),
            work_terms.as_mut_ptr(),
            work_terms.len(),
            work_assignment.as_mut_ptr(),
            work_assignment.len(),
            work_tallies.as_mut_ptr(),
            work_tallies.len(),
            work_marks.as_mut_ptr(),
            work_marks.len(),
        )
    }
}

pub fn squeeze(file: &mut [u8], old: &mut [u8]) -> Squeezed {
    unsafe { raw::planner_squeeze(file.as_mut_ptr(), file.len(), old.as_mut_ptr(), old.len()) }
}

pub fn write_opb(tables: &[u8], terms: &[u8], text: &mut [u8]) -> Written {
    unsafe {
        raw::planner_write_opb(
            tables.as_ptr(),
            tables.len(),
            terms.as_ptr(),
            terms.len(),
            text.as_mut_ptr(),
            text.len(),
        )
    }
}
