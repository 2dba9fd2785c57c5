//! The races of a festival as Rust sees them (include/planner.h).

use reference::races::RACES;

/// A race's record: its stake, and its part, which a call writes.
#[repr(C)]
#[derive(Clone, Copy, Debug, PartialEq, Eq)]
pub struct Race {
    pub stake: usize,
    pub first: usize,
    pub length: usize,
}

extern "C" {
    fn planner_share(races: *mut Race, count: usize, numbers: usize) -> u32;
    fn planner_races(
        races: *mut usize,
        races_length: usize,
        numbers: *const u8,
        numbers_length: usize,
        settings: *const u8,
        settings_length: usize,
        tables1: *const u8,
        tables1_length: usize,
        terms1: *const u8,
        terms1_length: usize,
        tables2: *const u8,
        tables2_length: usize,
        terms2: *const u8,
        terms2_length: usize,
        tables3: *const u8,
        tables3_length: usize,
        terms3: *const u8,
        terms3_length: usize,
        tables4: *const u8,
        tables4_length: usize,
        terms4: *const u8,
        terms4_length: usize,
        tables5: *const u8,
        tables5_length: usize,
        terms5: *const u8,
        terms5_length: usize,
        tables6: *const u8,
        tables6_length: usize,
        terms6: *const u8,
        terms6_length: usize,
        tables7: *const u8,
        tables7_length: usize,
        terms7: *const u8,
        terms7_length: usize,
        tables8: *const u8,
        tables8_length: usize,
        terms8: *const u8,
        terms8_length: usize,
        assignments: *mut u8,
        assignments_length: usize,
        answers: *mut u8,
        answers_length: usize,
        work_tables: *mut u8,
        work_tables_length: usize,
        work_terms: *mut u8,
        work_terms_length: usize,
        work_assignment: *mut u8,
        work_assignment_length: usize,
        work_tallies: *mut u8,
        work_tallies_length: usize,
        work_marks: *mut u8,
        work_marks_length: usize,
    ) -> u32;
}

/// The split alone, for a list of any length.
pub fn share(races: &mut [Race], numbers: usize) -> u32 {
    unsafe { planner_share(races.as_mut_ptr(), races.len(), numbers) }
}

/// A festival. The work buffers are tables, terms, assignment, tallies and marks.
pub fn plan_races(
    races: &mut [usize],
    numbers: &[u8],
    settings: &[u8],
    plans: [(&[u8], &[u8]); RACES],
    assignments: &mut [u8],
    answers: &mut [u8],
    work: [&mut [u8]; 5],
) -> u32 {
    let [work_tables, work_terms, work_assignment, work_tallies, work_marks] = work;
    unsafe {
        planner_races(
            races.as_mut_ptr(),
            races.len(),
            numbers.as_ptr(),
            numbers.len(),
            settings.as_ptr(),
            settings.len(),
            plans[0].0.as_ptr(),
            plans[0].0.len(),
            plans[0].1.as_ptr(),
            plans[0].1.len(),
            plans[1].0.as_ptr(),
            plans[1].0.len(),
            plans[1].1.as_ptr(),
            plans[1].1.len(),
            plans[2].0.as_ptr(),
            plans[2].0.len(),
            plans[2].1.as_ptr(),
            plans[2].1.len(),
            plans[3].0.as_ptr(),
            plans[3].0.len(),
            plans[3].1.as_ptr(),
            plans[3].1.len(),
            plans[4].0.as_ptr(),
            plans[4].0.len(),
            plans[4].1.as_ptr(),
            plans[4].1.len(),
            plans[5].0.as_ptr(),
            plans[5].0.len(),
            plans[5].1.as_ptr(),
            plans[5].1.len(),
            plans[6].0.as_ptr(),
            plans[6].0.len(),
            plans[6].1.as_ptr(),
            plans[6].1.len(),
            plans[7].0.as_ptr(),
            plans[7].0.len(),
            plans[7].1.as_ptr(),
            plans[7].1.len(),
            assignments.as_mut_ptr(),
            assignments.len(),
            answers.as_mut_ptr(),
            answers.len(),
            work_tables.as_mut_ptr(),
            work_tables.len(),
            work_terms.as_mut_ptr(),
            work_terms.len(),
            work_assignment.as_mut_ptr(),
            work_assignment.len(),
            work_tallies.as_mut_ptr(),
            work_tallies.len(),
            work_marks.as_mut_ptr(),
            work_marks.len(),
        )
    }
}
