//! The calls of include/planner.h, answered by the reference: an archive that a C program links in its
//! first minutes, while the proved one is still being built. It is slow and nothing of it is proved;
//! what it answers and writes is what the proved archive does. `tests/screen` runs the same C programs
//! on both.

// The C interface lends each buffer with its length.
#![allow(clippy::too_many_arguments)]

#[path = "../../harness/src/planner.rs"]
pub mod answers;
#[path = "../../harness/src/layout.rs"]
pub mod layout;

use answers::{Counted, Figures, Flipped, Loaded, Searched, Squeezed, Written};
use layout::{ASSIGNMENT, KEPT, MARKS, TABLES, TALLIES, TERM_TABLE};
use reference::book::{Answer, Book, Call};
use reference::figures::{self, Trial, Xorwow};
use reference::file::{parse, Refusal};
use reference::plan::Plan;
use reference::races::{split, RACES};
use reference::tallies::Tallies;
use reference::walk::{self, Ending, Settings};
use reference::{opb_read, opb_write};

/// What is lent to be read; NULL is fine where the length is 0.
///
/// # Safety
/// So many bytes can be read there.
unsafe fn read<'a, T>(bytes: *const T, length: usize) -> &'a [T] {
    match length {
        0 => &[],
        _ => std::slice::from_raw_parts(bytes, length),
    }
}

/// What is lent to be written.
///
/// # Safety
/// So many bytes can be read and written there, and nobody else has them.
unsafe fn write<'a, T>(bytes: *mut T, length: usize) -> &'a mut [T] {
    match length {
        0 => &mut [],
        _ => std::slice::from_raw_parts_mut(bytes, length),
    }
}

/// The plan of two tables: 21 where they or other buffers are too small, then 22.
fn plan_of(tables: &[u8], terms: &[u8], others: &[(usize, usize)]) -> Result<Plan, u32> {
    let own = [(tables.len(), TABLES), (terms.len(), TERM_TABLE)];
    let mut all = own.iter().chain(others);
    if all.any(|&(length, size)| length < size) {
        return Err(21);
    }
    layout::loaded(tables, terms).ok_or(22)
}

/// The values of a plan's assignment: 24 where one is neither 0 nor 1.
fn bits_of(plan: &Plan, assignment: &[u8]) -> Result<Vec<bool>, u32> {
    let own = &assignment[..plan.variables];
    match own.iter().all(|&byte| byte <= 1) {
        true => Ok(own.iter().map(|&byte| byte == 1).collect()),
        false => Err(24),
    }
}

fn numbers_of(bytes: &[u8]) -> Vec<u32> {
    let words = bytes.chunks_exact(4);
    words
        .map(|word| u32::from_le_bytes([word[0], word[1], word[2], word[3]]))
        .collect()
}

/// What a search works in: tables, terms, an assignment, tallies with what is kept behind them, marks.
const WORK: [usize; 5] = [TABLES, TERM_TABLE, ASSIGNMENT, KEPT, MARKS];

/// The buffers that a search works in end filled with 0.
fn clear(work: [&mut [u8]; 5]) {
    for (buffer, size) in work.into_iter().zip(WORK) {
        buffer[..size].fill(0);
    }
}

fn work_sizes(work: &[&mut [u8]; 5]) -> Vec<(usize, usize)> {
    work.iter().map(|buffer| buffer.len()).zip(WORK).collect()
}

fn refused(refusal: u32) -> Searched {
    Searched {
        refusal,
        ending: 0,
        cost: 0,
        finds: 0,
        flips: 0,
        used: 0,
    }
}

/// An ending's number in the C interface.
fn ending_number(ending: Ending) -> u32 {
    match ending {
        Ending::Floor => 1,
        Ending::Ended => 2,
        Ending::None => 3,
        Ending::ShortFound => 4,
        Ending::ShortNone => 5,
    }
}

/// A plan and settings that are not refused.
fn asked(plan: Result<Plan, u32>, settings: &Settings) -> Result<Plan, u32> {
    let plan = plan?;
    settings.refusal().map_or(Ok(plan), Err)
}

/// A whole search: its answer, and the assignment where something is found.
fn searched(plan: &Plan, settings: &Settings, numbers: &[u32], assignment: &mut [u8]) -> Searched {
    let answer = walk::search(plan, settings, numbers).expect("settings that were judged");
    if let Some(found) = answer.found() {
        assignment[..found.len()].copy_from_slice(&layout::bits(found));
    }
    Searched {
        refusal: 0,
        ending: ending_number(answer.ending),
        cost: answer.cost,
        finds: answer.finds.len(),
        flips: answer.flips as usize,
        used: answer.used,
    }
}

/// An opened state: 24, then 25 where the tallies are others than those of the assignment.
fn opened(plan: &Plan, assignment: &[u8], tallies: &[u8]) -> Result<Vec<bool>, u32> {
    let bits = bits_of(plan, assignment)?;
    match layout::tallies(&Tallies::fresh(plan, &bits)) == tallies[..TALLIES] {
        true => Ok(bits),
        false => Err(25),
    }
}

/// Writes the tables of a plan that is read: 21, then what its reading refuses.
fn put_plan(
    plan: impl FnOnce() -> Result<Plan, Refusal>,
    tables: &mut [u8],
    terms: &mut [u8],
) -> Loaded {
    let answer = |refusal, offset| Loaded { refusal, offset };
    if tables.len() < TABLES || terms.len() < TERM_TABLE {
        return answer(21, 0);
    }
    match plan() {
        Ok(plan) => {
            let (new_tables, new_terms) = layout::tables(&plan);
            tables[..TABLES].copy_from_slice(&new_tables);
            terms[..TERM_TABLE].copy_from_slice(&new_terms);
            answer(0, 0)
        }
        Err(refusal) => answer(refusal.number, refusal.offset),
    }
}

/// # Safety
/// The caller lends what it says it lends.
#[no_mangle]
pub unsafe extern "C" fn planner_load(
    file: *const u8,
    file_length: usize,
    tables: *mut u8,
    tables_length: usize,
    terms: *mut u8,
    terms_length: usize,
) -> Loaded {
    let (tables, terms) = (write(tables, tables_length), write(terms, terms_length));
    put_plan(|| parse(read(file, file_length)), tables, terms)
}

/// # Safety
/// The caller lends what it says it lends.
#[no_mangle]
pub unsafe extern "C" fn planner_read_opb(
    text: *const u8,
    text_length: usize,
    tables: *mut u8,
    tables_length: usize,
    terms: *mut u8,
    terms_length: usize,
) -> Loaded {
    let (tables, terms) = (write(tables, tables_length), write(terms, terms_length));
    put_plan(|| opb_read::read(read(text, text_length)), tables, terms)
}

/// # Safety
/// The caller lends what it says it lends.
#[no_mangle]
pub unsafe extern "C" fn planner_write_opb(
    tables: *const u8,
    tables_length: usize,
    terms: *const u8,
    terms_length: usize,
    text: *mut u8,
    text_length: usize,
) -> Written {
    let answer = |refusal, length| Written { refusal, length };
    let (tables, terms) = (read(tables, tables_length), read(terms, terms_length));
    let spelled = match plan_of(tables, terms, &[]) {
        Ok(plan) => opb_write::write(&plan),
        Err(refusal) => return answer(refusal, 0),
    };
    let length = spelled.len();
    if text_length < length {
        return answer(33, length);
    }
    write(text, text_length)[..length].copy_from_slice(spelled.as_bytes());
    answer(0, length)
}

/// # Safety
/// The caller lends what it says it lends.
#[no_mangle]
pub unsafe extern "C" fn planner_open(
    tables: *const u8,
    tables_length: usize,
    terms: *const u8,
    terms_length: usize,
    assignment: *const u8,
    assignment_length: usize,
    tallies: *mut u8,
    tallies_length: usize,
) -> u32 {
    let others = [(assignment_length, ASSIGNMENT), (tallies_length, TALLIES)];
    let (tables, terms) = (read(tables, tables_length), read(terms, terms_length));
    let own = plan_of(tables, terms, &others);
    let assignment = read(assignment, assignment_length);
    let both = own.and_then(|plan| bits_of(&plan, assignment).map(|bits| (plan, bits)));
    match both {
        Ok((plan, bits)) => {
            let fresh = layout::tallies(&Tallies::fresh(&plan, &bits));
            write(tallies, tallies_length)[..TALLIES].copy_from_slice(&fresh);
            0
        }
        Err(refusal) => refusal,
    }
}

/// # Safety
/// The caller lends what it says it lends.
#[no_mangle]
pub unsafe extern "C" fn planner_flip(
    tables: *const u8,
    tables_length: usize,
    terms: *const u8,
    terms_length: usize,
    assignment: *mut u8,
    assignment_length: usize,
    tallies: *mut u8,
    tallies_length: usize,
    variable: u32,
) -> Flipped {
    let (tables, terms) = (read(tables, tables_length), read(terms, terms_length));
    let (assignment, tallies) = (
        write(assignment, assignment_length),
        write(tallies, tallies_length),
    );
    let others = [(assignment.len(), ASSIGNMENT), (tallies.len(), TALLIES)];
    let both = plan_of(tables, terms, &others)
        .and_then(|plan| opened(&plan, assignment, tallies).map(|bits| (plan, bits)));
    let (plan, bits) = match both {
        Ok(both) => both,
        Err(refusal) => return Flipped::refused(refusal),
    };
    let mut book = Book::open(&plan, &bits);
    let answer = book.call(Call::Flip(variable));
    if let Answer::Flipped { .. } = answer {
        assignment[..plan.variables].copy_from_slice(&layout::bits(book.bits()));
        tallies[..TALLIES].copy_from_slice(&layout::tallies(&book.tallies()));
    }
    Flipped::from(answer)
}

/// # Safety
/// The caller lends what it says it lends.
#[no_mangle]
pub unsafe extern "C" fn planner_counts(
    tables: *const u8,
    tables_length: usize,
    terms: *const u8,
    terms_length: usize,
    assignment: *const u8,
    assignment_length: usize,
    tallies: *const u8,
    tallies_length: usize,
    variable: u32,
) -> Counted {
    let (tables, terms) = (read(tables, tables_length), read(terms, terms_length));
    let (assignment, tallies) = (
        read(assignment, assignment_length),
        read(tallies, tallies_length),
    );
    let others = [(assignment.len(), ASSIGNMENT), (tallies.len(), TALLIES)];
    let both = plan_of(tables, terms, &others)
        .and_then(|plan| opened(&plan, assignment, tallies).map(|bits| (plan, bits)));
    match both {
        Ok((plan, bits)) => Counted::from(Book::open(&plan, &bits).call(Call::Counts(variable))),
        Err(refusal) => Counted::refused(refusal),
    }
}

/// # Safety
/// The caller lends what it says it lends.
#[no_mangle]
pub unsafe extern "C" fn planner_search(
    tables: *const u8,
    tables_length: usize,
    terms: *const u8,
    terms_length: usize,
    numbers: *const u8,
    numbers_length: usize,
    noise: u32,
    tries: u32,
    flips: u32,
    mode: u32,
    heuristic: u32,
    chance: u32,
    assignment: *mut u8,
    assignment_length: usize,
    work_tables: *mut u8,
    work_tables_length: usize,
    work_terms: *mut u8,
    work_terms_length: usize,
    work_assignment: *mut u8,
    work_assignment_length: usize,
    work_tallies: *mut u8,
    work_tallies_length: usize,
    work_marks: *mut u8,
    work_marks_length: usize,
) -> Searched {
    let settings = Settings {
        noise,
        tries,
        flips,
        mode,
        heuristic,
        chance,
    };
    let work = [
        write(work_tables, work_tables_length),
        write(work_terms, work_terms_length),
        write(work_assignment, work_assignment_length),
        write(work_tallies, work_tallies_length),
        write(work_marks, work_marks_length),
    ];
    let mut others = work_sizes(&work);
    others.push((assignment_length, ASSIGNMENT));
    let (tables, terms) = (read(tables, tables_length), read(terms, terms_length));
    match asked(plan_of(tables, terms, &others), &settings) {
        Ok(plan) => {
            clear(work);
            let numbers = numbers_of(read(numbers, numbers_length));
            searched(
                &plan,
                &settings,
                &numbers,
                write(assignment, assignment_length),
            )
        }
        Err(refusal) => refused(refusal),
    }
}

/// # Safety
/// The caller lends what it says it lends.
#[no_mangle]
pub unsafe extern "C" fn planner_runs(
    tables: *const u8,
    tables_length: usize,
    terms: *const u8,
    terms_length: usize,
    x: u32,
    y: u32,
    z: u32,
    w: u32,
    v: u32,
    counter: u32,
    runs: u32,
    count: u32,
    noise: u32,
    tries: u32,
    flips: u32,
    mode: u32,
    heuristic: u32,
    chance: u32,
    numbers: *mut u8,
    numbers_length: usize,
    assignment: *mut u8,
    assignment_length: usize,
    work_tables: *mut u8,
    work_tables_length: usize,
    work_terms: *mut u8,
    work_terms_length: usize,
    work_assignment: *mut u8,
    work_assignment_length: usize,
    work_tallies: *mut u8,
    work_tallies_length: usize,
    work_marks: *mut u8,
    work_marks_length: usize,
) -> Figures {
    let words = [x, y, z, w, v];
    let state = Xorwow { words, counter };
    let trial = Trial { state, runs, count };
    if let Some(refusal) = trial.refusal() {
        return Figures::refused(refusal);
    }
    let settings = Settings {
        noise,
        tries,
        flips,
        mode,
        heuristic,
        chance,
    };
    let work = [
        write(work_tables, work_tables_length),
        write(work_terms, work_terms_length),
        write(work_assignment, work_assignment_length),
        write(work_tallies, work_tallies_length),
        write(work_marks, work_marks_length),
    ];
    let mut others = work_sizes(&work);
    others.extend([
        (assignment_length, ASSIGNMENT),
        (numbers_length, figures::NUMBERS),
    ]);
    let (tables, terms) = (read(tables, tables_length), read(terms, terms_length));
    match asked(plan_of(tables, terms, &others), &settings) {
        Ok(plan) => {
            clear(work);
            write(assignment, assignment_length)[..ASSIGNMENT].fill(0);
            write(numbers, numbers_length)[..figures::NUMBERS].fill(0);
            Figures::from(figures::figures(&figures::answers(
                &plan, &settings, &trial,
            )))
        }
        Err(refusal) => Figures::refused(refusal),
    }
}

/// # Safety
/// The caller lends what it says it lends.
#[no_mangle]
pub unsafe extern "C" fn planner_squeeze(
    file: *mut u8,
    file_length: usize,
    old: *mut u8,
    old_length: usize,
) -> Squeezed {
    let (file, old) = (write(file, file_length), write(old, old_length));
    match reference::squeeze::squeeze(file, old) {
        Ok(answer) => Squeezed {
            refusal: 0,
            offset: 0,
            length: answer.length,
            constant: answer.constant,
        },
        Err(refusal) => Squeezed {
            refusal: refusal.number,
            offset: refusal.offset,
            length: 0,
            constant: 0,
        },
    }
}

/// A race's settings, which are six words.
fn settings_at(bytes: &[u8], race: usize) -> Settings {
    let words = numbers_of(&bytes[24 * race..24 * race + 24]);
    Settings {
        noise: words[0],
        tries: words[1],
        flips: words[2],
        mode: words[3],
        heuristic: words[4],
        chance: words[5],
    }
}

/// An answer's bytes, as C lays out the record.
fn answer_bytes(answer: &Searched) -> Vec<u8> {
    let mut bytes = Vec::new();
    bytes.extend(answer.refusal.to_le_bytes());
    bytes.extend(answer.ending.to_le_bytes());
    bytes.extend(answer.cost.to_le_bytes());
    for word in [answer.finds, answer.flips, answer.used] {
        bytes.extend(word.to_le_bytes());
    }
    bytes
}

/// What the races of a festival read.
struct Entered<'a> {
    numbers: &'a [u32],
    settings: &'a [u8],
    plans: [(&'a [u8], &'a [u8]); RACES],
}

/// Every race with its part: 21, 61, 62 before any search.
fn festival(
    races: &mut [usize],
    entered: &Entered,
    assignments: &mut [u8],
    answers: &mut [u8],
    work: [&mut [u8]; 5],
) -> u32 {
    let lengths = [entered.settings.len(), assignments.len(), answers.len()];
    let sizes = [24 * RACES, ASSIGNMENT * RACES, 40 * RACES];
    if lengths
        .iter()
        .zip(sizes)
        .any(|(&length, size)| length < size)
    {
        return 21;
    }
    let stakes: Vec<usize> = races.chunks_exact(3).map(|race| race[0]).collect();
    let parts = match split(&stakes, entered.numbers.len()) {
        Ok(parts) => parts,
        Err(refusal) => return refusal,
    };
    let others = work_sizes(&work);
    let mut any = false;
    for (i, part) in parts.iter().enumerate() {
        let settings = settings_at(entered.settings, i);
        let (tables, terms) = entered.plans[i];
        let own = &mut assignments[ASSIGNMENT * i..ASSIGNMENT * (i + 1)];
        let list = &entered.numbers[part.first..part.first + part.length];
        let plan = asked(plan_of(tables, terms, &others), &settings);
        any |= plan.is_ok();
        let answer = plan.map_or_else(refused, |plan| searched(&plan, &settings, list, own));
        answers[40 * i..40 * (i + 1)].copy_from_slice(&answer_bytes(&answer));
        (races[3 * i + 1], races[3 * i + 2]) = (part.first, part.length);
    }
    if any {
        clear(work);
    }
    0
}

/// # Safety
/// The caller lends what it says it lends.
#[no_mangle]
pub unsafe extern "C" fn planner_races(
    races: *mut usize,
    races_length: usize,
    numbers: *const u8,
    numbers_length: usize,
    settings: *const u8,
    settings_length: usize,
    tables1: *const u8,
    tables1_length: usize,
    terms1: *const u8,
    terms1_length: usize,
    tables2: *const u8,
    tables2_length: usize,
    terms2: *const u8,
    terms2_length: usize,
    tables3: *const u8,
    tables3_length: usize,
    terms3: *const u8,
    terms3_length: usize,
    tables4: *const u8,
    tables4_length: usize,
    terms4: *const u8,
    terms4_length: usize,
    tables5: *const u8,
    tables5_length: usize,
    terms5: *const u8,
    terms5_length: usize,
    tables6: *const u8,
    tables6_length: usize,
    terms6: *const u8,
    terms6_length: usize,
    tables7: *const u8,
    tables7_length: usize,
    terms7: *const u8,
    terms7_length: usize,
    tables8: *const u8,
    tables8_length: usize,
    terms8: *const u8,
    terms8_length: usize,
    assignments: *mut u8,
    assignments_length: usize,
    answers: *mut u8,
    answers_length: usize,
    work_tables: *mut u8,
    work_tables_length: usize,
    work_terms: *mut u8,
    work_terms_length: usize,
    work_assignment: *mut u8,
    work_assignment_length: usize,
    work_tallies: *mut u8,
    work_tallies_length: usize,
    work_marks: *mut u8,
    work_marks_length: usize,
) -> u32 {
    let plans = [
        (read(tables1, tables1_length), read(terms1, terms1_length)),
        (read(tables2, tables2_length), read(terms2, terms2_length)),
        (read(tables3, tables3_length), read(terms3, terms3_length)),
        (read(tables4, tables4_length), read(terms4, terms4_length)),
        (read(tables5, tables5_length), read(terms5, terms5_length)),
        (read(tables6, tables6_length), read(terms6, terms6_length)),
        (read(tables7, tables7_length), read(terms7, terms7_length)),
        (read(tables8, tables8_length), read(terms8, terms8_length)),
    ];
    let work = [
        write(work_tables, work_tables_length),
        write(work_terms, work_terms_length),
        write(work_assignment, work_assignment_length),
        write(work_tallies, work_tallies_length),
        write(work_marks, work_marks_length),
    ];
    let entered = Entered {
        numbers: &numbers_of(read(numbers, numbers_length)),
        settings: read(settings, settings_length),
        plans,
    };
    let (assignments, answers) = (
        write(assignments, assignments_length),
        write(answers, answers_length),
    );
    festival(
        write(races, races_length),
        &entered,
        assignments,
        answers,
        work,
    )
}
