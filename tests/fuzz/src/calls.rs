//! Opening, flip and counts on any tables, assignment and tallies.

use crate::figures::Figures;
use crate::making;
use harness::guarded::Guarded;
use harness::layout::{self, ASSIGNMENT, TABLES, TALLIES, TERM_TABLE};
use harness::planner::{counts, flip, open, Counted, Flipped};
use reference::book::{Answer, Book, Call};
use reference::counts::Count;
use reference::plan::Plan;
use reference::random::{self, Random};
use reference::tallies::Tallies;

const SIZES: [usize; 4] = [TABLES, TERM_TABLE, ASSIGNMENT, TALLIES];

/// The plan and its bits where opening accepts them; else the first condition met in the order 21,
/// 22, 24.
fn opened(lent: &[Guarded; 4]) -> Result<(Plan, Vec<bool>), u32> {
    let [tables, terms, assignment, _] = lent;
    if lent
        .iter()
        .zip(SIZES)
        .any(|(buffer, size)| buffer.bytes().len() < size)
    {
        return Err(21);
    }
    let plan = layout::loaded(tables.bytes(), terms.bytes()).ok_or(22_u32)?;
    let bits = &assignment.bytes()[..plan.variables];
    if bits.iter().any(|&byte| byte > 1) {
        return Err(24);
    }
    let bits = bits.iter().map(|&byte| byte == 1).collect();
    Ok((plan, bits))
}

/// What the book answers to a call where 25 is not met; and the plan, and the bits after it.
fn booked(lent: &[Guarded; 4], call: Call) -> Result<(Plan, Vec<bool>, Answer), u32> {
    let (plan, bits) = opened(lent)?;
    if lent[3].bytes()[..TALLIES] != layout::tallies(&Tallies::fresh(&plan, &bits)) {
        return Err(25);
    }
    let mut book = Book::open(&plan, &bits);
    let answer = book.call(call);
    if let Answer::Refused(refusal) = answer {
        return Err(refusal);
    }
    let bits = book.bits().to_vec();
    Ok((plan, bits, answer))
}

/// On which side of the cap each count of an answer lies.
fn note_counts(figures: &mut Figures, answer: Answer) {
    let Answer::Counts {
        break_count,
        make_count,
    } = answer
    else {
        return;
    };
    let both = [break_count, make_count];
    figures.note("cut count", both.contains(&Count::CUT));
    figures.note("uncut count at the cap", both.contains(&Count::CAP));
    let below = |count: &Count| *count != Count::ZERO && *count < Count::CAP;
    figures.note("count below the cap", both.iter().any(below));
}

/// By how many rules the variable of a flip is named.
fn note_flip(figures: &mut Figures, answer: Answer) {
    let Answer::Flipped { rules } = answer else {
        return;
    };
    figures.note("flip of an unnamed variable", rules == 0);
    figures.note("flip that one rule names", rules == 1);
    figures.note("flip that several rules name", rules > 1);
}

/// What a call gives out: its refusal, how many rule tallies a flip rewrote, and the counts.
#[derive(Clone, Copy, Debug, PartialEq, Eq)]
struct Given {
    rules: u32,
    counted: Counted,
}

impl Given {
    fn refused(refusal: u32) -> Given {
        Given {
            rules: 0,
            counted: Counted::refused(refusal),
        }
    }

    fn flipped(answer: Flipped) -> Given {
        Given {
            rules: answer.rules,
            counted: Counted::refused(answer.refusal),
        }
    }

    fn counted(counted: Counted) -> Given {
        Given { rules: 0, counted }
    }

    fn booked(answer: Answer) -> Given {
        match answer {
            Answer::Flipped { .. } => Given::flipped(answer.into()),
            _ => Given::counted(answer.into()),
        }
    }
}

/// Writes an assignment and its tallies into what is lent.
fn write(lent: &mut [Guarded; 4], plan: &Plan, bits: &[bool]) {
    lent[2].lend()[..bits.len()].copy_from_slice(&layout::bits(bits));
    lent[3].lend()[..TALLIES].copy_from_slice(&layout::tallies(&Tallies::fresh(plan, bits)));
}

/// The tallies' sections begin here: sums of rules, clauses, the total.
const TALLY_SECTIONS: [usize; 3] = [0, 4_100, 6_152];

/// What is lent: the tables of a plan, an assignment and its tallies, each at times spoiled.
fn lent(random: &mut Random, plan: &Plan) -> [Guarded; 4] {
    let (tables, terms) = making::tables(random, plan);
    let bits = random.assignment(plan.variables);
    let mut assignment = layout::bits(&bits);
    let mut tallies = layout::tallies(&Tallies::fresh(plan, &bits));
    match random.below(12) {
        0 => assignment[random.below(plan.variables)] = random.number() as u8,
        1 => assignment[random.below(plan.variables)] ^= 1,
        2 => assignment.clear(),
        3 => making::spoil(random, &mut tallies, &TALLY_SECTIONS),
        4 => tallies.clear(),
        _ => {}
    }
    let held = [tables, terms, assignment, tallies];
    let mut place = 0;
    held.map(|bytes| {
        let length = making::length(random, SIZES[place]);
        place += 1;
        Guarded::sized(random, &bytes, length)
    })
}

/// One call by its name; the refusal that it gave.
pub fn case(random: &mut Random, name: &str, figures: &mut Figures) -> u32 {
    let plan = making::plan(random);
    let mut lent = lent(random, &plan);
    let tables = layout::tables(&plan).0;
    let same = |bytes: &[u8], end: usize| bytes.get(..end) == Some(&tables[..end]);
    let [_, _, locks, ends, _] = layout::SECTIONS;
    let from_locks = same(lent[0].bytes(), locks) && !same(lent[0].bytes(), TABLES);
    let order_alone = from_locks && same(lent[0].bytes(), ends);
    let variable = match random::call(random, plan.variables) {
        Call::Flip(variable) | Call::Counts(variable) => variable,
    };
    let mut wanted = lent.clone();
    let mut answer = Given::refused(0);
    if name == "open" {
        match opened(&lent) {
            Ok((plan, bits)) => {
                figures.note("opened against locks", !plan.obeyed(&bits));
                write(&mut wanted, &plan, &bits);
            }
            Err(refusal) => answer = Given::refused(refusal),
        }
    } else {
        let call = match name {
            "flip" => Call::Flip(variable),
            _ => Call::Counts(variable),
        };
        match booked(&lent, call) {
            Ok((plan, bits, booked)) => {
                let locked = plan.lock(variable as usize).is_some();
                figures.note("counts of a locked variable", locked);
                note_counts(figures, booked);
                note_flip(figures, booked);
                write(&mut wanted, &plan, &bits);
                answer = Given::booked(booked);
            }
            Err(refusal) => answer = Given::refused(refusal),
        }
    }
    let [tables, terms, assignment, tallies] = &mut lent;
    let (tables, terms) = (tables.bytes(), terms.bytes());
    let given = match name {
        "open" => Given::refused(open(tables, terms, assignment.bytes(), tallies.lend())),
        "flip" => {
            let answer = flip(tables, terms, assignment.lend(), tallies.lend(), variable);
            Given::flipped(answer)
        }
        _ => {
            let answer = counts(tables, terms, assignment.bytes(), tallies.bytes(), variable);
            Given::counted(answer)
        }
    };
    assert_eq!(given, answer, "{name} of {variable}");
    let refusal = answer.counted.refusal;
    assert!(
        lent == wanted,
        "{name} of {variable} left other bytes: {refusal}"
    );
    let refused = refusal == 22;
    figures.note(
        "changed locks refused",
        refused && from_locks && !order_alone,
    );
    figures.note("changed order refused", refused && order_alone);
    refusal
}
