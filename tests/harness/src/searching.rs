//! A search on guarded buffers, and what the reference says that it answers and leaves.

use crate::guarded::Guarded;
use crate::layout::{self, ASSIGNMENT, KEPT, MARKS, TABLES, TERM_TABLE};
use crate::planner::{self, Searched};
use reference::plan::Plan;
use reference::random::Random;
use reference::walk::{self, Ending, Seen, Settings};

/// The sizes of tables, terms and assignment, then of the work buffers.
pub const SIZES: [usize; 8] = [
    TABLES, TERM_TABLE, ASSIGNMENT, TABLES, TERM_TABLE, ASSIGNMENT, KEPT, MARKS,
];

/// The endings in the order of their numbers in the C interface, from 1.
pub const ENDINGS: [Ending; 5] = [
    Ending::Floor,
    Ending::Ended,
    Ending::None,
    Ending::ShortFound,
    Ending::ShortNone,
];

/// An ending's number in the C interface.
pub fn ending(ending: Ending) -> u32 {
    1 + ENDINGS.iter().position(|&each| each == ending).unwrap() as u32
}

/// The answer that carries this refusal.
pub fn refused(refusal: u32) -> Searched {
    Searched {
        refusal,
        ending: 0,
        cost: 0,
        finds: 0,
        flips: 0,
        used: 0,
    }
}

/// What is lent to a search.
#[derive(Clone, PartialEq)]
pub struct Lent {
    pub tables: Guarded,
    pub terms: Guarded,
    pub numbers: Guarded,
    pub assignment: Guarded,
    pub work: [Guarded; 5],
}

impl Lent {
    /// Buffers of these lengths; what is not tables, terms or numbers is noise.
    pub fn sized(
        random: &mut Random,
        tables: &[u8],
        terms: &[u8],
        numbers: &[u8],
        lengths: [usize; 8],
    ) -> Lent {
        let mut buffer = |bytes: &[u8], length| Guarded::sized(random, bytes, length);
        Lent {
            tables: buffer(tables, lengths[0]),
            terms: buffer(terms, lengths[1]),
            numbers: buffer(numbers, numbers.len()),
            assignment: buffer(&[], lengths[2]),
            work: [3, 4, 5, 6, 7].map(|place| buffer(&[], lengths[place])),
        }
    }

    /// A plan's buffers, each at times longer than needed.
    pub fn new(random: &mut Random, plan: &Plan, numbers: &[u8]) -> Lent {
        let (tables, terms) = layout::tables(plan);
        let lengths = SIZES.map(|size| size + [0, random.below(9)][random.below(2)]);
        Lent::sized(random, &tables, &terms, numbers, lengths)
    }

    pub fn search(&mut self, settings: &Settings) -> Searched {
        planner::search(
            self.tables.bytes(),
            self.terms.bytes(),
            self.numbers.bytes(),
            settings,
            self.assignment.lend(),
            self.work.each_mut().map(Guarded::lend),
        )
    }

    fn lengths(&self) -> [usize; 8] {
        let [a, b, c, d, e] = self.work.each_ref().map(|buffer| buffer.bytes().len());
        let [x, y, z] = [&self.tables, &self.terms, &self.assignment].map(|b| b.bytes().len());
        [x, y, z, a, b, c, d, e]
    }

    /// The plan of the tables, where no condition is met; else the first in the order 21, 22, 11,
    /// 12, 13, 14, 15, 16.
    pub fn judged(&self, settings: &Settings) -> Result<Plan, u32> {
        if self
            .lengths()
            .iter()
            .zip(SIZES)
            .any(|(&length, size)| length < size)
        {
            return Err(21);
        }
        let plan = layout::loaded(self.tables.bytes(), self.terms.bytes()).ok_or(22_u32)?;
        settings.refusal().map_or(Ok(plan), Err)
    }

    /// The answer of the reference, what must be lent after it, and what came up in the search.
    pub fn wanted(&self, settings: &Settings) -> (Searched, Lent, Seen) {
        let mut left = self.clone();
        let plan = match self.judged(settings) {
            Ok(plan) => plan,
            Err(refusal) => return (refused(refusal), left, Seen::default()),
        };
        let words = self.numbers.bytes().chunks_exact(4);
        let numbers: Vec<u32> = words
            .map(|word| u32::from_le_bytes(word.try_into().unwrap()))
            .collect();
        let (answer, seen) = walk::search_seen(&plan, settings, &numbers).unwrap();
        if let Some(found) = answer.found() {
            left.assignment.lend()[..found.len()].copy_from_slice(&layout::bits(found));
        }
        for (buffer, size) in left.work.iter_mut().zip(&SIZES[3..]) {
            buffer.lend()[..*size].fill(0);
        }
        let searched = Searched {
            refusal: 0,
            ending: ending(answer.ending),
            cost: answer.cost,
            finds: answer.finds.len(),
            flips: answer.flips as usize,
            used: answer.used,
        };
        (searched, left, seen)
    }

    /// Searches, and compares the answer and every byte, the guards too, with the reference.
    pub fn check(self, settings: &Settings) -> Searched {
        self.check_seen(settings).0
    }

    /// The same, and what came up in the search.
    pub fn check_seen(mut self, settings: &Settings) -> (Searched, Seen) {
        let (wanted, left, seen) = self.wanted(settings);
        assert_eq!(self.search(settings), wanted, "{settings:?}");
        assert!(self == left, "a search left other bytes: {wanted:?}");
        (wanted, seen)
    }
}
