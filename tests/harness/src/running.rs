//! Many runs on guarded buffers, and what the reference says that is reported and left.

use crate::guarded::Guarded;
use crate::planner::{self, Figures};
use crate::searching::{Lent, SIZES};
use reference::figures::{answers, figures, Trial, NUMBERS};
use reference::walk::Settings;

impl Lent {
    pub fn runs(&mut self, trial: &Trial, settings: &Settings) -> Figures {
        planner::runs(
            self.tables.bytes(),
            self.terms.bytes(),
            trial,
            settings,
            self.numbers.lend(),
            self.assignment.lend(),
            self.work.each_mut().map(Guarded::lend),
        )
    }

    /// The figures of the reference, where no condition is met; else the first in the order 41, 42,
    /// 43 and the search's own, 21 being for the room for numbers too.
    fn reported(&self, trial: &Trial, settings: &Settings) -> Result<Figures, u32> {
        trial.refusal().map_or(Ok(()), Err)?;
        if self.numbers.bytes().len() < NUMBERS {
            return Err(21);
        }
        let plan = self.judged(settings)?;
        Ok(figures(&answers(&plan, settings, trial)).into())
    }

    /// Makes the runs, and compares the figures and every byte, the guards too, with the reference.
    pub fn check_runs(mut self, trial: &Trial, settings: &Settings) -> Figures {
        let mut left = self.clone();
        let wanted = match self.reported(trial, settings) {
            Err(refusal) => Figures::refused(refusal),
            Ok(figures) => {
                left.numbers.lend()[..NUMBERS].fill(0);
                left.assignment.lend()[..SIZES[2]].fill(0);
                for (buffer, size) in left.work.iter_mut().zip(&SIZES[3..]) {
                    buffer.lend()[..*size].fill(0);
                }
                figures
            }
        };
        assert_eq!(self.runs(trial, settings), wanted, "{trial:?} {settings:?}");
        assert!(self == left, "runs left other bytes: {wanted:?}");
        wanted
    }
}
