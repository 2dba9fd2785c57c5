//! Each find of a search as it comes. The planner gives the last find alone and cannot be asked how
//! far it is. But what it finds with the first part of a list is what it finds first with more of it:
//! a longer list never hurts (document 02, T-13). So the list is searched in growing parts, and where
//! a part brings more than one find, in parts between.

use crate::planner::{Found, Planner};
use reference::walk::Settings;

/// The first part has so many numbers; each is twice as long as the one before.
const FIRST_PART: usize = 256;

/// One search, its list, and whoever is told of a find: its number, from 1, and its cost.
pub struct Finds<'a, 'p> {
    pub planner: &'a mut Planner<'p>,
    pub settings: &'a Settings,
    pub numbers: &'a [u32],
    pub tell: &'a mut dyn FnMut(usize, i64),
}

impl Finds<'_, '_> {
    fn search(&mut self, part: usize) -> Result<Found, String> {
        self.planner.search(self.settings, &self.numbers[..part])
    }

    /// Tells what comes between two parts: one that is searched has so many finds, and a longer one
    /// found this.
    fn between(
        &mut self,
        part: usize,
        finds: usize,
        more: usize,
        found: &Found,
    ) -> Result<(), String> {
        if found.finds <= finds {
            return Ok(());
        }
        let middle = part + (more - part) / 2;
        if found.finds == finds + 1 || middle == part {
            (self.tell)(found.finds, found.cost);
            return Ok(());
        }
        let half = self.search(middle)?;
        self.between(part, finds, middle, &half)?;
        self.between(middle, half.finds, more, found)
    }

    /// The whole search; each find is told once, in order.
    pub fn all(mut self) -> Result<Found, String> {
        let (mut part, mut searched, mut finds) = (FIRST_PART, 0, 0);
        loop {
            part = part.min(self.numbers.len());
            let found = self.search(part)?;
            self.between(searched, finds, part, &found)?;
            if !found.is_short() || part == self.numbers.len() {
                return Ok(found);
            }
            (searched, finds) = (part, found.finds);
            part *= 2;
        }
    }
}
