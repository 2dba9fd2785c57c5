//! The proved archives, through the calls of `archive.c`. Where they are not linked every answer is
//! None.

use crate::planner::{Figures, Found, Mapped, Race, Squeezed};
use reference::figures::Trial;
use reference::walk::Settings;

/// Whether the proved archives are linked.
pub const LINKED: bool = cfg!(proved);

/// An answer of the archive, or the number of its refusal; None where it is not linked.
pub type Answered<T> = Option<Result<T, u32>>;

#[cfg(not(proved))]
mod linked {
    use super::*;

    pub struct Room;

    impl Room {
        pub fn of(_: &[u8]) -> Room {
            Room
        }

        pub fn search(&mut self, _: &Settings, _: &[u8]) -> Answered<Found> {
            None
        }

        pub fn runs(&mut self, _: &Settings, _: &Trial) -> Answered<Figures> {
            None
        }

        pub fn opb(&self) -> Answered<String> {
            None
        }
    }

    pub fn squeeze(_: &[u8]) -> Answered<Squeezed> {
        None
    }

    pub fn races(_: &mut [Room], _: &[(usize, Settings)], _: &[u8]) -> Answered<Vec<Race>> {
        None
    }

    pub fn map(_: &[u8], _: &[u8]) -> Option<Mapped> {
        None
    }
}

#[cfg(proved)]
mod linked {
    use super::*;
    use reference::csv::{Refusal, LEAST_ROOM};
    use reference::file::MOST_VARIABLES;
    use reference::walk::Ending;

    mod raw {
        extern "C" {
            pub fn desk_room_size() -> usize;
            pub fn desk_load(room: *mut u8, file: *const u8, length: usize, answer: *mut i64);
            pub fn desk_search(
                room: *mut u8,
                settings: *const u32,
                numbers: *const u8,
                length: usize,
                answer: *mut i64,
                assignment: *mut u8,
            );
            pub fn desk_runs(
                room: *mut u8,
                settings: *const u32,
                from: *const u32,
                runs: u32,
                count: u32,
                answer: *mut i64,
            );
            pub fn desk_squeeze(file: *mut u8, length: usize, old: *mut u32, answer: *mut i64);
            pub fn desk_write_opb(room: *const u8, text: *mut u8, length: usize, answer: *mut i64);
            pub fn desk_races(
                rooms: *const *mut u8,
                stakes: *const u64,
                settings: *const u32,
                count: usize,
                numbers: *const u8,
                length: usize,
                answers: *mut i64,
                assignments: *mut u8,
                refusal: *mut i64,
            );
            pub fn desk_map(
                sites: *const u8,
                sites_length: usize,
                zones: *const u8,
                zones_length: usize,
                plan: *mut u8,
                plan_length: usize,
                answer: *mut i64,
            );
        }
    }

    /// PLANNER_TEXT_OUTGROWS: the answer's length is what the text needs.
    const OUTGROWS: u32 = 33;

    /// The buffers of one loaded plan.
    pub struct Room {
        bytes: Vec<u8>,
        variables: usize,
    }

    fn row(settings: &Settings) -> [u32; 6] {
        [
            settings.noise,
            settings.tries,
            settings.flips,
            settings.mode,
            settings.heuristic,
            settings.chance,
        ]
    }

    fn ending(number: i64) -> Ending {
        match number {
            1 => Ending::Floor,
            2 => Ending::Ended,
            3 => Ending::None,
            4 => Ending::ShortFound,
            5 => Ending::ShortNone,
            other => panic!("no ending has the number {other}"),
        }
    }

    /// What a search's six numbers and its assignment say.
    fn found(answer: &[i64], assignment: &[u8]) -> Result<Found, u32> {
        if answer[0] != 0 {
            return Err(answer[0] as u32);
        }
        let finds = answer[3] as usize;
        let bits = || assignment.iter().map(|&byte| byte == 1).collect();
        Ok(Found {
            ending: ending(answer[1]),
            cost: answer[2],
            finds,
            flips: answer[4] as u64,
            used: answer[5] as usize,
            assignment: (finds > 0).then(bits),
        })
    }

    impl Room {
        /// A room with the plan of an accepted file.
        pub fn of(file: &[u8]) -> Room {
            let mut bytes = vec![0; unsafe { raw::desk_room_size() }];
            let mut answer = [0; 2];
            unsafe {
                raw::desk_load(
                    bytes.as_mut_ptr(),
                    file.as_ptr(),
                    file.len(),
                    answer.as_mut_ptr(),
                );
            }
            assert_eq!(answer[0], 0, "a plan that was written is loaded");
            // The file's first field is the number of variables.
            let variables = u16::from_le_bytes([file[3], file[4]]) as usize;
            Room { bytes, variables }
        }

        pub fn search(&mut self, settings: &Settings, numbers: &[u8]) -> Answered<Found> {
            let (mut answer, mut assignment) = ([0; 6], [0; MOST_VARIABLES]);
            unsafe {
                raw::desk_search(
                    self.bytes.as_mut_ptr(),
                    row(settings).as_ptr(),
                    numbers.as_ptr(),
                    numbers.len(),
                    answer.as_mut_ptr(),
                    assignment.as_mut_ptr(),
                );
            }
            Some(found(&answer, &assignment[..self.variables]))
        }

        pub fn runs(&mut self, settings: &Settings, trial: &Trial) -> Answered<Figures> {
            let [x, y, z, w, v] = trial.state.words;
            let from = [x, y, z, w, v, trial.state.counter];
            let mut answer = [0; 8];
            unsafe {
                raw::desk_runs(
                    self.bytes.as_mut_ptr(),
                    row(settings).as_ptr(),
                    from.as_ptr(),
                    trial.runs,
                    trial.count,
                    answer.as_mut_ptr(),
                );
            }
            let [refusal, some, share, shares, flips, of_flips, cost, costs] = answer;
            if refusal != 0 {
                return Some(Err(refusal as u32));
            }
            Some(Ok(Figures {
                share: (share, shares as u64),
                flips: (flips, of_flips as u64),
                cost: (some == 1).then_some((cost, costs as u64)),
            }))
        }

        /// The refusal and the length of the plan's OPB text, which is written where it has room.
        fn opb_into(&self, text: &mut [u8]) -> (u32, usize) {
            let mut answer = [0; 2];
            let (bytes, length) = (text.as_mut_ptr(), text.len());
            unsafe {
                raw::desk_write_opb(self.bytes.as_ptr(), bytes, length, answer.as_mut_ptr());
            }
            (answer[0] as u32, answer[1] as usize)
        }

        /// The plan as an OPB text, which is lent as much room as it asks for.
        pub fn opb(&self) -> Answered<String> {
            let mut text = Vec::new();
            let mut answer = self.opb_into(&mut text);
            if answer.0 == OUTGROWS {
                text.resize(answer.1, 0);
                answer = self.opb_into(&mut text);
            }
            let (refusal, length) = answer;
            if refusal != 0 {
                return Some(Err(refusal));
            }
            text.truncate(length);
            Some(Ok(String::from_utf8(text).expect("an OPB text is ASCII")))
        }
    }

    pub fn squeeze(file: &[u8]) -> Answered<Squeezed> {
        let mut file = file.to_vec();
        let (mut old, mut answer) = ([0; MOST_VARIABLES], [0; 4]);
        unsafe {
            raw::desk_squeeze(
                file.as_mut_ptr(),
                file.len(),
                old.as_mut_ptr(),
                answer.as_mut_ptr(),
            );
        }
        let [refusal, _, length, constant] = answer;
        if refusal != 0 {
            return Some(Err(refusal as u32));
        }
        file.truncate(length as usize);
        let old = old.iter().take_while(|&&number| number > 0);
        Some(Ok(Squeezed {
            file,
            constant,
            old: old.map(|&number| number as usize).collect(),
        }))
    }

    pub fn races(
        rooms: &mut [Room],
        races: &[(usize, Settings)],
        numbers: &[u8],
    ) -> Answered<Vec<Race>> {
        let pointers: Vec<*mut u8> = rooms.iter_mut().map(|r| r.bytes.as_mut_ptr()).collect();
        let stakes: Vec<u64> = races.iter().map(|&(stake, _)| stake as u64).collect();
        let settings: Vec<u32> = races.iter().flat_map(|(_, each)| row(each)).collect();
        let mut answers = vec![0; 8 * races.len()];
        let mut assignments = vec![0; MOST_VARIABLES * races.len()];
        let mut refusal = 0;
        unsafe {
            raw::desk_races(
                pointers.as_ptr(),
                stakes.as_ptr(),
                settings.as_ptr(),
                races.len(),
                numbers.as_ptr(),
                numbers.len(),
                answers.as_mut_ptr(),
                assignments.as_mut_ptr(),
                &mut refusal,
            );
        }
        if refusal != 0 {
            return Some(Err(refusal as u32));
        }
        let bytes = assignments.chunks(MOST_VARIABLES);
        let each = rooms.iter().zip(answers.chunks(8).zip(bytes));
        let race = |(room, (answer, bytes)): (&Room, (&[i64], &[u8]))| {
            Ok(Race {
                first: answer[6] as usize,
                length: answer[7] as usize,
                found: found(&answer[..6], &bytes[..room.variables])?,
            })
        };
        Some(each.map(race).collect())
    }

    pub fn map(sites: &[u8], zones: &[u8]) -> Option<Mapped> {
        let (mut plan, mut answer) = (vec![0; LEAST_ROOM], [0; 4]);
        unsafe {
            raw::desk_map(
                sites.as_ptr(),
                sites.len(),
                zones.as_ptr(),
                zones.len(),
                plan.as_mut_ptr(),
                plan.len(),
                answer.as_mut_ptr(),
            );
        }
        let [number, list, row, length] = answer;
        if number != 0 {
            return Some(Err(Refusal {
                number: number as u32,
                list: list as u32,
                row: row as usize,
            }));
        }
        plan.truncate(length as usize);
        Some(Ok(plan))
    }
}

pub use linked::{map, races, squeeze, Room};
