//! Festivals of any races, held to the reference: the split of the list, and each race's answer and
//! assignment to a search of its own.

use crate::guarded::Guarded;
use crate::layout::{self, ASSIGNMENT};
use crate::planner::Searched;
use crate::races::{plan_races, share, Race};
use crate::searching::{Lent, SIZES};
use reference::races::{split, Part, RACES};
use reference::random::{self, Random};
use reference::walk::Settings;

const SETTINGS: usize = 24;
const ANSWER: usize = 40;

/// Records with these stakes; what the call writes is noise before.
fn records(random: &mut Random, stakes: &[usize]) -> Vec<Race> {
    let race = |&stake: &usize| Race {
        stake,
        first: random.draw() as usize,
        length: random.draw() as usize,
    };
    stakes.iter().map(race).collect()
}

/// The records with these parts.
fn placed(races: &[Race], parts: &[Part]) -> Vec<Race> {
    let with = |(race, part): (&Race, &Part)| Race {
        stake: race.stake,
        first: part.first,
        length: part.length,
    };
    races.iter().zip(parts).map(with).collect()
}

/// Splits a list, and compares the answer and every record with the reference.
pub fn check_split(
    random: &mut Random,
    stakes: &[usize],
    numbers: usize,
) -> Result<Vec<Part>, u32> {
    let mut races = records(random, stakes);
    let before = races.clone();
    let answer = share(&mut races, numbers);
    let wanted = split(stakes, numbers);
    let (refusal, left) = match &wanted {
        Ok(parts) => (0, placed(&before, parts)),
        Err(refusal) => (*refusal, before),
    };
    assert_eq!(answer, refusal, "{stakes:?} {numbers}");
    assert_eq!(races, left, "{stakes:?} {numbers}");
    wanted
}

/// Stakes of 0 to 9 races, now and then one out of range.
pub fn any_stakes(random: &mut Random) -> Vec<usize> {
    let count = random.below(RACES + 2);
    let mut stakes: Vec<usize> = (0..count).map(|_| 1 + random.below(100)).collect();
    if count > 0 && random.percent(10) {
        let place = random.below(count);
        stakes[place] = [0, 101, usize::MAX][random.below(3)];
    }
    stakes
}

/// A race: what its search is lent beside its part and the work buffers, and its settings.
struct Entered {
    tables: Vec<u8>,
    terms: Vec<u8>,
    settings: Settings,
}

fn entered(random: &mut Random) -> Entered {
    let plan = match random.below(3) {
        0 => random::small_plan(random),
        1 => random::small_met_plan(random),
        _ => random::race_plan(random),
    };
    let (mut tables, mut terms) = layout::tables(&plan);
    let place = 4 * random.below(tables.len() / 4);
    match random.below(8) {
        0 => tables[place] ^= 1,
        1 => tables.truncate(random.below(tables.len())),
        2 => terms.clear(),
        _ => (),
    }
    let settings = match random.below(4) {
        0 => random::any_settings(random),
        _ => random::settings(random),
    };
    Entered {
        tables,
        terms,
        settings,
    }
}

/// A race's settings as six words.
fn words(settings: &Settings) -> [u32; 6] {
    let Settings {
        noise,
        tries,
        flips,
        mode,
        heuristic,
        chance,
    } = *settings;
    [noise, tries, flips, mode, heuristic, chance]
}

/// An answer's bytes, as C lays out the record.
fn bytes(answer: &Searched) -> Vec<u8> {
    let mut bytes = Vec::new();
    bytes.extend(answer.refusal.to_le_bytes());
    bytes.extend(answer.ending.to_le_bytes());
    bytes.extend(answer.cost.to_le_bytes());
    bytes.extend(answer.finds.to_le_bytes());
    bytes.extend(answer.flips.to_le_bytes());
    bytes.extend(answer.used.to_le_bytes());
    bytes
}

/// Plans a festival in guarded buffers, one of them perhaps too short, with up to so many numbers,
/// and compares everything with searches of their own. A cut record and a cut number behind the
/// whole ones are no race's. The refusals of the races, or the festival's.
pub fn check_festival(
    random: &mut Random,
    stakes: &[usize],
    short: Option<usize>,
    most: usize,
) -> Result<Vec<u32>, u32> {
    let races: Vec<Entered> = (0..RACES).map(|_| entered(random)).collect();
    let count = [0, 1, most / 100, most / 10, most][random.below(5)];
    let mut list: Vec<u8> = random
        .numbers(count)
        .iter()
        .flat_map(|number| number.to_le_bytes())
        .collect();
    list.resize(list.len() + random.below(4), 0xa5);
    let sizes = [RACES * SETTINGS, RACES * ASSIGNMENT, RACES * ANSWER];
    let length = |place: usize, random: &mut Random| match short {
        Some(which) if which == place => random.below(sizes[place]),
        _ => sizes[place] + random.below(9),
    };
    let settings: Vec<u8> = races
        .iter()
        .flat_map(|race| words(&race.settings))
        .flat_map(u32::to_le_bytes)
        .collect();
    let settings_length = length(0, random);
    let settings = Guarded::sized(random, &settings, settings_length);
    let assignments_length = length(1, random);
    let mut assignments = Guarded::sized(random, &[], assignments_length);
    let answers_length = length(2, random);
    let mut answers = Guarded::sized(random, &[], answers_length);
    let mut work = [3, 4, 5, 6, 7].map(|place| Guarded::sized(random, &[], SIZES[place]));
    let records = records(random, stakes);
    let mut numbers: Vec<usize> = records
        .iter()
        .flat_map(|race| [race.stake, race.first, race.length])
        .collect();
    numbers.resize(numbers.len() + random.below(3), 7);
    let before = (
        numbers.clone(),
        assignments.clone(),
        answers.clone(),
        work.clone(),
    );

    let refusal = plan_races(
        &mut numbers,
        &list,
        settings.bytes(),
        std::array::from_fn(|i| (&races[i].tables[..], &races[i].terms[..])),
        assignments.lend(),
        answers.lend(),
        work.each_mut().map(Guarded::lend),
    );

    let (mut wanted_numbers, mut wanted_assignments, mut wanted_answers, mut wanted_work) = before;
    let wanted = match short {
        Some(_) => Err(21),
        None => split(stakes, list.len() / 4),
    };
    let mut refusals = Vec::new();
    for (i, part) in wanted.iter().flatten().enumerate() {
        wanted_numbers[3 * i + 1] = part.first;
        wanted_numbers[3 * i + 2] = part.length;
        let place = ASSIGNMENT * i..ASSIGNMENT * (i + 1);
        let lent = Lent {
            tables: Guarded::holding(&races[i].tables, 1),
            terms: Guarded::holding(&races[i].terms, 2),
            numbers: Guarded::holding(&list[4 * part.first..4 * (part.first + part.length)], 3),
            assignment: Guarded::holding(&wanted_assignments.bytes()[place.clone()], 4),
            work: wanted_work.clone(),
        };
        let (answer, left, _) = lent.wanted(&races[i].settings);
        wanted_assignments.lend()[place].copy_from_slice(left.assignment.bytes());
        wanted_answers.lend()[ANSWER * i..ANSWER * (i + 1)].copy_from_slice(&bytes(&answer));
        wanted_work = left.work;
        refusals.push(answer.refusal);
    }
    assert_eq!(refusal, wanted.as_ref().err().copied().unwrap_or(0));
    assert_eq!(numbers, wanted_numbers);
    assert!(assignments == wanted_assignments, "{stakes:?}");
    assert!(answers == wanted_answers, "{stakes:?}");
    assert!(work == wanted_work, "{stakes:?}");
    wanted.map(|_| refusals)
}
