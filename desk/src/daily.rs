//! `desk plan`: the planner's daily loop. A text becomes the box's files, is searched, and what was
//! found is told by name.

use crate::chosen::{chosen, clause_called};
use crate::console::{faulty, Console, Stop};
use crate::files::{
    box_folder, drawn, five_files, make_folder, names_and_clauses, text_of, write_all,
};
use crate::finds::Finds;
use crate::options::Options;
use crate::planner::{Found, Planner, PROVED};
use crate::print::walk;
use crate::read::Text;
use crate::relaxed::{nearly, never_met};
use crate::report::{counted, grouped};
use crate::screen::ending;
use crate::settings::{DEFAULTS, FIRST};
use reference::walk::Settings;
use std::path::PathBuf;

/// A text, the numbers drawn for it, and the folder that the box gets.
pub struct Job {
    pub text: Text,
    pub seed: u64,
    pub numbers: Vec<u32>,
    pub folder: PathBuf,
    pub check: bool,
}

impl Job {
    pub fn new(path: &str, seed: Option<&str>, options: &Options) -> Result<Job, Stop> {
        let seed = options.seed_or(seed)?;
        let count = options.count_or(None)?;
        Ok(Job {
            text: text_of(path)?,
            seed,
            numbers: drawn(seed, count),
            folder: box_folder(path, &options.folder),
            check: options.check,
        })
    }

    pub fn planner(&self) -> Planner<'_> {
        Planner::new(&self.text.plan, self.check)
    }

    /// Writes the five files that the box needs.
    pub fn write(&self, settings: &Settings) -> Result<String, Stop> {
        make_folder(&self.folder)?;
        let words = names_and_clauses(&self.text);
        let files = five_files(
            &self.text.plan,
            settings,
            self.seed,
            self.numbers.len(),
            words,
        );
        write_all(&self.folder, &files)?;
        let names: Vec<&str> = files.iter().map(|(name, ..)| *name).collect();
        let (folder, count) = (self.folder.display(), counted(self.numbers.len(), "number"));
        let seed = self.seed;
        Ok(format!(
            "wrote {folder}: {}; {count} from seed {seed}\n",
            names.join(", ")
        ))
    }
}

/// A disagreement of the two planners is a fault of ours; it is told like a file's.
pub fn asked<T>(answer: Result<T, String>) -> Result<T, Stop> {
    match answer {
        Ok(answer) => Ok(answer),
        Err(words) => faulty(words),
    }
}

/// Who searched.
pub fn searched_by(check: bool) -> &'static str {
    match (PROVED, check) {
        (true, true) => "searched by the proved planner; the reference agrees\n",
        (true, false) => "searched by the proved planner\n",
        (false, _) => "searched by the reference: the proved archives were not there when this desk was built\n",
    }
}

/// Clauses that can never be met are told before any search.
pub fn warn(text: &Text, console: &mut Console) {
    for place in never_met(&text.plan) {
        let clause = clause_called(text, place);
        console.note(&format!(
            "desk: {clause} can never be met, whatever is chosen\n"
        ));
    }
}

/// The settings of the text; or of the desk's own those that find the cheapest plan.
pub fn settings_for(
    job: &Job,
    planner: &mut Planner,
    console: &mut Console,
) -> Result<Settings, Stop> {
    if let Some(settings) = job.text.settings {
        return Ok(settings);
    }
    let (mut best, mut least) = (FIRST, None);
    for settings in DEFAULTS {
        let found = asked(planner.search(&settings, &job.numbers))?;
        let cost = found.assignment.is_some().then_some(found.cost);
        let words = cost.map_or("nothing found".to_string(), |cost| format!("cost {cost}"));
        console.say(&format!("tried {}: {words}\n", walk(&settings).trim_end()));
        if cost.is_some_and(|cost| least.is_none_or(|least| cost < least)) {
            (best, least) = (settings, cost);
        }
    }
    Ok(best)
}

/// Searches, telling each find as it comes, and how it ended.
pub fn search(
    job: &Job,
    planner: &mut Planner,
    settings: &Settings,
    console: &mut Console,
) -> Result<Found, Stop> {
    let found = Finds {
        planner,
        settings,
        numbers: &job.numbers,
        tell: &mut |number, cost| console.say(&format!("find {number}: cost {cost}\n")),
    };
    let found = asked(found.all())?;
    let (flips, used) = (
        counted(found.flips as usize, "flip"),
        grouped(found.used as i64),
    );
    let count = counted(job.numbers.len(), "number");
    let words = ending(found.ending);
    console.say(&format!("{words}; {flips}, {used} of {count}\n"));
    Ok(found)
}

/// What stands in the way where nothing is found.
fn explain(job: &Job, console: &mut Console) -> Result<(), Stop> {
    let Some(assignment) = asked(nearly(&job.text.plan, &job.numbers, job.check))? else {
        console.say("what stands in the way was not found\n");
        return Ok(());
    };
    if job.text.plan.satisfied(&assignment) {
        console.say("with other settings there is a plan:\n");
        console.say(&chosen(&job.text, &assignment).0);
        return Ok(());
    }
    console.say("the nearest to a plan that was found:\n");
    console.say(&chosen(&job.text, &assignment).0);
    Ok(())
}

/// `desk plan PLAN.txt [SEED]`. Exit code 1 where nothing was found.
pub fn plan(
    path: &str,
    seed: Option<&str>,
    options: &Options,
    console: &mut Console,
) -> Result<u8, Stop> {
    let job = Job::new(path, seed, options)?;
    warn(&job.text, console);
    let mut planner = job.planner();
    let settings = settings_for(&job, &mut planner, console)?;
    console.say(&job.write(&settings)?);
    let found = search(&job, &mut planner, &settings, console)?;
    match &found.assignment {
        Some(assignment) => console.say(&chosen(&job.text, assignment).0),
        None => explain(&job, console)?,
    }
    console.say(searched_by(job.check));
    Ok(found.assignment.is_none() as u8)
}
