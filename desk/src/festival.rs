//! `desk festival`: several races from one list of numbers, written for the box and planned.

use crate::chosen::chosen;
use crate::console::{unable, Console, Stop};
use crate::daily::{asked, searched_by, warn};
use crate::files::{
    drawn, make_folder, names_and_clauses, numbers_file, plan_files, text_of, write_all,
};
use crate::options::{number, Options};
use crate::planner;
use crate::read::Text;
use crate::screen::ending;
use crate::settings::FIRST;
use reference::walk::Settings;
use std::path::Path;

/// One race as it is asked for.
struct Entry {
    stake: usize,
    text: Text,
    settings: Settings,
}

fn entry(stake: &str, path: &str) -> Result<Entry, Stop> {
    let number = number("STAKE", stake, 100)? as usize;
    if number == 0 {
        return unable("STAKE is a number from 1 to 100, not '0'".to_string());
    }
    let text = text_of(path)?;
    Ok(Entry {
        stake: number,
        settings: text.settings.unwrap_or(FIRST),
        text,
    })
}

/// Writes one numbers.bin, races.txt, and a subfolder for each race.
fn write(folder: &Path, seed: u64, count: usize, entries: &[Entry]) -> Result<String, Stop> {
    let lines = entries.iter().enumerate();
    let list: String = lines
        .map(|(i, entry)| format!("{} race{}\n", entry.stake, i + 1))
        .collect();
    let whole = [
        numbers_file(seed, count),
        ("races.txt", list.into_bytes(), String::new()),
    ];
    make_folder(folder)?;
    let mut out = write_all(folder, &whole)?;
    for (i, entry) in entries.iter().enumerate() {
        let subfolder = folder.join(format!("race{}", i + 1));
        make_folder(&subfolder)?;
        let words = names_and_clauses(&entry.text);
        out += &write_all(
            &subfolder,
            &plan_files(&entry.text.plan, &entry.settings, words),
        )?;
    }
    Ok(out)
}

/// Plans every race, and tells what was found; whether all found a plan.
fn plan(
    entries: &[Entry],
    numbers: &[u32],
    check: bool,
    console: &mut Console,
) -> Result<bool, Stop> {
    let races: Vec<_> = entries
        .iter()
        .map(|entry| (entry.stake, entry.text.plan.clone(), entry.settings))
        .collect();
    let answers = asked(planner::races(&races, numbers, check))?;
    let mut all = true;
    for (i, (entry, race)) in entries.iter().zip(&answers).enumerate() {
        let (first, end) = (race.first, race.first + race.length);
        let words = ending(race.found.ending);
        console.say(&format!(
            "race{}: numbers {first} to {end}. {words}\n",
            i + 1
        ));
        match &race.found.assignment {
            Some(assignment) => console.say(&chosen(&entry.text, assignment).0),
            None => all = false,
        }
    }
    console.say(searched_by(check));
    Ok(all)
}

/// `desk festival FOLDER [SEED COUNT] STAKE PLAN.txt ..`: what follows the folder is a seed and a
/// count where its second word is a number.
pub fn festival(
    folder: &str,
    words: &[&str],
    options: &Options,
    console: &mut Console,
) -> Result<u8, Stop> {
    let drawn_for = words.get(1).is_some_and(|word| word.parse::<u64>().is_ok());
    let (seed, count, races) = match drawn_for {
        true => (Some(words[0]), Some(words[1]), &words[2..]),
        false => (None, None, words),
    };
    let (seed, count) = (options.seed_or(seed)?, options.count_or(count)?);
    let pairs = races.chunks_exact(2);
    let entries: Vec<Entry> = pairs
        .map(|race| entry(race[0], race[1]))
        .collect::<Result<_, _>>()?;
    for entry in &entries {
        warn(&entry.text, console);
    }
    console.say(&write(Path::new(folder), seed, count, &entries)?);
    let all = plan(&entries, &drawn(seed, count), options.check, console)?;
    Ok(!all as u8)
}
