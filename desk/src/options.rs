//! Words that begin with two hyphens, which may stand anywhere in a command.

use crate::console::{unable, Stop};
use crate::files::MOST_NUMBERS;
use reference::figures::MOST_RUNS;

/// What a command is asked beside its words.
#[derive(Clone, Debug, Default, PartialEq, Eq)]
pub struct Options {
    /// The reference answers too, and has to agree.
    pub check: bool,
    pub seed: Option<u64>,
    pub numbers: Option<usize>,
    pub folder: Option<String>,
    pub runs: Option<u32>,
    pub best: Option<i64>,
}

/// A whole number in a range.
pub fn number(what: &str, word: &str, most: u64) -> Result<u64, Stop> {
    match word.parse() {
        Ok(number) if number <= most => Ok(number),
        _ => unable(format!(
            "{what} is a whole number from 0 to {most}, not '{word}'"
        )),
    }
}

/// How many numbers are drawn.
pub fn count(what: &str, word: &str) -> Result<usize, Stop> {
    Ok(number(what, word, MOST_NUMBERS as u64)? as usize)
}

/// A number that is not 0.
fn positive(what: &str, word: &str, most: u64) -> Result<u64, Stop> {
    match number(what, word, most) {
        Ok(number) if number > 0 => Ok(number),
        _ => unable(format!(
            "{what} is a whole number from 1 to {most}, not '{word}'"
        )),
    }
}

fn cost(word: &str) -> Result<i64, Stop> {
    match word.parse() {
        Ok(cost) => Ok(cost),
        Err(_) => unable(format!("--best is a whole number, not '{word}'")),
    }
}

impl Options {
    fn set(&mut self, name: &str, word: &str) -> Result<(), Stop> {
        match name {
            "--seed" => self.seed = Some(number(name, word, u64::MAX)?),
            "--numbers" => {
                self.numbers = Some(positive(name, word, MOST_NUMBERS as u64)? as usize);
            }
            "--runs" => self.runs = Some(positive(name, word, MOST_RUNS as u64)? as u32),
            "--best" => self.best = Some(cost(word)?),
            "--folder" => self.folder = Some(word.to_string()),
            _ => return unable(format!("no option is called '{name}'; try desk help")),
        }
        Ok(())
    }

    /// The words of a command without its options, and these.
    pub fn split<'a>(arguments: &[&'a str]) -> Result<(Vec<&'a str>, Options), Stop> {
        let (mut words, mut options) = (Vec::new(), Options::default());
        let mut left = arguments.iter();
        while let Some(&word) = left.next() {
            match word {
                "--help" => words.push(word),
                "--check" => options.check = true,
                name if name.starts_with("--") => match left.next() {
                    Some(value) => options.set(name, value)?,
                    None => return unable(format!("{name} has a value after it")),
                },
                word => words.push(word),
            }
        }
        Ok((words, options))
    }

    /// The seed, unless the command's own word gives it.
    pub fn seed_or(&self, word: Option<&str>) -> Result<u64, Stop> {
        match word {
            Some(word) => number("SEED", word, u64::MAX),
            None => Ok(self.seed.unwrap_or(1)),
        }
    }

    /// How many numbers are drawn, unless the command's own word says it.
    pub fn count_or(&self, word: Option<&str>) -> Result<usize, Stop> {
        match word {
            Some(word) => count("COUNT", word),
            None => Ok(self.numbers.unwrap_or(MOST_NUMBERS)),
        }
    }
}
