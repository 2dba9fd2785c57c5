//! What examples/screen.c shows of a folder for the commands on its input, worked out by the
//! reference and written from that program's description. `tests/screen` holds the program to it.

use crate::report::plain;
use reference::book::{Answer, Book, Call};
use reference::counts::Count;
use reference::file::{parse, parse_numbers, parse_settings, Refusal};
use reference::plan::Plan;
use reference::program::{contents, MOST_BYTES};
use reference::races::{split, Part, RACES};
use reference::tallies::Tallies;
use reference::walk::{self, Ending, Settings};
use std::path::Path;

/// Room for a name, a clause's words and a command, with one byte to spare.
const NAME: usize = 40;
const CLAUSE: usize = 120;
const LINE: usize = 80;

/// A list of so many numbers is searched in parts before the whole.
const LONG_LIST: usize = 1_024;

const HELP: &str = "\
show             what is chosen
all              every site, chosen or not, and which are locked
unmet            the clauses that are not met
try SITE         what turning a site over would do
flip SITE        turn it over
search           from the files, again
races            every race of a festival
race NAME        take another race, by number or name
quit
SITE is a number or a name.
";

pub fn ending(ending: Ending) -> &'static str {
    match ending {
        Ending::Floor => "floor: found, and nothing can cost less",
        Ending::Ended => "ended: found, and a search for less found nothing",
        Ending::None => "none: nothing was found",
        Ending::ShortFound => "short-found: found, then the numbers ran out",
        Ending::ShortNone => "short-none: the numbers ran out before anything was found",
    }
}

/// The plain words of the ending that the program's first line names.
pub fn ending_named(name: &str) -> Option<&'static str> {
    let endings = [
        Ending::Floor,
        Ending::Ended,
        Ending::None,
        Ending::ShortFound,
        Ending::ShortNone,
    ];
    let named = endings.into_iter().find(|ending| ending.name() == name);
    named.map(ending)
}

/// The next line without the blanks around it. What cannot be shown becomes '?', and so does the
/// last byte that has room where more would follow.
fn line(left: &mut &[u8], room: usize) -> Option<Vec<u8>> {
    if left.is_empty() {
        return None;
    }
    let end = left.iter().position(|&byte| byte == b'\n');
    let (raw, rest) = left.split_at(end.unwrap_or(left.len()));
    *left = rest.get(1..).unwrap_or_default();
    let shown = |&byte: &u8| if byte < 32 || byte == 127 { b'?' } else { byte };
    let mut line: Vec<u8> = raw
        .iter()
        .filter(|&&byte| byte != b'\r')
        .skip_while(|&&byte| byte == b' ')
        .map(shown)
        .collect();
    if line.len() > room - 1 {
        line.truncate(room - 1);
        line[room - 2] = b'?';
    }
    while line.last() == Some(&b' ') {
        line.pop();
    }
    Some(line)
}

/// The first lines of a file, as many as there are of something; none of a file that is not there.
fn lines_of(path: &Path, count: usize, room: usize) -> Vec<Vec<u8>> {
    let bytes = std::fs::read(path).unwrap_or_default();
    let mut left = &bytes[..];
    (0..count)
        .map(|_| line(&mut left, room).unwrap_or_default())
        .collect()
}

/// The three files, once none is refused.
struct Files {
    plan: Plan,
    settings: Settings,
    numbers: Vec<u32>,
}

fn refused(what: &str, refusal: Refusal) -> Vec<u8> {
    let Refusal { number, offset } = refusal;
    let place = match number {
        1..=7 | 10 => format!(", at byte {offset}"),
        _ => String::new(),
    };
    format!("{what} is refused ({number}): {}{place}.\n", plain(number)).into_bytes()
}

fn read(folder: &Path) -> Result<Files, Vec<u8>> {
    let files = ["plan.bin", "walk.bin", "numbers.bin"];
    let [plan, walk, numbers] = files.map(|name| contents(&folder.join(name)).unwrap_or_default());
    if [&plan, &walk, &numbers]
        .iter()
        .any(|file| file.len() > MOST_BYTES)
    {
        let refusal = Refusal {
            number: 9,
            offset: 0,
        };
        return Err(refused("One of the files", refusal));
    }
    Ok(Files {
        plan: parse(&plan).map_err(|refusal| refused("plan.bin", refusal))?,
        settings: parse_settings(&walk).map_err(|refusal| refused("walk.bin", refusal))?,
        numbers: parse_numbers(&numbers).map_err(|refusal| refused("numbers.bin", refusal))?,
    })
}

/// The plan as it stands, and what was shown of it.
struct Screen<'a> {
    files: &'a Files,
    names: Vec<Vec<u8>>,
    clauses: Vec<Vec<u8>>,
    bits: Vec<bool>,
    shown: Vec<u8>,
}

impl Screen<'_> {
    fn say(&mut self, text: &str) {
        self.shown.extend(text.as_bytes());
    }

    /// Text with a name or words of the folder's files at its end.
    fn say_with(&mut self, text: &str, words: &[u8], rest: &str) {
        self.say(text);
        self.shown.extend(words);
        self.say(rest);
    }

    fn name(&self, variable: usize) -> Vec<u8> {
        match &self.names[variable - 1][..] {
            [] => format!("x{variable}").into_bytes(),
            name => name.to_vec(),
        }
    }

    /// What follows a site's name, up to the line's end.
    fn locked(&self, variable: usize) -> &'static str {
        match self.files.plan.lock(variable) {
            Some(_) => " (locked)\n",
            None => "\n",
        }
    }

    fn standing(&self, bits: &[bool]) -> String {
        let plan = &self.files.plan;
        let (cost, clauses) = (plan.cost(bits), plan.clauses.len());
        match Tallies::fresh(plan, bits).unsatisfied {
            0 => format!("cost {cost}, every clause met.\n"),
            unmet => format!("cost {cost}, {unmet} of {clauses} clauses not met.\n"),
        }
    }

    fn show(&mut self) {
        let mut chosen = 0;
        for variable in 1..=self.bits.len() {
            if self.bits[variable - 1] {
                let (name, locked) = (self.name(variable), self.locked(variable));
                self.say_with(&format!("{variable:5}  "), &name, locked);
                chosen += 1;
            }
        }
        let standing = self.standing(&self.bits);
        self.say(&format!(
            "{chosen} of {} chosen: {standing}",
            self.bits.len()
        ));
    }

    fn all(&mut self) {
        for variable in 1..=self.bits.len() {
            let answer = if self.bits[variable - 1] { "yes" } else { "no" };
            let (name, locked) = (self.name(variable), self.locked(variable));
            self.say_with(&format!("{variable:5}  {answer:3}  "), &name, locked);
        }
    }

    fn clause(&mut self, place: usize, what: &str) {
        let words = self.clauses[place].clone();
        let between = if words.is_empty() { "" } else { ": " };
        self.say_with(&format!("{:5}  {what}{between}", place + 1), &words, "\n");
    }

    fn unmet(&mut self) {
        for place in 0..self.files.plan.clauses.len() {
            if !self.files.plan.clauses[place].holds(&self.bits) {
                self.clause(place, "not met");
            }
        }
        let standing = self.standing(&self.bits);
        self.say(&format!("As it stands: {standing}"));
    }

    fn changes(&mut self, before: &[bool], after: &[bool]) {
        for place in 0..self.files.plan.clauses.len() {
            let clause = &self.files.plan.clauses[place];
            match (clause.holds(before), clause.holds(after)) {
                (true, false) => self.clause(place, "no longer met"),
                (false, true) => self.clause(place, "now met"),
                _ => {}
            }
        }
    }

    /// Searches a long list by its first sixteenth and its first quarter before the whole.
    fn search(&mut self) {
        let Files {
            plan,
            settings,
            numbers,
        } = self.files;
        let count = numbers.len();
        let mut parts = vec![count];
        if count >= LONG_LIST {
            parts = vec![count / 16, count / 4, count];
        }
        let mut parts = parts.into_iter().peekable();
        let answer = loop {
            let part = parts.next().unwrap();
            let answer = walk::search(plan, settings, &numbers[..part]).unwrap();
            let is_short = matches!(answer.ending, Ending::ShortFound | Ending::ShortNone);
            if !is_short || parts.peek().is_none() {
                break answer;
            }
            let so_far = match answer.found() {
                Some(_) => format!("cost {}", answer.cost),
                None => "nothing".to_string(),
            };
            self.say(&format!(
                "With {part} of {count} numbers: {so_far} so far.\n"
            ));
        };
        self.tell(answer);
    }

    /// Searches with the whole list at once.
    fn search_whole(&mut self) {
        let Files {
            plan,
            settings,
            numbers,
        } = self.files;
        let answer = walk::search(plan, settings, numbers).unwrap();
        self.tell(answer);
    }

    /// What a search came to.
    fn tell(&mut self, answer: walk::Answer) {
        let plan = &self.files.plan;
        let count = self.files.numbers.len();
        self.say(&format!("{}.\n", ending(answer.ending)));
        if answer.found().is_some() {
            self.say(&format!("Cost {}. ", answer.cost));
        }
        let (finds, flips, used) = (answer.finds.len(), answer.flips, answer.used);
        self.say(&format!(
            "{finds} found, {flips} flips, {used} of {count} numbers used.\n"
        ));
        // With nothing found the sites that are locked at yes are chosen, and no other.
        let none = plan.locked(&vec![false; plan.variables]);
        self.bits = answer.found().map_or(none, <[bool]>::to_vec);
        self.show();
    }

    fn refuse(&mut self, what: &str, number: u32) {
        let refusal = Refusal { number, offset: 0 };
        self.shown.extend(refused(what, refusal));
    }

    /// What turning a variable over would do.
    fn attempt(&mut self, variable: u32) {
        let mut book = Book::open(&self.files.plan, &self.bits);
        let (break_count, make_count) = match book.call(Call::Counts(variable)) {
            Answer::Counts {
                break_count,
                make_count,
            } => (break_count, make_count),
            Answer::Refused(number) => return self.refuse("This", number),
            Answer::Flipped { .. } => unreachable!(),
        };
        if let Answer::Refused(number) = book.call(Call::Flip(variable)) {
            return self.refuse("The flip", number);
        }
        let variable = variable as usize;
        let (before, after) = (self.bits.clone(), book.bits().to_vec());
        let [stands, with] = match before[variable - 1] {
            true => ["chosen", "Without"],
            false => ["not chosen", "With"],
        };
        let standing = self.standing(&after);
        let name = self.name(variable);
        self.say_with("", &name, &format!(" is {stands}. {with} it: {standing}"));
        self.changes(&before, &after);
        let count = |count: Count| match count.cut {
            true => "more than 4,294,967,295".to_string(),
            false => count.value.to_string(),
        };
        self.say(&format!(
            "Of the plan's full expansion this would spoil {} and mend {}.\n",
            count(break_count),
            count(make_count)
        ));
    }

    fn flip(&mut self, variable: u32) {
        let mut book = Book::open(&self.files.plan, &self.bits);
        if let Answer::Refused(number) = book.call(Call::Flip(variable)) {
            return self.refuse("The flip", number);
        }
        let (before, after) = (self.bits.clone(), book.bits().to_vec());
        let name = self.name(variable as usize);
        let stands = match after[variable as usize - 1] {
            true => "now chosen",
            false => "no longer chosen",
        };
        let standing = self.standing(&after);
        self.say_with("", &name, &format!(" is {stands}: {standing}"));
        self.changes(&before, &after);
        self.bits = after;
    }

    /// A number, or a name; a number with too many digits is beyond every plan.
    fn variable(&self, words: &[u8]) -> Option<u32> {
        if !words.is_empty() && words.iter().all(u8::is_ascii_digit) {
            let digits = std::str::from_utf8(words).unwrap();
            return Some(digits.parse().unwrap_or(u32::MAX));
        }
        let named = (1..=self.bits.len()).find(|&variable| self.name(variable) == words);
        named.map(|variable| variable as u32)
    }

    /// Carries out one command; whether there may be another.
    fn command(&mut self, line: &[u8]) -> bool {
        let end = line.iter().position(|&byte| byte == b' ');
        let (command, words) = line.split_at(end.unwrap_or(line.len()));
        let words = words.trim_ascii();
        match command {
            b"quit" => return false,
            b"" => {}
            b"show" => self.show(),
            b"all" => self.all(),
            b"unmet" => self.unmet(),
            b"search" => self.search(),
            b"help" => self.say(HELP),
            b"races" | b"race" => self.say("This is no festival.\n"),
            b"try" | b"flip" => match self.variable(words) {
                None => self.say_with("No site is called '", words, "'.\n"),
                Some(variable) if command == b"flip" => self.flip(variable),
                Some(variable) => self.attempt(variable),
            },
            other => self.say_with("No command is called '", other, "'; try help.\n"),
        }
        true
    }
}

/// The stake and the subfolder of a race.
fn race(line: &[u8]) -> (usize, String) {
    let digits = line.iter().take_while(|byte| byte.is_ascii_digit()).count();
    let stake = line[..digits].iter().fold(0, |stake: usize, digit| {
        if stake > 100 {
            return stake;
        }
        10 * stake + usize::from(digit - b'0')
    });
    let name = String::from_utf8_lossy(&line[digits..]);
    (stake, name.trim_start_matches(' ').to_string())
}

/// A race's plan and settings, once no file is refused.
fn read_race(folder: &Path, name: &str) -> Result<(Plan, Settings), Vec<u8>> {
    let files = ["plan.bin", "walk.bin"];
    let [plan, walk] =
        files.map(|file| contents(&folder.join(name).join(file)).unwrap_or_default());
    if plan.len() > MOST_BYTES || walk.len() > MOST_BYTES {
        return Err(plainly(name, 9));
    }
    let plan = parse(&plan).map_err(|refusal| refused(name, refusal))?;
    let settings = parse_settings(&walk).map_err(|refusal| refused(name, refusal))?;
    Ok((plan, settings))
}

fn plainly(what: &str, number: u32) -> Vec<u8> {
    refused(what, Refusal { number, offset: 0 })
}

/// What races.txt and the files of its races say.
struct Festival {
    names: Vec<String>,
    parts: Vec<Part>,
    files: Vec<Files>,
}

/// A festival: every race of races.txt with its part of the folder's numbers.
fn read_festival(folder: &Path, list: &[u8]) -> Result<Festival, Vec<u8>> {
    let mut left = list;
    let mut lines = Vec::new();
    while lines.len() <= RACES {
        let Some(line) = line(&mut left, LINE) else {
            break;
        };
        lines.push(race(&line));
    }
    let numbers = contents(&folder.join("numbers.bin")).unwrap_or_default();
    if numbers.len() > MOST_BYTES {
        return Err(plainly("numbers.bin", 9));
    }
    let numbers = parse_numbers(&numbers).map_err(|refusal| refused("numbers.bin", refusal))?;
    let mut read = Vec::new();
    for (_, name) in lines.iter().take(RACES) {
        read.push(read_race(folder, name)?);
    }
    let stakes: Vec<usize> = lines.iter().map(|(stake, _)| *stake).collect();
    let parts = split(&stakes, numbers.len()).map_err(|number| plainly("The festival", number))?;
    let files = read.into_iter().zip(&parts);
    let files = files.map(|((plan, settings), part)| Files {
        plan,
        settings,
        numbers: numbers[part.first..part.first + part.length].to_vec(),
    });
    Ok(Festival {
        names: lines.iter().map(|(_, name)| name.clone()).collect(),
        files: files.collect(),
        parts,
    })
}

/// The festival's races on the screen, and which of them commands are for.
struct Races<'a> {
    festival: &'a Festival,
    screens: Vec<Screen<'a>>,
    taken: usize,
    shown: Vec<u8>,
}

impl Races<'_> {
    fn say(&mut self, text: &str) {
        self.shown.extend(text.as_bytes());
    }

    /// What a race's screen has to show comes after what was shown before.
    fn gather(&mut self, place: usize) {
        let shown = std::mem::take(&mut self.screens[place].shown);
        self.shown.extend(shown);
    }

    fn search(&mut self) {
        for place in 0..self.screens.len() {
            let part = self.festival.parts[place];
            let (name, end) = (&self.festival.names[place], part.first + part.length);
            let line = format!("{name}: numbers {} to {end}. ", part.first);
            self.say(&line);
            self.screens[place].search_whole();
            self.gather(place);
        }
        self.taken = 0;
        let first = &self.festival.names[0];
        self.say(&format!(
            "Commands are for {first}; race NAME takes another.\n"
        ));
    }

    fn list(&mut self) {
        for place in 0..self.screens.len() {
            let screen = &self.screens[place];
            let (name, standing) = (&self.festival.names[place], screen.standing(&screen.bits));
            let line = format!("{:5}  {name}: {standing}", place + 1);
            self.say(&line);
        }
    }

    fn take(&mut self, words: &[u8]) {
        let names = self.festival.names.iter().enumerate();
        let called = |(place, name): (usize, &String)| {
            let number = (place + 1).to_string();
            (number.as_bytes() == words || name.as_bytes() == words).then_some(place)
        };
        let Some(place) = names.into_iter().find_map(called) else {
            self.say("No race is called '");
            self.shown.extend(words);
            return self.say("'.\n");
        };
        self.taken = place;
        let name = &self.festival.names[place];
        self.say(&format!("{name}.\n"));
        self.screens[place].show();
        self.gather(place);
    }

    /// Carries out one command; whether there may be another.
    fn command(&mut self, line: &[u8]) -> bool {
        let end = line.iter().position(|&byte| byte == b' ');
        let (command, words) = line.split_at(end.unwrap_or(line.len()));
        match command {
            b"search" => self.search(),
            b"races" => self.list(),
            b"race" => self.take(words.trim_ascii()),
            _ => {
                let more = self.screens[self.taken].command(line);
                self.gather(self.taken);
                return more;
            }
        }
        true
    }
}

/// What is shown of a festival.
fn festival_session(folder: &Path, festival: &Festival, mut input: &[u8]) -> Vec<u8> {
    let screen = |(name, files)| screen_of(&folder.join::<&String>(name), files);
    let screens = festival.names.iter().zip(&festival.files).map(screen);
    let mut races = Races {
        festival,
        screens: screens.collect(),
        taken: 0,
        shown: Vec::new(),
    };
    races.search();
    while let Some(line) = line(&mut input, LINE) {
        if !races.command(&line) {
            break;
        }
    }
    races.shown
}

/// A screen of one folder, before anything is shown.
fn screen_of<'a>(folder: &Path, files: &'a Files) -> Screen<'a> {
    let plan = &files.plan;
    Screen {
        names: lines_of(&folder.join("names.txt"), plan.variables, NAME),
        clauses: lines_of(&folder.join("clauses.txt"), plan.clauses.len(), CLAUSE),
        files,
        bits: Vec::new(),
        shown: Vec::new(),
    }
}

/// What is shown, and the exit code.
pub fn session(folder: &Path, mut input: &[u8]) -> (Vec<u8>, u8) {
    if let Ok(list) = std::fs::read(folder.join("races.txt")) {
        return match read_festival(folder, &list) {
            Ok(festival) => (festival_session(folder, &festival, input), 0),
            Err(refused) => (refused, 1),
        };
    }
    let files = match read(folder) {
        Ok(files) => files,
        Err(refused) => return (refused, 1),
    };
    let mut screen = screen_of(folder, &files);
    screen.search();
    while let Some(line) = line(&mut input, LINE) {
        if !screen.command(&line) {
            break;
        }
    }
    (screen.shown, 0)
}
