//! The commands, each with its words. What they print goes to the console.

use crate::chosen::{chosen, digits_read};
use crate::console::{faulty, unable, Console, Done, Outcome, Stop};
use crate::daily;
use crate::festival::festival;
use crate::files::{bytes_of, five_files, names_and_clauses, text_of, write_all, write_file};
use crate::lists;
use crate::names::Names;
use crate::options::Options;
use crate::page;
use crate::planner::{self, Planner};
use crate::read::Text;
use crate::report::{counted, grouped, judged, plain, show, why};
use crate::screen::ending_named;
use crate::settings::FIRST;
use crate::sweep;
use reference::csv;
use reference::file::{parse, Refusal};
use reference::plan::Plan;
use std::fs;
use std::path::Path;

pub const HELP: &str = "\
desk: plans for the box in the start tent, as text (see docs/DESK.md)

The daily loop:
  desk plan PLAN.txt [SEED]
      writes the box's files into PLAN.box, searches, tells each find's
      cost as it comes, then what is chosen by name, what it costs and
      what is not met
  desk report PLAN.txt [SEED | -]
      the same, and a page for the crew to print, PLAN.box/report.html;
      - takes the program's two lines from the standard input instead
  desk sweep PLAN.txt
      tries settings over many runs, names the best and how far each is
      from the best known, and draws them, PLAN.box/sweep.html;
      --runs N and --numbers N make it longer or shorter, --best COST
      is the best cost known

The files:
  desk write PLAN.txt FOLDER [SEED [COUNT]]
      writes plan.bin, walk.bin and numbers.bin into the folder;
      COUNT numbers, 16384 at most, are drawn from SEED;
      and for the screen names.txt and clauses.txt
  desk show FOLDER | plan.bin [PLAN.txt]
      prints a plan as text, then its sizes, or why it is refused;
      with PLAN.txt variables are called by the names it gives
  desk name PLAN.txt ASSIGNMENT | -
      prints what an assignment, a row of 0 and 1, chooses and costs,
      and each clause that it does not meet; - takes the program's two
      lines: tent | desk name PLAN.txt -
  desk csv SITES.csv ZONES.csv FOLDER [SEED [COUNT]]
      writes the same files from a mapper's two lists, and their plan
      as a text, plan.txt
  desk squeeze plan.bin NEW.bin [PLAN.txt]
      writes the plan without its locked variables, and prints what an
      assignment of the old plan costs more than one of the new, and
      which old variable each new one was
  desk festival FOLDER [SEED COUNT] STAKE PLAN.txt [STAKE PLAN.txt ..]
      writes a festival of up to 8 races: numbers.bin, races.txt with
      each race's stake, 1 to 100, and subfolder, and in the subfolder,
      called race1, race2, .., plan.bin, walk.bin, names.txt, clauses.txt;
      then plans every race
  desk opb PLAN.txt NEW.opb
      writes the plan in the text form of the 2006 pseudo-Boolean
      evaluation, for a solver
  desk version
  desk help

Options: --check asks the reference too, which has to agree; --folder F
instead of PLAN.box; --seed N and --numbers N where SEED and COUNT are
not given (1 and 16384).

Exit code: 0 done; 1 a text, file or assignment is at fault, or no plan
was found; 2 the command is, or a file cannot be read or written.
";

/// The version of the library that this tool goes with: that of include/planner.h.
pub const VERSION: &str = "1.0.0";

fn write_files(path: &str, folder: &str, drawn: &[&str], options: &Options) -> Done {
    let seed = options.seed_or(drawn.first().copied())?;
    let count = options.count_or(drawn.get(1).copied())?;
    let text = text_of(path)?;
    let words = names_and_clauses(&text);
    let settings = text.settings.unwrap_or(FIRST);
    let files = five_files(&text.plan, &settings, seed, count, words);
    Ok((write_all(Path::new(folder), &files)?, true))
}

fn map_lists(paths: [&str; 2], folder: &str, drawn: &[&str], options: &Options) -> Done {
    let seed = options.seed_or(drawn.first().copied())?;
    let count = options.count_or(drawn.get(1).copied())?;
    let [sites, zones] = [
        bytes_of(Path::new(paths[0]))?,
        bytes_of(Path::new(paths[1]))?,
    ];
    let mapped = daily::asked(planner::map(&sites, &zones, options.check))?;
    let both = mapped.and_then(|file| Ok((file, csv::lists(&sites, &zones)?)));
    let (file, (sites, zones)) = match both {
        Ok(both) => both,
        Err(refusal) => return faulty(lists::refused(paths, refusal)),
    };
    let plan = parse(&file).expect("accepted lists have a plan that loads");
    let mut files = five_files(&plan, &FIRST, seed, count, lists::lines(&sites, &zones));
    let text = lists::text(&plan, &sites, &zones);
    files.push(("plan.txt", text.into_bytes(), String::new()));
    Ok((write_all(Path::new(folder), &files)?, true))
}

fn show_files(path: &str, text: Option<&str>) -> Done {
    let path = Path::new(path);
    let folder = path.is_dir();
    let (plan, walk, numbers) = match folder {
        true => (
            bytes_of(&path.join("plan.bin"))?,
            fs::read(path.join("walk.bin")).ok(),
            fs::read(path.join("numbers.bin")).ok(),
        ),
        false => (bytes_of(path)?, None, None),
    };
    let names = match (text, parse(&plan)) {
        (Some(_), Ok(plan)) => Some(lent_names(text, &plan)?),
        _ => None,
    };
    let mut shown = show(&plan, walk.as_deref(), numbers.as_deref(), names.as_ref());
    for (name, file) in [("walk.bin", walk), ("numbers.bin", numbers)] {
        if folder && file.is_none() {
            shown.text += &format!("# {name} cannot be read: the box takes it as empty\n");
        }
    }
    Ok((shown.text, shown.accepted))
}

/// What the program's two lines say: how it ended, the cost that it states, and the row of digits.
pub struct Told {
    pub words: String,
    pub cost: String,
    pub row: String,
}

/// The program's two lines, or why there is no row in them.
pub fn program_lines(lines: &str) -> Result<Told, Stop> {
    let mut lines = lines.lines();
    let first = lines.next().unwrap_or_default();
    let row = lines.next().unwrap_or("-").to_string();
    let words: Vec<&str> = first.split(' ').collect();
    let unknown = || faulty(format!("'{first}' is no first line of the program's"));
    match words[..] {
        ["refused", number, offset] => {
            let words = number.parse().map_or("no refusal has this number", plain);
            faulty(format!(
                "the box refuses ({number}, offset {offset}): {words}"
            ))
        }
        [name, cost, finds, flips, used] => match ending_named(name) {
            None => unknown(),
            Some(words) if row == "-" => faulty(words.to_string()),
            Some(words) => Ok(Told {
                words: format!("{words}; {finds} found, {flips} flips, {used} numbers used\n"),
                cost: cost.to_string(),
                row,
            }),
        },
        _ => unknown(),
    }
}

/// The assignment of the program's two lines, and how it ended. A cost that is not the text's is that
/// of another plan.
pub fn told_assignment(text: &Text, lines: &str) -> Result<(String, Vec<bool>), Stop> {
    let told = program_lines(lines)?;
    let assignment = digits_read(text, &told.row).or_else(faulty)?;
    let cost = text.plan.cost(&assignment);
    if told.cost != cost.to_string() {
        return faulty(format!(
            "the box says cost {}, but by this text it is {cost}: the box has another plan",
            told.cost
        ));
    }
    Ok((told.words, assignment))
}

fn name_chosen(path: &str, digits: &str, console: &mut Console) -> Done {
    let text = text_of(path)?;
    let (before, assignment) = match digits {
        "-" => told_assignment(&text, &console.read()?)?,
        row => (String::new(), digits_read(&text, row).or_else(faulty)?),
    };
    let (out, right) = chosen(&text, &assignment);
    Ok((before + &out, right))
}

/// The names that a text lends a plan. Those of clauses are of as many clauses as the text has.
fn lent_names(text: Option<&str>, plan: &Plan) -> Result<Names, Stop> {
    let Some(text) = text else {
        return Ok(Names::unnamed(plan.variables));
    };
    let text = text_of(text)?;
    if text.plan.variables != plan.variables {
        return faulty(format!(
            "the text names {}, the plan has {}",
            counted(text.plan.variables, "variable"),
            plan.variables,
        ));
    }
    match text.plan.clauses.len() == plan.clauses.len() {
        true => Ok(text.names),
        false => Ok(text.names.without_clauses()),
    }
}

/// A plan without its locked variables (document 02, T-12).
fn squeeze_file(path: &str, new: &str, text: Option<&str>, options: &Options) -> Done {
    let bytes = bytes_of(Path::new(path))?;
    let plan = match judged(&bytes, parse) {
        Ok(plan) => plan,
        Err(refusal) => return faulty(why(path, refusal, "")),
    };
    let names = lent_names(text, &plan)?;
    let squeezed = match daily::asked(planner::squeeze(&bytes, options.check))? {
        Ok(squeezed) => squeezed,
        Err(number) => return faulty(why(path, Refusal { number, offset: 0 }, "")),
    };
    write_file(Path::new(new), &squeezed.file)?;
    let mut out = format!(
        "wrote {new}: {} of {}\nconstant {}\n",
        counted(squeezed.file.len(), "byte"),
        grouped(bytes.len() as i64),
        squeezed.constant,
    );
    for (place, &variable) in squeezed.old.iter().enumerate() {
        out += &format!("x{} was {}\n", place + 1, names.called(variable));
    }
    Ok((out, true))
}

/// How many variables and constraints an OPB text has, by its first line:
/// `* #variable= n #constraint= m`.
fn opb_sizes(text: &str) -> [usize; 2] {
    let words: Vec<&str> = text.split_ascii_whitespace().take(5).collect();
    [2, 4].map(|place| words[place].parse().expect("a number of the first line"))
}

/// A plan as an OPB text (document 02, T-02).
fn write_opb(path: &str, new: &str, options: &Options) -> Done {
    let plan = text_of(path)?.plan;
    let text = daily::asked(Planner::new(&plan, options.check).opb())?;
    write_file(Path::new(new), text.as_bytes())?;
    let [variables, constraints] = opb_sizes(&text);
    let out = format!(
        "wrote {new}: {}, {}, of them {} new, {}\n",
        counted(text.len(), "byte"),
        counted(variables, "variable"),
        grouped((variables - plan.variables) as i64),
        counted(constraints, "constraint"),
    );
    Ok((out, true))
}

/// Prints what a command leaves.
fn said(done: Done, console: &mut Console) -> Result<u8, Stop> {
    let (out, right) = done?;
    console.say(&out);
    Ok(!right as u8)
}

/// The commands of the daily loop, which tell what they find as it comes.
fn daily_command(words: &[&str], options: &Options, console: &mut Console) -> Result<u8, Stop> {
    match words {
        ["plan", text] => daily::plan(text, None, options, console),
        ["plan", text, seed] => daily::plan(text, Some(seed), options, console),
        ["report", text] => page::report(text, None, options, console),
        ["report", text, seed] => page::report(text, Some(seed), options, console),
        ["sweep", text] => sweep::sweep(text, options, console),
        ["festival", folder, races @ ..]
            if (2..=18).contains(&races.len()) && races.len() % 2 == 0 =>
        {
            festival(folder, races, options, console)
        }
        _ => unable(format!("this is no command of the desk\n\n{HELP}")),
    }
}

/// Carries out one command whose options were taken out.
fn command(words: &[&str], options: &Options, console: &mut Console) -> Result<u8, Stop> {
    let done = match words {
        ["write", text, folder, drawn @ ..] if drawn.len() <= 2 => {
            write_files(text, folder, drawn, options)
        }
        ["csv" | "map", sites, zones, folder, drawn @ ..] if drawn.len() <= 2 => {
            map_lists([sites, zones], folder, drawn, options)
        }
        ["show", path] => show_files(path, None),
        ["show", path, text] => show_files(path, Some(text)),
        ["name", text, assignment] => name_chosen(text, assignment, console),
        ["squeeze", path, new] => squeeze_file(path, new, None, options),
        ["squeeze", path, new, text] => squeeze_file(path, new, Some(text), options),
        ["opb", text, new] => write_opb(text, new, options),
        ["version"] => Ok((format!("desk {VERSION}\n"), true)),
        ["help" | "--help" | "-h"] => Ok((HELP.to_string(), true)),
        _ => return daily_command(words, options, console),
    };
    said(done, console)
}

/// Carries out one command on these streams, and gives its exit code.
pub fn run_on(arguments: &[&str], console: &mut Console) -> u8 {
    let done =
        Options::split(arguments).and_then(|(words, options)| command(&words, &options, console));
    match done {
        Ok(code) => code,
        Err(Stop(code, words)) => {
            console.note(&format!("desk: {}\n", words.trim_end()));
            code
        }
    }
}

/// Carries out one command with this input, and gives what it prints.
pub fn run_with(arguments: &[&str], mut input: &[u8]) -> Outcome {
    let (mut out, mut err) = (Vec::new(), Vec::new());
    let code = run_on(
        arguments,
        &mut Console {
            input: &mut input,
            out: &mut out,
            err: &mut err,
        },
    );
    let text = |bytes| String::from_utf8(bytes).expect("the desk prints text");
    Outcome {
        code,
        out: text(out),
        err: text(err),
    }
}

/// Carries out one command without input.
pub fn run(arguments: &[&str]) -> Outcome {
    run_with(arguments, &[])
}
