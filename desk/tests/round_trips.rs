//! From text to plan.bin and back, on random plans and on damaged texts.

use desk::names::{Names, Role};
use desk::print;
use desk::read::{read, read_bytes};
use desk::report::show;
use reference::file::{parse, write, write_numbers, write_settings};
use reference::plan::Plan;
use reference::random::{
    any_plan, damage, heavy_plan, locked_full_plan, race_plan, settings, small_met_plan,
    small_plan, Random, Shape,
};

fn random_plan(random: &mut Random) -> Plan {
    let wide = Shape {
        variables: 512,
        clauses: 12,
        rules: 4,
        terms: 60,
        weight: 1_000_000,
    };
    match random.below(5) {
        0 => small_plan(random),
        1 => small_met_plan(random),
        2 => heavy_plan(random),
        3 => race_plan(random),
        _ => any_plan(random, &wide),
    }
}

/// Names for some of the variables and clauses, none of them twice.
fn random_names(random: &mut Random, plan: &Plan) -> Names {
    let mut names = Names::default();
    let roles = [Role::Variable, Role::Site, Role::Marshal, Role::Course];
    for variable in 1..=plan.variables {
        let kind = ["ford", "c", "north-crossing-", "x-", "orø", "walk_"][random.below(6)];
        match random.percent(70) {
            true => names.push_as(Some(format!("{kind}{variable}")), roles[random.below(4)]),
            false => names.push(None),
        }
    }
    for clause in 0..plan.clauses.len() {
        if random.percent(20) {
            names.name_clause(clause, format!("zone-{clause}"));
        }
    }
    names
}

#[test]
fn plans_to_text_and_back() {
    let mut random = Random::new(71);
    for _ in 0..400 {
        let plan = random_plan(&mut random);
        let names = random_names(&mut random, &plan);
        let settings = settings(&mut random);
        let text = print::text(&plan, &names, Some(&settings));
        let again = read(&text).unwrap();
        assert_eq!(again.plan, plan);
        assert_eq!((again.names, again.settings), (names, Some(settings)));
        assert_eq!(parse(&write(&again.plan)), Ok(plan));
    }
}

#[test]
fn files_to_text_and_back() {
    let mut random = Random::new(72);
    for _ in 0..200 {
        let plan = random_plan(&mut random);
        let (file, walk) = (write(&plan), write_settings(&settings(&mut random)));
        let numbers = write_numbers(&random.numbers(5));
        let shown = show(&file, Some(&walk), Some(&numbers), None);
        assert!(shown.accepted);
        // Sizes are comments: all that is printed can be read.
        let text = read(&shown.text).unwrap();
        assert_eq!(write(&text.plan), file);
        assert_eq!(write_settings(&text.settings.unwrap()), walk);
        // With names, and once more.
        let names = random_names(&mut random, &plan);
        let named = show(&file, Some(&walk), None, Some(&names));
        let text = read(&named.text).unwrap();
        assert_eq!(write(&text.plan), file);
        assert_eq!(
            show(&file, Some(&walk), None, Some(&text.names)).text,
            named.text
        );
    }
}

#[test]
fn the_largest_plan() {
    let mut random = Random::new(73);
    for _ in 0..5 {
        let file = write(&locked_full_plan(&mut random, 512));
        let shown = show(&file, None, None, None);
        assert!(shown.accepted && file.len() == desk::report::MOST_PLAN);
        assert_eq!(write(&read(&shown.text).unwrap().plan), file);
    }
}

/// A text with a few bytes or words changed.
fn damaged(random: &mut Random, text: &str) -> Vec<u8> {
    let mut bytes = text.as_bytes().to_vec();
    for _ in 0..1 + random.below(3) {
        let at = random.below(bytes.len() + 1);
        let end = bytes.len().min(at + random.below(30));
        let blank = bytes.iter().skip(at).position(|&byte| byte == b' ');
        let digit = bytes.iter().skip(at).position(u8::is_ascii_digit);
        match (random.below(8), blank, digit) {
            // Another number, and a comment or line end between two words.
            (0 | 1, _, Some(digit)) => bytes[at + digit] = b'0' + random.below(10) as u8,
            (2 | 3, Some(blank), _) => {
                let gap = ["\n", " # or\r\n", "\t", " + ", " or "][random.below(5)];
                bytes.splice(at + blank..at + blank + 1, gap.bytes());
            }
            // A piece is left out, stands twice, or is the last.
            (4, ..) => drop(bytes.drain(at..end)),
            (5, ..) => {
                let piece = bytes[at..end].to_vec();
                bytes.splice(at..at, piece);
            }
            (6, ..) => bytes.truncate(at),
            _ => {
                let byte = b" +-<>=#\n07xa\xC3"[random.below(13)];
                bytes.insert(at, byte);
            }
        }
    }
    bytes
}

#[test]
fn a_damaged_text_is_turned_away_or_gives_an_accepted_file() {
    let mut random = Random::new(74);
    let (mut turned_away, mut accepted) = (0, 0);
    for _ in 0..4_000 {
        let plan = match random.percent(50) {
            true => small_plan(&mut random),
            false => small_met_plan(&mut random),
        };
        let names = random_names(&mut random, &plan);
        let text = print::text(&plan, &names, Some(&settings(&mut random)));
        let bytes = damaged(&mut random, &text);
        match read_bytes(&bytes) {
            Ok(text) => {
                assert_eq!(parse(&write(&text.plan)), Ok(text.plan));
                assert_eq!(text.settings.and_then(|settings| settings.refusal()), None);
                accepted += 1;
            }
            Err(fault) => {
                let lines = 1 + bytes.iter().filter(|&&byte| byte == b'\n').count();
                assert!((1..=lines).contains(&fault.line) && !fault.words.is_empty());
                // A column is a character of that line, or right behind its last one.
                let text = String::from_utf8_lossy(&bytes);
                let line = text.split('\n').nth(fault.line - 1).unwrap();
                assert!(
                    (1..=1 + line.chars().count()).contains(&fault.column),
                    "{fault:?}"
                );
                turned_away += 1;
            }
        }
    }
    assert!(
        turned_away > 1_000 && accepted > 500,
        "{turned_away} {accepted}"
    );
}

#[test]
fn a_damaged_file_is_shown_with_its_refusal() {
    let mut random = Random::new(75);
    let mut seen = [0; 11];
    for _ in 0..2_000 {
        let plan = small_met_plan(&mut random);
        let bytes = damage(&mut random, &write(&plan));
        let shown = show(&bytes, None, None, None);
        match parse(&bytes) {
            Ok(plan) => {
                assert!(shown.accepted);
                assert_eq!(read(&shown.text).unwrap().plan, plan);
            }
            Err(refusal) => {
                let (number, offset) = (refusal.number, refusal.offset);
                let head = format!("# plan.bin is refused: number {number}, offset {offset}");
                assert!(!shown.accepted && shown.text.starts_with(&head));
                seen[number as usize] += 1;
            }
        }
    }
    for number in [1, 2, 3, 4, 5, 6, 7, 10] {
        assert!(seen[number] > 0, "{seen:?}");
    }
}
