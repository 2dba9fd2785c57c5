//! What is said about the three files: sizes and refusals.

use desk::report::{plain, show, MOST_PLAN, REFUSALS, TABLES, TALLIES, TERMS};
use reference::file::{write, write_field, write_settings, CLAUSE};
use reference::plan::{Clause, Plan, Rule, Term};
use reference::random::{locked_full_plan, Random};
use reference::walk::Settings;

/// Two clauses: x1 + x2 ≥ 1, and (x1 ≤ 0 or x2 ≤ 0).
fn plan() -> Plan {
    let rule = |lower, upper, variables: &[usize]| Rule {
        lower,
        upper,
        terms: variables
            .iter()
            .map(|&variable| Term {
                variable,
                weight: 1,
            })
            .collect(),
    };
    Plan {
        variables: 2,
        objective: Vec::new(),
        locks: Vec::new(),
        clauses: vec![
            Clause {
                rules: vec![rule(Some(1), None, &[1, 2])],
            },
            Clause {
                rules: vec![rule(None, Some(0), &[1]), rule(None, Some(0), &[2])],
            },
        ],
    }
}

/// Where the fields of that plan begin.
const FIELDS: [usize; 8] = [0, 5, 8, 11, 35, 38, 56, 74];

fn shown(plan: &[u8]) -> String {
    show(plan, None, None, None).text
}

#[test]
fn sizes_of_the_buffers() {
    assert_eq!((TABLES, TERMS, TALLIES), (56_816, 52_096, 6_156));
    let largest = locked_full_plan(&mut Random::new(1), 512);
    assert_eq!(write(&largest).len(), MOST_PLAN);
}

#[test]
fn an_accepted_plan() {
    let expected = "variables 2\nclause x1 + x2 >= 1\nclause\n  x1 <= 0\n  or x2 <= 0\n\n\
        # plan.bin: 77 bytes of at most 54,446\n\
        # 2 variables of at most 512, 2 clauses of at most 512, \
        3 rules of at most 1,024, 4 terms of at most 6,000\n\
        # on the box: tables 56,816 bytes, terms 52,096 bytes, tallies 6,156 bytes, \
        whatever the plan\n";
    assert_eq!(shown(&write(&plan())), expected);
}

#[test]
fn a_refused_plan() {
    let file = write(&plan());
    let cut = |length: usize| shown(&file[..length]);
    let with = |place: usize, byte: u8| {
        let mut file = file.clone();
        file[place] = byte;
        shown(&file)
    };
    let first = "before the first clause";
    for (text, number, offset, place) in [
        (cut(0), 1, 0, first),
        (cut(FIELDS[1]), 1, 5, first),
        (cut(FIELDS[3] + 4), 1, 11, "at the start of clause 1"),
        (cut(FIELDS[4]), 1, 35, "after rule 1 of clause 1"),
        (with(FIELDS[0], 5), 2, 0, first),
        (with(FIELDS[5], 3), 2, 38, "at the start of clause 2"),
        (with(FIELDS[7], 2), 2, 74, "after rule 2 of clause 2"),
        (with(FIELDS[7] + 1, 6), 3, 74, "after rule 2 of clause 2"),
        (with(FIELDS[0] + 3, 0), 4, 0, first),
        (with(FIELDS[3] + 12, 7), 5, 11, "at the start of clause 1"),
        (with(FIELDS[6] + 3, 4), 6, 56, "after rule 1 of clause 2"),
    ] {
        let words = plain(number);
        let line = format!("number {number}, offset {offset}, {place}: {words}");
        assert_eq!(text, format!("# plan.bin is refused: {line}\n"));
    }
    let longer = [&file[..], &[0]].concat();
    let line = "# plan.bin is refused: number 7, offset 77: the file goes on after its end\n";
    assert_eq!(shown(&longer), line);
    let line = "# plan.bin is refused: number 9, offset 0: the file has more than 65,536 bytes\n";
    assert_eq!(shown(&[0; 65_537]), line);
    // One clause too many.
    let mut clauses = file[..FIELDS[2]].to_vec();
    let clause = [&write_field(CLAUSE, &[])[..], &file[FIELDS[5]..FIELDS[6]]].concat();
    clauses.extend(clause.repeat(513));
    let line = format!(
        "offset {}, after rule 1 of clause 512",
        8 + 512 * clause.len()
    );
    assert!(shown(&clauses).contains(&line));
}

#[test]
fn the_other_two_files() {
    let file = write(&plan());
    let walk = |noise, tries, flips, mode| {
        write_settings(&Settings {
            noise,
            tries,
            flips,
            mode,
            heuristic: 0,
            chance: 0,
        })
    };
    for (walk, number, offset) in [
        (vec![], 1, 0),
        (vec![5, 0, 0], 2, 0),
        (vec![16, 8, 0], 3, 0),
        ([walk(0, 1, 1, 0), vec![0]].concat(), 7, 12),
        (walk(1_001, 0, 0, 2), 11, 0),
        (walk(1_000, 0, 0, 2), 12, 0),
        (walk(1_000, 1, 0, 2), 13, 0),
        (walk(1_000, 1, 1, 2), 14, 0),
        (vec![0; 65_537], 9, 0),
    ] {
        let shown = show(&file, Some(&walk), None, None);
        let (number_and_offset, words) =
            (format!("number {number}, offset {offset}"), plain(number));
        let line = format!("# walk.bin is refused: {number_and_offset}: {words}\n");
        assert!(!shown.accepted && shown.text.ends_with(&line), "{line}");
    }
    for (numbers, line) in [
        (vec![0; 40], "# numbers.bin: 10 numbers\n"),
        (vec![0; 65_536], "# numbers.bin: 16,384 numbers\n"),
        (vec![], "# numbers.bin: 0 numbers\n"),
        (
            vec![0; 41],
            "# numbers.bin is refused: number 8, offset 0: \
             the list of numbers ends in the middle of a number\n",
        ),
        (
            vec![0; 65_540],
            "# numbers.bin is refused: number 9, offset 0: the file has more than 65,536 bytes\n",
        ),
    ] {
        let shown = show(&file, Some(&walk(1, 2, 3, 1)), Some(&numbers), None);
        assert!(shown.text.ends_with(line), "{line}");
        assert_eq!(shown.accepted, !line.contains("refused"));
        assert!(shown
            .text
            .contains("\nwalk noise 1 tries 2 flips 3 mode lbs\n"));
    }
}

#[test]
fn every_refusal_has_words_of_its_own() {
    let mut words: Vec<&str> = REFUSALS.iter().map(|&(number, _)| plain(number)).collect();
    words.sort_unstable();
    words.dedup();
    assert_eq!(words.len(), REFUSALS.len());
    assert!(!words.contains(&plain(20)) && plain(20) == plain(99));
}
