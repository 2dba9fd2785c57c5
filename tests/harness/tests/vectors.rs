//! The cases of tests/vectors, from a separately written program: the proved code and the reference
//! print and answer what they say.

use harness::layout::{ASSIGNMENT, TABLES, TALLIES, TERM_TABLE};
use harness::planner::{self, Counted};
use harness::probe::{binomial, factors};
use harness::program::{printed, root, wanted, Folder};
use reference::book::{Book, Call};
use reference::counts::Count;
use reference::exact;
use reference::file::parse;
use reference::making::{bits, from_hexadecimal};
use std::collections::BTreeSet;
use std::fs;

/// A file of a case; None for one that is not there.
fn file(word: &str) -> Option<Vec<u8>> {
    (word != "-").then(|| from_hexadecimal(word))
}

#[test]
fn cases_of_a_separately_written_program() {
    let cases = fs::read_to_string(root().join("tests/vectors/cases.txt")).unwrap();
    let (mut count, mut kinds) = (0, BTreeSet::new());
    for case in cases.lines() {
        let (words, expected) = case.split_once(" = ").unwrap();
        let expected = expected.replace('/', "\n");
        let words: Vec<&str> = words.split(' ').collect();
        let [name, plan, walk, numbers] = words[..] else {
            panic!("a case has a name and three files: {}", words[0]);
        };
        let files = [plan, walk, numbers].map(file);
        assert_eq!(wanted(&files), expected, "{name}, by the reference");
        let printed = printed(&Folder::new(&files).0);
        assert_eq!(printed, expected, "{name}, by the program");
        let mut kind: Vec<&str> = expected.split_whitespace().take(2).collect();
        if kind[0] != "refused" {
            kind.truncate(1);
        }
        kinds.insert(kind.join(" "));
        count += 1;
    }
    assert!(count >= 200, "{count} cases");
    // Every ending, and every refusal of the files but 9, 12 and 16.
    assert_eq!(kinds.len(), 5 + 13, "{kinds:?}");
}

fn numbers(words: &str) -> Vec<u64> {
    words.split(' ').map(|word| word.parse().unwrap()).collect()
}

/// A count by its value and its mark, 1 where it is cut.
fn count_of(value: &u64, mark: &u64) -> Count {
    assert!(*mark <= 1);
    Count {
        value: *value as u32,
        cut: *mark == 1,
    }
}

#[test]
fn binomials_of_a_separately_written_program() {
    let cases = fs::read_to_string(root().join("tests/vectors/binomials.txt")).unwrap();
    let (mut count, mut reported) = (0, BTreeSet::new());
    for case in cases.lines() {
        let (words, expected) = case.split_once(" = ").unwrap();
        let (of, expected) = (numbers(words), numbers(expected));
        let ([m, k], [value, mark, cost]) = (&of[..], &expected[..]) else {
            panic!("a case has two numbers and three: {case}");
        };
        assert_eq!(binomial(*m, *k), count_of(value, mark), "{case}");
        assert_eq!(factors(*m, *k) as u64, *cost, "{case}");
        assert_eq!(exact::factors(*m as i64, *k as i64) as u64, *cost, "{case}");
        reported.insert(*cost);
        count += 1;
    }
    assert!(count >= 80, "{count} cases");
    assert!(
        reported.contains(&0) && reported.contains(&17),
        "{reported:?}"
    );
}

/// What the library's counts answers of a plan file, an assignment and a variable.
fn counted(file: &[u8], assignment: &[bool], variable: u32) -> Counted {
    let (mut tables, mut terms) = (vec![0; TABLES], vec![0; TERM_TABLE]);
    let (mut bytes, mut tallies) = (vec![0; ASSIGNMENT], vec![0; TALLIES]);
    for (byte, &bit) in bytes.iter_mut().zip(assignment) {
        *byte = bit as u8;
    }
    assert_eq!(planner::load(file, &mut tables, &mut terms).refusal, 0);
    assert_eq!(planner::open(&tables, &terms, &bytes, &mut tallies), 0);
    planner::counts(&tables, &terms, &bytes, &tallies, variable)
}

#[test]
fn counts_of_a_separately_written_program() {
    let cases = fs::read_to_string(root().join("tests/vectors/counts.txt")).unwrap();
    let (mut count, mut cut, mut uncut) = (0, 0, 0);
    for case in cases.lines() {
        let (words, expected) = case.split_once(" = ").unwrap();
        let words: Vec<&str> = words.split(' ').collect();
        let expected = numbers(expected);
        let ([plan, digits, variable], [breaks, break_mark, makes, make_mark]) =
            (&words[..], &expected[..])
        else {
            panic!("a case has three words and four numbers: {case}");
        };
        let (file, at) = (file(plan).unwrap(), bits(digits));
        let variable = variable.parse().unwrap();
        let both = [count_of(breaks, break_mark), count_of(makes, make_mark)];
        let wanted = Counted::of(both[0], both[1]);
        let plan = parse(&file).unwrap();
        let answer = Book::open(&plan, &at).call(Call::Counts(variable));
        assert_eq!(Counted::from(answer), wanted, "by the reference: {case}");
        assert_eq!(
            counted(&file, &at, variable),
            wanted,
            "by the library: {case}"
        );
        cut += both.iter().any(|count| count.cut) as u32;
        uncut += both.iter().any(|count| count.value > 0 && !count.cut) as u32;
        count += 1;
    }
    assert!(
        count >= 140 && cut >= 10 && uncut >= 50,
        "{count} {cut} {uncut}"
    );
}
