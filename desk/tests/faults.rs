//! Every kind of fault in a text, with its line and words.

use desk::read::{read, read_bytes};
use desk::tokens::Fault;

/// Three variables on three lines, then the text from line 4 on.
fn fault(text: &str) -> (usize, String) {
    let text = format!("variable 1 a\nvariable 2 b\nvariable 3 c-d\n{text}");
    let Fault { line, words, .. } = read(&text).expect_err(&text);
    (line, words)
}

fn at(line: usize, column: usize, words: String) -> Fault {
    Fault {
        line,
        column,
        words,
    }
}

fn faults(list: &[(&str, usize, &str)]) {
    for &(text, line, words) in list {
        assert_eq!(fault(text), (line, words.to_string()), "in: {text}");
    }
}

#[test]
fn signs_and_numbers() {
    faults(&[
        ("clause a, b <= 2", 4, "',' has no meaning here"),
        ("\n\nclause a < 2", 6, "'<' has no meaning here"),
        ("clause a ≠ 2", 4, "'≠' has no meaning here"),
        ("clause a <= 2\n%", 5, "'%' has no meaning here"),
        // The first fault is told, of whichever kind.
        ("clause e <= 2\n%", 4, "no variable is called 'e'"),
        ("clause a\n%", 5, "'%' has no meaning here"),
    ]);
    let words = "is neither a number nor a name: a name begins with a letter, \
                 and a space stands between a number and what follows";
    for (text, word) in [
        ("clause 2x1 <= 2", "2x1"),
        ("variable 4 31-north", "31-north"),
        ("clause 1_000 a <= 2", "1_000"),
    ] {
        assert_eq!(fault(text), (4, format!("'{word}' {words}")));
    }
}

#[test]
fn statements() {
    let why = "may not stand here: a statement begins with variable, variables, site, marshal, \
               course, minimise, lock, clause or walk, and a clause's next rule with or";
    for (text, line, word) in [
        ("maximise a", 4, "maximise"),
        ("\nor a <= 1", 5, "or"),
        ("clause a <= 1\n2 <= b", 5, "2"),
        ("clause 1 <= a >= 2", 4, ">="),
        ("clause 1 <= a <= 2 <= 3", 4, "<="),
        ("minimise a or b", 4, "or"),
    ] {
        assert_eq!(fault(text), (line, format!("'{word}' {why}")), "in: {text}");
    }
    faults(&[
        ("minimise a\nminimise b", 5, "minimise stands twice"),
        (
            "walk noise 1 tries 1 flips 1 mode lbs\n\nwalk noise 1",
            6,
            "walk stands twice",
        ),
    ]);
}

#[test]
fn locks() {
    faults(&[
        ("lock e 1", 4, "no variable is called 'e'"),
        (
            "\nlock x4 1",
            5,
            "there is no variable x4: so far there are 3",
        ),
        ("lock", 4, "expected a variable after 'lock', found the end"),
        ("lock 1 1", 4, "expected a variable after 'lock', found '1'"),
        (
            "lock a\nclause a <= 1",
            4,
            "expected a lock's value after 'a', found 'clause'",
        ),
        ("lock a 2", 4, "a lock's value is from 0 to 1, not 2"),
        ("lock a 255", 4, "a lock's value is from 0 to 1, not 255"),
        (
            "lock a -1",
            4,
            "expected a lock's value after 'a', found '-'",
        ),
        ("lock a 1\nlock b 0\nlock x1 1", 6, "'x1' is locked already"),
        ("lock a 1\nlock a 0", 5, "'a' is locked already"),
        (
            "variable 4 lock",
            4,
            "expected a name after '4', found 'lock'",
        ),
    ]);
}

#[test]
fn variables() {
    faults(&[
        ("variable 5 e", 4, "variable 4 is the next one, not 5"),
        ("variable 3 e", 4, "variable 4 is the next one, not 3"),
        (
            "variable 0 e",
            4,
            "a variable's number is from 1 to 512, not 0",
        ),
        (
            "variables 513",
            4,
            "a variable's number is from 1 to 512, not 513",
        ),
        (
            "variables 99999999999999999999",
            4,
            "a variable's number is from 1 to 512, not 99999999999999999999",
        ),
        ("variables 3", 4, "there are 3 variables already"),
        (
            "variables 512\nvariable 513 e",
            5,
            "a variable's number is from 1 to 512, not 513",
        ),
        (
            "variable",
            4,
            "expected a name after 'variable', found the end",
        ),
        ("site or", 4, "expected a name after 'site', found 'or'"),
        ("marshal a", 4, "variable 1 is called 'a' already"),
        ("course x4", 4, "'x4' names a variable by its number"),
        (
            "variables 512 site e",
            4,
            "a plan has at most 512 variables",
        ),
        (
            "variables -4",
            4,
            "expected a variable's number after 'variables', found '-'",
        ),
        // The name is missing on line 4, whatever line 6 says.
        (
            "variable 4\n\nclause a <= 1",
            4,
            "expected a name after '4', found 'clause'",
        ),
        ("variable 4 or", 4, "expected a name after '4', found 'or'"),
        ("variable 4 5", 4, "expected a name after '4', found '5'"),
        ("variable 4", 4, "expected a name after '4', found the end"),
        ("variable 4 x4", 4, "'x4' names a variable by its number"),
        ("variable 4 b", 4, "variable 2 is called 'b' already"),
    ]);
}

#[test]
fn sums() {
    faults(&[
        (
            "minimise",
            4,
            "expected a variable after 'minimise', found the end",
        ),
        (
            "minimise\nclause a <= 1",
            4,
            "expected a variable after 'minimise', found 'clause'",
        ),
        (
            "clause",
            4,
            "expected a variable after 'clause', found the end",
        ),
        (
            "clause\n  or a <= 1",
            4,
            "expected a variable after 'clause', found 'or'",
        ),
        (
            "clause a +\n + b <= 1",
            4,
            "expected a variable after '+', found '+'",
        ),
        (
            "clause a + - b <= 1",
            4,
            "expected a variable after '+', found '-'",
        ),
        (
            "clause 3 <= 1",
            4,
            "expected a variable after '1', found the end",
        ),
        (
            "clause 3 >= a",
            4,
            "expected a variable after '3', found '>='",
        ),
        (
            "clause a + 2 3 <= 1",
            4,
            "expected a variable after '2', found '3'",
        ),
        ("clause a\n + e <= 1", 5, "no variable is called 'e'"),
        ("clause A <= 1", 4, "no variable is called 'A'"),
        (
            "clause a-b <= 1",
            4,
            "no variable is called 'a-b' (a minus has a space before and after it)",
        ),
        (
            "clause x4 <= 1",
            4,
            "there is no variable x4: so far there are 3",
        ),
        (
            "clause x0 <= 1",
            4,
            "there is no variable x0: so far there are 3",
        ),
        (
            "clause a + b\n + x1 <= 1",
            5,
            "'x1' stands twice in this sum",
        ),
        ("minimise a - a", 4, "'a' stands twice in this sum"),
        (
            "clause 0 a <= 1",
            4,
            "a coefficient is from 1 to 1,000,000, not 0",
        ),
        (
            "minimise a\n + 1000001 b",
            5,
            "a coefficient is from 1 to 1,000,000, not 1000001",
        ),
        (
            "clause 9223372036854775808 a <= 1",
            4,
            "a coefficient is from 1 to 1,000,000, not 9223372036854775808",
        ),
    ]);
}

#[test]
fn bounds() {
    let relation = "'+', '-', '<=', '>=' or '='";
    for (text, line, after, found) in [
        ("clause a", 4, "a", "the end"),
        ("clause a\nor b <= 1", 4, "a", "'or'"),
        ("clause a b <= 1", 4, "a", "'b'"),
        ("clause a\n + b 4", 5, "b", "'4'"),
    ] {
        let words = format!("expected {relation} after '{after}', found {found}");
        assert_eq!(fault(text), (line, words), "in: {text}");
    }
    let range = "a bound is from -1,000,000,000 to 1,000,000,000, not";
    for (text, number) in [
        ("clause a <= 1000000001", "1000000001"),
        ("clause a >= -1000000001", "-1000000001"),
        ("clause a = 99999999999999999999", "99999999999999999999"),
        ("clause -1000000001 <= a", "-1000000001"),
        ("clause 1 <= a <= 1000000001", "1000000001"),
    ] {
        assert_eq!(fault(text), (4, format!("{range} {number}")), "in: {text}");
    }
    faults(&[
        (
            "clause a <=\nclause b <= 1",
            4,
            "expected a bound after '<=', found 'clause'",
        ),
        (
            "clause 1 <= a <= b",
            4,
            "expected a bound after '<=', found 'b'",
        ),
        (
            "clause a >= + 1",
            4,
            "expected a bound after '>=', found '+'",
        ),
        (
            "clause a = -",
            4,
            "expected a bound after '-', found the end",
        ),
    ]);
}

#[test]
fn settings() {
    faults(&[
        ("walk", 4, "expected 'noise' after 'walk', found the end"),
        (
            "walk tries 1",
            4,
            "expected 'noise' after 'walk', found 'tries'",
        ),
        (
            "walk noise",
            4,
            "expected the noise after 'noise', found the end",
        ),
        (
            "walk noise 1001",
            4,
            "the noise is from 0 to 1,000, not 1001",
        ),
        (
            "walk noise -1",
            4,
            "expected the noise after 'noise', found '-'",
        ),
        (
            "walk noise 1\nflips 1",
            4,
            "expected 'tries' after '1', found 'flips'",
        ),
        (
            "walk noise 1 tries 0",
            4,
            "the number of tries is from 1 to 1,000, not 0",
        ),
        (
            "walk noise 1 tries 1001",
            4,
            "the number of tries is from 1 to 1,000, not 1001",
        ),
        (
            "walk noise 1 tries 1 mode",
            4,
            "expected 'flips' after '1', found 'mode'",
        ),
        (
            "walk noise 1 tries 1\nflips 0",
            5,
            "the number of flips is from 1 to 1,000,000, not 0",
        ),
        (
            "walk noise 1 tries 1 flips 1000001",
            4,
            "the number of flips is from 1 to 1,000,000, not 1000001",
        ),
        (
            "walk noise 1 tries 1 flips 1",
            4,
            "expected 'mode' after '1', found the end",
        ),
        (
            "walk noise 1 tries 1 flips 1 mode 1",
            4,
            "expected 'linear' or 'lbs' after 'mode', found '1'",
        ),
    ]);
}

#[test]
fn no_variable_at_all() {
    let none = |text: &str| read(text).unwrap_err();
    for (text, line) in [("", 1), ("# nothing\n\n", 1)] {
        let words = "a plan has at least one variable".to_string();
        assert_eq!(none(text), at(line, 1, words));
    }
    let words = "a plan has at least one variable".to_string();
    let walk = "\nwalk noise 1 tries 1\nflips 1 mode lbs\n\n";
    assert_eq!(none(walk), at(3, 17, words));
    // A name is known from its statement on.
    let words = "no variable is called 'a'".to_string();
    assert_eq!(none("minimise a\nvariable 1 a"), at(1, 10, words));
}

#[test]
fn limits() {
    // The 513th clause, the 1,025th rule and the 6,001st term are one too many.
    let clause = "clause x1 >= 0\n";
    let clauses = |count: usize| format!("variables 512\n{}", clause.repeat(count));
    assert!(read(&clauses(512)).is_ok());
    let words = "a plan has at most 512 clauses".to_string();
    assert_eq!(read(&clauses(513)), Err(at(514, 1, words)));

    let rules = |count: usize| {
        format!(
            "variables 512\nclause x1 >= 0\n{}",
            "or x1 <= 0\n".repeat(count - 1)
        )
    };
    assert!(read(&rules(1_024)).is_ok());
    let words = "a plan has at most 1,024 rules".to_string();
    assert_eq!(read(&rules(1_025)), Err(at(1_026, 10, words)));

    let sum = |terms: usize| -> String {
        let sum: Vec<String> = (1..=terms).map(|variable| format!("x{variable}")).collect();
        format!("clause {} >= 0\n", sum.join(" + "))
    };
    let terms = |last: usize| format!("variables 512\n{}{}", sum(500).repeat(11), sum(last));
    assert!(read(&terms(500)).is_ok());
    let words = "a plan's rules have at most 6,000 terms".to_string();
    // The line ends with its last token and a line feed.
    let column = sum(501).len() - 1;
    assert_eq!(read(&terms(501)), Err(at(13, column, words)));
    // The objective's terms do not count.
    let objective = sum(512).replace("clause", "minimise").replace(" >= 0", "");
    assert!(read(&(terms(500) + &objective)).is_ok());
}

#[test]
fn bytes_that_are_no_text() {
    let words = "this is no text in UTF-8".to_string();
    let fault = read_bytes(b"variable 1 a\n\nvariable 2 \xFF\n").unwrap_err();
    assert_eq!(fault, at(3, 12, words));
}

/// What is at fault is marked where it begins; what is missing, right behind the token before it. A
/// column is a character, whatever bytes it has.
#[test]
fn columns() {
    for (text, line, column) in [
        ("variable a\nclause a + e <= 1", 2, 12),
        ("variable a\nclause   e <= 1", 2, 10),
        ("variable a\n\tclause\ta <= 1\te", 2, 16),
        ("variable a\nclause a <=\n\nclause a >= 1", 2, 12),
        ("variable a\nclause a ≤\n\nclause a >= 1", 2, 11),
        ("variable Brücke\nclause Brücke + Brücke >= 1", 2, 17),
        ("variable a\nlock a 2", 2, 8),
        ("variable a\nclause a <= 1 % b", 2, 15),
        ("variable a\nclause d: a <= 1 clause d: a <= 1", 2, 25),
        ("variable a\nvariable 3 b", 2, 10),
        ("variable a\nwalk noise 1001", 2, 12),
    ] {
        let fault = read(text).expect_err(text);
        assert_eq!(
            (fault.line, fault.column),
            (line, column),
            "{text:?}: {}",
            fault.words
        );
    }
}
