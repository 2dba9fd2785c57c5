//! OPB texts read (document 02, T-02): the cases of a separately written program, and examples along
//! the edges of the grammar and of the refusals' order.

use reference::file::{write, Refusal};
use reference::making::from_hexadecimal;
use reference::opb_read::read;
use std::collections::BTreeSet;

#[test]
fn cases_of_a_separately_written_program() {
    let mut kinds = BTreeSet::new();
    for case in include_str!("../../vectors/opb-read.txt").lines() {
        let (text, wanted) = case.split_once(" = ").unwrap();
        let text = from_hexadecimal(text);
        let answer = match read(&text) {
            Ok(plan) => {
                kinds.insert(0);
                let digits: Vec<String> = write(&plan).iter().map(|b| format!("{b:02x}")).collect();
                format!("accepted {}", digits.concat())
            }
            Err(Refusal { number, offset }) => {
                kinds.insert(number);
                format!("refused {number} {offset}")
            }
        };
        assert_eq!(answer, wanted, "{}", String::from_utf8_lossy(&text));
    }
    assert_eq!(kinds, BTreeSet::from([0, 5, 6, 31, 32]));
}

/// The answer to a text: the refusal's number and offset, 0 and 0 for none.
fn answer(text: &str) -> (u32, usize) {
    match read(text.as_bytes()) {
        Ok(_) => (0, 0),
        Err(Refusal { number, offset }) => (number, offset),
    }
}

/// The answer to a text of two variables and one constraint, whose lines behind the first these are;
/// the offset is counted from behind the first line.
fn behind(lines: &str) -> (u32, i64) {
    let first = "* #variable= 2 #constraint= 1\n";
    let (number, offset) = answer(&format!("{first}{lines}"));
    (
        number,
        offset as i64 - if number == 0 { 0 } else { first.len() as i64 },
    )
}

#[test]
fn the_first_line() {
    for (line, wanted) in [
        ("* #variable= 2 #constraint= 0\n", 0),
        ("*#variable=2 #constraint=0\n", 0),
        ("*   #variable=   2   #constraint=   0   \n", 0),
        ("* #variable= 002 #constraint= 0000000000000000000000\n", 0),
        ("* #variable= 512 #constraint= 0\n", 0),
        ("* #variable= 513 #constraint= 0\n", 4),
        ("* #variable= 0 #constraint= 0\n", 4),
        ("* #variable= 99999999999999999999 #constraint= 0\n", 4),
        ("* #variable= 4294967297 #constraint= 0\n", 4),
        ("* #variable= 2 #constraint= 4294967296\n", 32),
        ("* #variable= 2 #constraint= 18446744073709551616\n", 32),
        ("", 31),
        ("\n", 31),
        ("* #variable= 2 #constraint= 0", 31),
        ("* #variable= 2 #constraint= 0\r\n", 31),
        (" * #variable= 2 #constraint= 0\n", 31),
        ("*\t#variable= 2 #constraint= 0\n", 31),
        ("* #variable= 2#constraint= 0\n", 31),
        ("* #variable= +2 #constraint= 0\n", 31),
        ("* #variable= #constraint= 0\n", 31),
        ("* #variable= 2 #constraint=\n", 31),
        ("* #variable= 2 #constraint= 0 #equal= 0\n", 31),
        ("* #constraint= 0 #variable= 2\n", 31),
        ("#variable= 2 #constraint= 0\n", 31),
    ] {
        assert_eq!(answer(line), (wanted, 0), "{line:?}");
    }
}

#[test]
fn forms_of_a_line() {
    for right in [
        "+1 x1 >= 1 ;\n",
        "1 x1 >= 1 ;\n",
        "+1 x1 +1 x2 = 1 ;\n",
        "+1  x1   +1    x2    >=1;\n",
        "+1 x1 >= +1 ;\n",
        "+01 x0002 >= -00 ;\n",
        "* a comment\n+1 x1 >= 1 ;\n*\n* + ; x \n",
        "min: +1 x1 ;\n+1 x1 >= 1 ;\n",
        "min:+1 x1 ;\n+1 x1 >= 1 ;\n",
        "*\nmin: +1 x1 -2 x2 ;\n*\n+1 x1 >= 1 ;\n",
        "+1 x1 >= 1000000000 ;\n",
        "-1000000 x1 >= -1000000000 ;\n",
    ] {
        assert_eq!(behind(right), (0, 0), "{right:?}");
    }
    for wrong in [
        "\n",
        " +1 x1 >= 1 ;\n",
        "+1 x1 >= 1 ; \n",
        "+1 x1 >= 1 ;\r\n",
        "+1 x1\t>= 1 ;\n",
        "+1 x1 >= 1 ;",
        "+1 x1 >= 1\n",
        "+1 x1 >= ;\n",
        "+1 x1 1 ;\n",
        "+1 x1>= 1 ;\n",
        "+1x1 >= 1 ;\n",
        "+ 1 x1 >= 1 ;\n",
        "+-1 x1 >= 1 ;\n",
        "+1 x1 >= - 1 ;\n",
        "+1 x1 > 1 ;\n",
        "+1 x1 <= 1 ;\n",
        "+1 x1 > = 1 ;\n",
        "+1 x1 == 1 ;\n",
        ">= 1 ;\n",
        "+1 y1 >= 1 ;\n",
        "+1 X1 >= 1 ;\n",
        "+1 x >= 1 ;\n",
        "+1 ~x1 >= 1 ;\n",
        "x1 >= 1 ;\n",
        "+1 x1 +1 >= 1 ;\n",
        "+1 x1 +1 x2 >= 1 ; +1 x1 >= 1 ;\n",
        "min: ;\n",
        "min:\n",
        "min: +1 x1;\n",
        "min: +1 x1 \n",
        "min: +1 x1 ; \n",
        "min : +1 x1 ;\n",
        "max: +1 x1 ;\n",
        "m",
        "*",
        "* a comment",
    ] {
        assert_eq!(behind(wrong), (31, 0), "{wrong:?}");
    }
    // A second `min:`, and one behind a constraint.
    assert_eq!(behind("min: +1 x1 ;\nmin: +1 x1 ;\n"), (31, 13));
    assert_eq!(behind("+1 x1 >= 1 ;\nmin: +1 x1 ;\n"), (31, 13));
}

#[test]
fn the_order_of_refusals() {
    // 31, 32, 4, 6, 5 in a statement; the first statement at fault decides.
    assert_eq!(behind("+0 x3 >= 2000000000 \n"), (31, 0));
    assert_eq!(behind("+0 x3 >= 2000000000 ;\n"), (32, 0));
    assert_eq!(behind("+0 x2 +1 x1 >= 2000000000 ;\n"), (6, 0));
    assert_eq!(behind("+0 x2 >= 1 ;\n"), (5, 0));
    assert_eq!(behind("+1 x2 +1 x1 >= 1 ;\n"), (5, 0));
    assert_eq!(behind("+1 x1 +1 x1 >= 1 ;\n"), (5, 0));
    assert_eq!(behind("+1 x0 >= 1 ;\n"), (5, 0));
    assert_eq!(behind("+1000001 x1 >= 1 ;\n"), (5, 0));
    assert_eq!(behind("-1000001 x1 >= 1 ;\n"), (5, 0));
    assert_eq!(behind("+4294967297 x1 >= 1 ;\n"), (5, 0));
    assert_eq!(behind("+1 x4294967297 >= 1 ;\n"), (32, 0));
    assert_eq!(behind("+1 x18446744073709551617 >= 1 ;\n"), (32, 0));
    assert_eq!(behind("+1 x1 >= 1000000001 ;\n"), (6, 0));
    assert_eq!(behind("+1 x1 >= -1000000001 ;\n"), (6, 0));
    assert_eq!(behind("+1 x1 = 4294967296 ;\n"), (6, 0));
    assert_eq!(behind("min: +1 x3 ;\n+1 x1 >= 1\n"), (32, 0));
    assert_eq!(behind("min: +0 x1 ;\n"), (5, 0));
    assert_eq!(behind("+0 x1 >= 1 ;\n+1 x1 >= 1\n"), (5, 0));
    assert_eq!(behind("+1 x1 >= 1 ;\n+0 x1 >= 1 ;\n"), (5, 13));
    // The number of constraints comes last, at 0.
    assert_eq!(behind(""), (32, -30));
    assert_eq!(behind("+1 x1 >= 1 ;\n+1 x2 >= 1 ;\n"), (32, -30));
    assert_eq!(
        answer("* #variable= 1 #constraint= 7\n+1 x2 >= 1 ;\n"),
        (32, 30)
    );
}

#[test]
fn the_limits() {
    let line = "+1 x1 >= 0 ;\n";
    let text =
        |count: usize, lines: &str| format!("* #variable= 512 #constraint= {count}\n{lines}");
    assert_eq!(answer(&text(512, &line.repeat(512))), (0, 0));
    let many = text(513, &line.repeat(513));
    assert_eq!(answer(&many), (4, many.len() - line.len()));
    let terms: String = (1..=500).map(|x| format!("+1 x{x} ")).collect();
    let long = format!("{terms}>= 0 ;\n");
    let minimise = format!("min: {terms};\n");
    assert_eq!(answer(&text(12, &(minimise + &long.repeat(12)))), (0, 0));
    let more = text(13, &(long.repeat(12) + line));
    assert_eq!(answer(&more), (4, more.len() - line.len()));
}
