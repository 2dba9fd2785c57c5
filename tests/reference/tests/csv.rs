//! From the mapper's two lists to a plan: the cases of a separately written program, every edge of
//! the grammar, the order of refusals, and the solutions by trying every choice of sites.

use reference::csv::{lists, mapped, obeyed, plan, rows, Refusal, LEAST_ROOM};
use reference::file::{parse, write};
use reference::making::from_hexadecimal;
use reference::mapper;
use reference::plan::Plan;
use reference::random::Random;
use std::collections::BTreeSet;

fn map(sites: &[u8], zones: &[u8]) -> Result<Plan, Refusal> {
    mapped(sites, zones, LEAST_ROOM)
}

fn refused(number: u32, list: u32, row: usize) -> Result<Plan, Refusal> {
    Err(Refusal { number, list, row })
}

#[test]
fn cases_of_a_separately_written_program() {
    let cases = include_str!("../../vectors/csv.txt");
    let mut kinds = BTreeSet::new();
    for case in cases.lines() {
        let (given, expected) = case.split_once(" = ").unwrap();
        let (sites, zones) = given.split_once(' ').unwrap();
        let answer = match map(&from_hexadecimal(sites), &from_hexadecimal(zones)) {
            Ok(plan) => {
                let hex: Vec<String> = write(&plan).iter().map(|b| format!("{b:02x}")).collect();
                format!("accepted {}", hex.concat())
            }
            Err(r) => format!("refused {} {} {}", r.number, r.list, r.row),
        };
        assert_eq!(answer, expected, "{case}");
        kinds.insert(expected.split(' ').nth(1).unwrap().to_string());
    }
    assert!(cases.lines().count() >= 150);
    assert!(["51", "52", "53", "54", "55"]
        .iter()
        .all(|kind| kinds.contains(*kind)));
}

/// The rows of a list, a malformed one as `!`, fields in brackets.
fn spelled(list: &[u8]) -> String {
    let row = |row: &Option<Vec<Vec<u8>>>| match row {
        None => "!".to_string(),
        Some(fields) => fields
            .iter()
            .map(|field| format!("[{}]", field.escape_ascii()))
            .collect(),
    };
    let rows: Vec<String> = rows(list).iter().map(row).collect();
    rows.join("/")
}

#[test]
fn the_grammar() {
    for (list, expected) in [
        (&b""[..], ""),
        (b"\r\n", "[]"),
        (b"a", "[a]"),
        (b"a,", "[a][]"),
        (b",", "[][]"),
        (b"a\r\n", "[a]"),
        (b"a\r\nb", "[a]/[b]"),
        (b"a\r\n\r\n", "[a]/[]"),
        (b"a b , c", "[a b ][ c]"),
        (b"\"a\"", "[a]"),
        (b"\"a,b\"\r\nc", "[a,b]/[c]"),
        (b"\"a\r\nb\",c", "[a\\r\\nb][c]"),
        (b"\"\"", "[]"),
        (b"\"\"\"\"", "[\\\"]"),
        (b"\"a\"\"b\"", "[a\\\"b]"),
        // Only CRLF ends a record.
        (b"a\nb", "!"),
        (b"a\rb", "!"),
        (b"a\r", "!"),
        // A quote opens a field, and behind its closing stands nothing else of the field.
        (b"a\"b\"", "!"),
        (b"\"a\"b", "!"),
        (b"\"a\" ", "!"),
        (b"\"a", "!"),
        (b"\"\"\"", "!"),
        // Bytes that are no text.
        (b"a\tb", "!"),
        (b"\"a\tb\"", "!"),
        (b"\x7f", "!"),
        (b"\x80", "!"),
        (b"~!#+-", "[~!#+-]"),
        (b"a\r\nb\nc\r\nd", "[a]/!"),
    ] {
        assert_eq!(spelled(list), expected, "{}", list.escape_ascii());
    }
}

#[test]
fn a_row_s_faults() {
    let zones = b"z,0,1,no";
    for (sites, number) in [
        (&b"a,1,z"[..], 0),
        (b"a,0,z", 0),
        (b"a,0001000,z", 0),
        (b"a,1000000,z", 0),
        (b"\"a\",\"1\",\"z\"", 0),
        (b"0123456789abcdef,1,z", 0),
        (b"\"01234567\"\"9abcdef\",1,z", 0),
        (b"0123456789abcdefg,1,z", 51),
        (b",1,z", 51),
        (b"\"\",1,z", 51),
        (b"a,,z", 51),
        (b"a,1,", 51),
        (b"a,1", 51),
        (b"a,1,z,", 51),
        (b"a,-1,z", 51),
        (b"a,+1,z", 51),
        (b"a, 1,z", 51),
        (b"a,1.0,z", 51),
        (b"a,00000001,z", 51),
        (b"a,12345678,z", 51),
        (b"a,1000001,z", 52),
        (b"a,9999999,z", 52),
        (b"a,9999999,0123456789abcdefg", 51),
        (b"\r\n", 51),
    ] {
        let answer = map(sites, zones).map_or_else(|r| (r.number, r.list, r.row), |_| (0, 0, 0));
        let expected = if number == 0 {
            (0, 0, 0)
        } else {
            (number, 1, 1)
        };
        assert_eq!(answer, expected, "{}", sites.escape_ascii());
    }
    for (zones, number) in [
        (&b"z,0,1,yes"[..], 0),
        (b"z,512,0,\"no\"", 0),
        (b"z,0,512,no", 0),
        (b"z,513,1,no", 52),
        (b"z,0,513,no", 52),
        (b"z,0,1,Yes", 51),
        (b"z,0,1,", 51),
        (b"z,0,1,yes ", 51),
        (b"z,0,1", 51),
        (b"z,0,1,no,", 51),
        (b"z,9999999,12345678,no", 51),
    ] {
        let answer = map(b"a,1,z", zones).map_or_else(|r| (r.number, r.list, r.row), |_| (0, 0, 0));
        let expected = if number == 0 {
            (0, 0, 0)
        } else {
            (number, 2, 1)
        };
        assert_eq!(answer, expected, "{}", zones.escape_ascii());
    }
}

#[test]
fn the_order_of_refusals() {
    assert_eq!(mapped(b"", b"", LEAST_ROOM - 1), refused(21, 0, 0));
    assert_eq!(mapped(b"\n", b"\n", LEAST_ROOM - 1), refused(21, 0, 0));
    assert_eq!(map(b"", b""), refused(4, 0, 0));
    assert_eq!(map(b"", b"z,0,1,no"), refused(55, 2, 1));
    assert_eq!(map(b"a,1,z", b""), refused(54, 1, 1));
    // 53 of a row comes before 54 of an earlier one, and before 51 of a later one.
    let twice = b"a,1,y\r\na,1,z\r\nb\r\n";
    assert_eq!(map(twice, b"z,0,1,no"), refused(53, 1, 2));
    assert_eq!(map(b"a,1,z\r\n\"a\",1,z", b"z,0,1,no"), refused(53, 1, 2));
    // 52 before 53 in a row.
    assert_eq!(map(b"a,1,z\r\na,9999999,z", b"z,0,1,no"), refused(52, 1, 2));
    // 51 of the zones comes before 54 of the sites.
    assert_eq!(map(b"a,1,y", b"z,0,1"), refused(51, 2, 1));
    assert_eq!(map(b"a,1,z", b"z,0,1,no\r\nz,0,1,no"), refused(53, 2, 2));
    assert_eq!(
        map(b"a,1,y\r\nb,1,z", b"z,0,1,no\r\nx,0,1,no"),
        refused(54, 1, 1)
    );
    assert_eq!(map(b"b,1,z", b"z,0,1,no\r\nx,0,1,no"), refused(55, 2, 2));
}

fn many(sites: usize) -> Vec<u8> {
    let row = |number: usize| format!("s{number},{},z\r\n", number % 3);
    (0..sites).map(row).collect::<String>().into_bytes()
}

#[test]
fn sites_up_to_the_limit() {
    assert_eq!(map(&many(512), b"z,0,1,yes").unwrap().variables, 512);
    assert_eq!(map(&many(513), b"z,0,1,yes"), refused(4, 0, 0));
    assert_eq!(map(&many(513), b"y,0,1,yes"), refused(54, 1, 1));
}

#[test]
fn a_plan_of_two_lists() {
    let sites = b"11,120,crossing\r\n12,0,crossing\r\n13,35,\"ford, east\"\r\n";
    let zones = b"\"ford, east\",1,1,no\r\ncrossing,2,4,yes";
    let plan = map(sites, zones).unwrap();
    assert_eq!(plan.variables, 3);
    let terms = |terms: &[reference::plan::Term]| -> Vec<(usize, i64)> {
        terms.iter().map(|t| (t.variable, t.weight)).collect()
    };
    assert_eq!(terms(&plan.objective), [(1, 120), (3, 35)]);
    assert_eq!(plan.clauses.len(), 2);
    let east = &plan.clauses[0].rules;
    assert_eq!((east.len(), terms(&east[0].terms)), (1, vec![(3, 1)]));
    let crossing = &plan.clauses[1].rules;
    assert_eq!((crossing[0].lower, crossing[0].upper), (Some(2), Some(4)));
    assert_eq!((crossing[1].lower, crossing[1].upper), (None, Some(0)));
    assert_eq!(terms(&crossing[1].terms), [(1, 1), (2, 1)]);
}

#[test]
fn solutions_are_the_choices_that_obey() {
    let mut random = Random::new(7_001);
    let (mut met, mut unmet) = (0, 0);
    for _ in 0..400 {
        let (sites, zones) = mapper::sound(&mut random, 7);
        let (site_list, zone_list) = mapper::lists(&mut random, &sites, &zones);
        assert_eq!(
            lists(&site_list, &zone_list),
            Ok((sites.clone(), zones.clone()))
        );
        let made = map(&site_list, &zone_list).unwrap();
        assert_eq!(made, plan(&sites, &zones));
        assert_eq!(parse(&write(&made)), Ok(made.clone()));
        for choice in 0..1 << sites.len() {
            let chosen: Vec<bool> = (0..sites.len()).map(|i| choice >> i & 1 == 1).collect();
            let obeys = obeyed(&sites, &zones, &chosen);
            assert_eq!(made.satisfied(&chosen), obeys);
            let metres = sites.iter().zip(&chosen).filter(|(_, c)| **c);
            let metres: i64 = metres.map(|(site, _)| i64::from(site.metres)).sum();
            assert_eq!(made.cost(&chosen), metres);
            *(if obeys { &mut met } else { &mut unmet }) += 1;
        }
    }
    assert!(met > 1_000 && unmet > 1_000, "{met} {unmet}");
}
