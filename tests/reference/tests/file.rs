//! Reading and writing plan files, walk.bin and numbers.bin: every refusal with its offset, the
//! order of checks in a field, and the limits.

mod common;

use common::*;
use reference::file::*;
use reference::plan::{Plan, Rule};
use reference::random::{
    any_plan, damage, full_plan, heavy_plan, locked_full_plan, met_plan, race_plan, small_met_plan,
    small_plan, Random, Shape,
};

fn refused<T>(number: u32, offset: usize) -> Result<T, Refusal> {
    Err(Refusal { number, offset })
}

/// The example's file with other bytes from a place on.
fn example_with(place: usize, bytes: &[u8]) -> Vec<u8> {
    let mut file = EXAMPLE.to_vec();
    file[place..place + bytes.len()].copy_from_slice(bytes);
    file
}

/// The example's file up to one of its fields, and other bytes after that.
fn example_until(place: usize, bytes: &[u8]) -> Vec<u8> {
    [&EXAMPLE[..place], bytes].concat()
}

fn rule_field(mode: u8, lower: i32, upper: i32, terms: &[(u16, i32)]) -> Vec<u8> {
    let mut body = vec![mode];
    body.extend(lower.to_le_bytes());
    body.extend(upper.to_le_bytes());
    for (variable, weight) in terms {
        body.extend(variable.to_le_bytes());
        body.extend(weight.to_le_bytes());
    }
    write_field(RULE, &body)
}

#[test]
fn every_cut_of_the_example() {
    for cut in 0..EXAMPLE.len() {
        let field = EXAMPLE_FIELDS.iter().rev().find(|&&place| place <= cut);
        assert_eq!(parse(&EXAMPLE[..cut]), refused(1, *field.unwrap()));
    }
    assert_eq!(parse(&EXAMPLE), Ok(example_plan()));
}

#[test]
fn only_some_tags_may_stand_at_a_place() {
    // What may stand at the start, after 01, after 02, after 03, after 04.
    let places: [(usize, &[u8]); 5] = [
        (0, &[COUNT]),
        (5, &[OBJECTIVE]),
        (20, &[CLAUSE, END, LOCKS]),
        (23, &[RULE]),
        (47, &[CLAUSE, RULE, END]),
    ];
    for (place, lawful) in places {
        for tag in 0..=255 {
            // Length 65,535 is lawful for a rule and for locks, and the body is missing.
            let file = example_until(place, &[tag, 255, 255]);
            let number = match tag {
                _ if !lawful.contains(&tag) => 2,
                RULE | LOCKS => 1,
                _ => 3,
            };
            assert_eq!(parse(&file), refused(number, place), "tag {tag} at {place}");
        }
    }
}

#[test]
fn lengths() {
    for length in 0..=600u16 {
        let head = |tag: u8| [vec![tag], length.to_le_bytes().to_vec()].concat();
        // The body is missing: a lawful length gives 1, except 0, which needs none.
        let count = parse(&head(COUNT));
        assert_eq!(count, refused(if length == 2 { 1 } else { 3 }, 0));
        let objective = parse(&example_until(5, &head(OBJECTIVE)));
        match length {
            0 => assert_eq!(objective, refused(1, 8)),
            _ => assert_eq!(objective, refused(if length % 6 == 0 { 1 } else { 3 }, 5)),
        }
        let locks = parse(&example_until(20, &head(LOCKS)));
        match length {
            0 => assert_eq!(locks, refused(1, 23)),
            _ => assert_eq!(locks, refused(if length % 3 == 0 { 1 } else { 3 }, 20)),
        }
        let clause = parse(&example_until(20, &head(CLAUSE)));
        let at = if length == 0 { (1, 23) } else { (3, 20) };
        assert_eq!(clause, refused(at.0, at.1));
        let rule = parse(&example_until(23, &head(RULE)));
        let lawful = length >= 15 && length % 6 == 3;
        assert_eq!(rule, refused(if lawful { 1 } else { 3 }, 23));
        let end = parse(&example_until(47, &head(END)));
        match length {
            0 => assert!(end.is_ok()),
            _ => assert_eq!(end, refused(3, 47)),
        }
    }
}

#[test]
fn order_of_checks_in_a_field() {
    // 1 for the head before 2.
    assert_eq!(parse(&[9]), refused(1, 0));
    assert_eq!(parse(&[9, 0]), refused(1, 0));
    // 2 before 3.
    assert_eq!(parse(&[9, 7, 0]), refused(2, 0));
    // 3 before 1 for the body.
    assert_eq!(parse(&[COUNT, 3, 0, 0]), refused(3, 0));
    // 1 for the body before 4.
    assert_eq!(parse(&[COUNT, 2, 0, 0]), refused(1, 0));
    assert_eq!(parse(&[COUNT, 2, 0, 0, 0]), refused(4, 0));
    // 4 before 6 before 5.
    let bad_terms = vec![(0, 0); 6_001];
    let file = example_until(23, &rule_field(9, 1, 1, &bad_terms));
    assert_eq!(parse(&file), refused(4, 23));
    let file = example_until(23, &rule_field(9, 1, 1, &bad_terms[..6_000]));
    assert_eq!(parse(&file), refused(6, 23));
    let file = example_until(23, &rule_field(3, 1, 1, &bad_terms[..6_000]));
    assert_eq!(parse(&file), refused(5, 23));
    // The first field at fault decides, even where a later one has a lower number.
    let file = example_until(5, &write_field(OBJECTIVE, &[0; 6]));
    assert_eq!(parse(&file), refused(5, 5));
    // 7 only behind a sound end field.
    assert_eq!(parse(&example_until(47, &[END, 0, 0, END])), refused(7, 50));
    assert_eq!(parse(&example_until(47, &[END, 1, 0, 0])), refused(3, 47));
}

#[test]
fn variable_count() {
    for n in 0..=1_100u16 {
        let file = example_until(
            0,
            &[write_field(COUNT, &n.to_le_bytes()), vec![2, 0, 0, 5, 0, 0]].concat(),
        );
        match n {
            1..=512 => assert_eq!(parse(&file).unwrap().variables, n as usize),
            _ => assert_eq!(parse(&file), refused(4, 0)),
        }
    }
    assert_eq!(parse(&example_with(3, &[255, 255])), refused(4, 0));
}

#[test]
fn terms_of_the_objective_and_of_rules() {
    let cases: [(&[(u16, i32)], bool); 16] = [
        (&[(1, 1), (2, 1)], true),
        (&[(2, -1)], true),
        (&[(1, 1_000_000), (2, -1_000_000)], true),
        (&[(0, 1)], false),
        (&[(3, 1)], false),
        (&[(65_535, 1)], false),
        (&[(1, 1), (3, 1)], false),
        (&[(1, 1), (1, 1)], false),
        (&[(2, 1), (1, 1)], false),
        (&[(1, 1), (2, 1), (2, 1)], false),
        (&[(1, 0)], false),
        (&[(1, 1), (2, 0)], false),
        (&[(1, 1_000_001)], false),
        (&[(1, -1_000_001)], false),
        (&[(1, i32::MIN)], false),
        (&[(1, i32::MAX)], false),
    ];
    for (list, lawful) in cases {
        let rule = rule_field(1, 1, 0, list);
        let mut file = example_until(23, &rule);
        file.extend(&EXAMPLE[47..]);
        if lawful {
            let kept = parse(&file).unwrap().clauses[0].rules[0].terms.clone();
            let given: Vec<(u16, i32)> = kept
                .iter()
                .map(|term| (term.variable as u16, term.weight as i32))
                .collect();
            assert_eq!(given, list);
        } else {
            assert_eq!(parse(&file), refused(5, 23), "{list:?}");
        }
        // The same terms as an objective: the rule's body without mode and bounds.
        let mut file = example_until(5, &write_field(OBJECTIVE, &rule[12..]));
        file.extend(&EXAMPLE[47..]);
        match lawful {
            true => assert_eq!(parse(&file).unwrap().objective.len(), list.len()),
            false => assert_eq!(parse(&file), refused(5, 5), "{list:?}"),
        }
    }
}

/// A field of locks, whatever its numbers and values.
fn lock_field(entries: &[(u16, u8)]) -> Vec<u8> {
    let body: Vec<u8> = entries
        .iter()
        .flat_map(|&(variable, value)| [&variable.to_le_bytes()[..], &[value]].concat())
        .collect();
    write_field(LOCKS, &body)
}

/// The example with a field put in at one of its places.
fn example_plus(place: usize, field: &[u8]) -> Vec<u8> {
    [&EXAMPLE[..place], field, &EXAMPLE[place..]].concat()
}

/// "5 for a wrong number as in terms, 10 for another value (after 5 of that entry)."
#[test]
fn entries_of_locks() {
    let cases: [(&[(u16, u8)], u32); 18] = [
        (&[], 0),
        (&[(1, 0)], 0),
        (&[(2, 1)], 0),
        (&[(1, 1), (2, 0)], 0),
        (&[(0, 0)], 5),
        (&[(3, 1)], 5),
        (&[(65_535, 1)], 5),
        (&[(257, 1)], 5),
        (&[(1, 1), (1, 1)], 5),
        (&[(2, 1), (1, 1)], 5),
        (&[(1, 0), (2, 0), (2, 0)], 5),
        (&[(1, 2)], 10),
        (&[(1, 255)], 10),
        (&[(1, 0), (2, 2)], 10),
        // In an entry 5 comes first.
        (&[(0, 2)], 5),
        (&[(1, 1), (1, 255)], 5),
        // The first entry's 10 comes before the second one's 5.
        (&[(1, 2), (3, 1)], 10),
        (&[(1, 2), (1, 2)], 10),
    ];
    for (list, number) in cases {
        let answer = parse(&example_plus(20, &lock_field(list)));
        // The offset is that of the field, whichever the entry.
        match number {
            0 => {
                let kept: Vec<(u16, u8)> = answer
                    .unwrap()
                    .locks
                    .iter()
                    .map(|lock| (lock.variable as u16, lock.value as u8))
                    .collect();
                assert_eq!(kept, list);
            }
            number => assert_eq!(answer, refused(number, 20), "{list:?}"),
        }
    }
    for value in 0..=255 {
        let answer = parse(&example_plus(20, &lock_field(&[(2, value)])));
        assert_eq!(answer.is_ok(), value < 2);
    }
}

/// "An optional field, tag 06, between objective and first clause."
#[test]
fn the_place_of_locks() {
    let locks = lock_field(&[(2, 1)]);
    let locked = locking(example_plan(), &[(2, 1)]);
    assert_eq!(write(&locked), example_plus(20, &locks));
    assert_eq!(parse(&example_plus(20, &locks)), Ok(locked));
    // Before the count or the objective, in a clause and after one.
    for place in [0, 5, 23, 47] {
        assert_eq!(parse(&example_plus(place, &locks)), refused(2, place));
    }
    // Twice, the second at fault, empty ones too.
    for (first, second) in [(&locks, &locks), (&locks, &lock_field(&[]))] {
        let twice = [&first[..], &second[..]].concat();
        let place = 20 + first.len();
        assert_eq!(parse(&example_plus(20, &twice)), refused(2, place));
        let twice = [&second[..], &first[..]].concat();
        let place = 20 + second.len();
        assert_eq!(parse(&example_plus(20, &twice)), refused(2, place));
    }
    // Right before the end: a plan without a clause.
    let free = plan(2, &[(1, 1), (2, 2)], &[]);
    let file = [&EXAMPLE[..20], &locks, &EXAMPLE[47..]].concat();
    assert_eq!(parse(&file), Ok(locking(free, &[(2, 1)])));
    // A rule may not follow, nor the end of the file.
    let file = [&EXAMPLE[..20], &locks, &EXAMPLE[23..]].concat();
    assert_eq!(parse(&file), refused(2, 26));
    assert_eq!(parse(&file[..26]), refused(1, 26));
}

/// An empty field and none are one plan, whose file has none.
#[test]
fn an_empty_field_of_locks() {
    let file = example_plus(20, &lock_field(&[]));
    assert_eq!(file.len(), 53);
    assert_eq!(parse(&file), Ok(example_plan()));
    assert_eq!(write(&parse(&file).unwrap()), EXAMPLE);
}

/// The order in the field: 1 for the head, 2, 3, 1 for the body, then the entries.
#[test]
fn order_of_checks_in_a_field_of_locks() {
    assert_eq!(parse(&example_until(20, &[LOCKS, 4])), refused(1, 20));
    assert_eq!(parse(&example_until(5, &[LOCKS, 4, 0])), refused(2, 5));
    let file = example_until(20, &[LOCKS, 4, 0]);
    assert_eq!(parse(&file), refused(3, 20));
    // The body is cut behind an entry that is at fault.
    let file = example_until(20, &[LOCKS, 6, 0, 0, 0, 2, 1, 0]);
    assert_eq!(parse(&file), refused(1, 20));
    // The longest field: 1 without its body, 5 with it, as no plan has so many variables.
    let entries: Vec<(u16, u8)> = (1..=21_845).map(|variable| (variable, 1)).collect();
    let longest = lock_field(&entries);
    assert_eq!(longest.len(), 3 + 65_535);
    assert_eq!(parse(&example_plus(20, &longest)), refused(5, 20));
    let short = &longest[..longest.len() - 1];
    assert_eq!(parse(&example_until(20, short)), refused(1, 20));
    // A later fault does not matter.
    let file = example_until(20, &[&lock_field(&[(1, 2)])[..], &[9, 9, 9]].concat());
    assert_eq!(parse(&file), refused(10, 20));
}

#[test]
fn locks_up_to_the_last_variable() {
    for n in [1, 2, 255, 256, 257, 511, 512] {
        for list in [(1..=n).collect::<Vec<usize>>(), vec![n], vec![1]] {
            let locks: Vec<(usize, u8)> = list.iter().map(|&x| (x, (x % 2) as u8)).collect();
            let plan = locking(plan(n, &[], &[]), &locks);
            assert_eq!(write(&plan).len(), 14 + 3 * locks.len());
            assert_eq!(parse(&write(&plan)), Ok(plan.clone()));
            let value = |x: usize| list.contains(&x).then_some(x % 2 == 1);
            assert!((1..=n).all(|x| plan.lock(x) == value(x)));
        }
        let beyond = locking(plan(n, &[], &[]), &[(n + 1, 0)]);
        assert_eq!(parse(&write(&beyond)), refused(5, 8));
    }
}

#[test]
fn modes_and_bounds() {
    const FAR: i32 = 1_000_000_000;
    let cases = [
        ((1, 0, 0), Some((Some(0), None))),
        ((1, -FAR, 0), Some((Some(-1_000_000_000), None))),
        ((1, FAR, 0), Some((Some(1_000_000_000), None))),
        ((1, 0, 1), None),
        ((1, FAR + 1, 0), None),
        ((2, 0, 0), Some((None, Some(0)))),
        ((2, 0, -FAR), Some((None, Some(-1_000_000_000)))),
        ((2, -1, 0), None),
        ((2, 0, -FAR - 1), None),
        ((3, 0, 0), Some((Some(0), Some(0)))),
        ((3, 5, -5), Some((Some(5), Some(-5)))),
        (
            (3, FAR, -FAR),
            Some((Some(1_000_000_000), Some(-1_000_000_000))),
        ),
        ((3, i32::MIN, 0), None),
        ((3, 0, i32::MAX), None),
        ((0, 0, 0), None),
        ((4, 0, 0), None),
        ((255, 0, 0), None),
    ];
    for ((mode, lower, upper), bounds) in cases {
        let mut file = example_until(23, &rule_field(mode, lower, upper, &[(1, 1)]));
        file.extend(&EXAMPLE[47..]);
        match bounds {
            Some(bounds) => {
                let rule = &parse(&file).unwrap().clauses[0].rules[0];
                assert_eq!((rule.lower, rule.upper), bounds);
            }
            None => assert_eq!(parse(&file), refused(6, 23), "{mode} {lower} {upper}"),
        }
    }
}

/// A plan of n variables with clauses of so many rules of so many terms.
fn counted(clauses: &[(usize, usize)]) -> Plan {
    let rule = |terms: usize| {
        let list: Vec<(usize, i64)> = (1..=terms).map(|variable| (variable, 1)).collect();
        at_least(0, &list)
    };
    let rules: Vec<Vec<Rule>> = clauses
        .iter()
        .map(|&(rules, terms)| vec![rule(terms); rules])
        .collect();
    let lists: Vec<&[Rule]> = rules.iter().map(Vec::as_slice).collect();
    plan(512, &[], &lists)
}

#[test]
fn numbers_of_clauses_rules_and_terms() {
    let accepted = |clauses: &[(usize, usize)]| {
        let plan = counted(clauses);
        assert_eq!(parse(&write(&plan)), Ok(plan));
    };
    accepted(&[(1, 1); 512]);
    // The 513th clause is refused at its own field, though no rule follows.
    let mut file = write(&counted(&[(1, 1); 512]));
    file.truncate(file.len() - 3);
    let place = file.len();
    file.extend([CLAUSE, 0, 0]);
    assert_eq!(parse(&file), refused(4, place));
    // 1,024 rules in one clause, and one more.
    accepted(&[(1_024, 1)]);
    let last = write(&counted(&[(1_024, 1)])).len() - 3;
    assert_eq!(parse(&write(&counted(&[(1_025, 1)]))), refused(4, last));
    // 6,000 terms, and one more in a field of one or of several.
    accepted(&[(11, 512), (1, 368)]);
    let last = write(&counted(&[(11, 512), (1, 368)])).len() - 3;
    let file = write(&counted(&[(11, 512), (1, 368), (1, 1)]));
    assert_eq!(parse(&file), refused(4, last + 3));
    let last = write(&counted(&[(11, 512)])).len() - 3;
    let file = write(&counted(&[(11, 512), (1, 369)]));
    assert_eq!(parse(&file), refused(4, last + 3));
    // The longest rule field: 1 without its body, 4 with it.
    let longest = rule_field(1, 0, 0, &vec![(1, 1); 10_921]);
    assert_eq!(longest.len(), 3 + 65_535);
    assert_eq!(parse(&example_until(23, &longest)), refused(4, 23));
    let short = &longest[..longest.len() - 1];
    assert_eq!(parse(&example_until(23, short)), refused(1, 23));
}

#[test]
fn the_largest_file_is_accepted() {
    for seed in 0..3 {
        for (plan, size) in [
            (full_plan(&mut Random::new(seed)), 52_907),
            (locked_full_plan(&mut Random::new(seed), 512), 54_446),
        ] {
            let file = write(&plan);
            assert_eq!(file.len(), size);
            assert_eq!(parse(&file), Ok(plan));
        }
    }
}

#[test]
fn a_plan_is_read_as_written() {
    let mut random = Random::new(21);
    let shape = Shape {
        variables: 512,
        clauses: 20,
        rules: 5,
        terms: 30,
        weight: 1_000_000,
    };
    for _ in 0..500 {
        for plan in [
            any_plan(&mut random, &shape),
            met_plan(&mut random, &shape),
            small_plan(&mut random),
            heavy_plan(&mut random),
            race_plan(&mut random),
        ] {
            assert_eq!(parse(&write(&plan)), Ok(plan));
        }
    }
}

#[test]
fn damaged_files() {
    let mut random = Random::new(22);
    let (mut met, mut empty) = ([0; 11], 0);
    for round in 0..60_000 {
        let plan = match round % 20 {
            0 => race_plan(&mut random),
            1..=9 => small_plan(&mut random),
            _ => small_met_plan(&mut random),
        };
        let file = damage(&mut random, &write(&plan));
        match parse(&file) {
            // A plan has one file only, or where it has no lock one more with an empty field.
            Ok(plan) => {
                if write(&plan) != file {
                    let place = 8 + 6 * plan.objective.len();
                    let mut other = write(&plan);
                    other.splice(place..place, lock_field(&[]));
                    assert!(plan.locks.is_empty() && other == file);
                    empty += 1;
                }
                met[0] += 1;
            }
            Err(Refusal { number, offset }) => {
                // All before the field at fault is sound: without the rest, the only fault is
                // that the next field is missing, or none where bytes after the end are cut off.
                let sound = parse(&file[..offset]);
                if number == 7 {
                    assert!(sound.is_ok() && offset < file.len());
                } else {
                    assert_eq!(sound, refused(1, offset));
                }
                met[number as usize] += 1;
            }
        }
    }
    assert!(empty > 20, "{empty}");
    for number in [0, 1, 2, 3, 4, 5, 6, 7, 10] {
        assert!(met[number] > 100, "{met:?}");
    }
}

#[test]
fn settings_of_a_walk() {
    assert_eq!(parse_settings(&EXAMPLE_WALK), Ok(settings(500, 1, 1, 1)));
    assert_eq!(write_settings(&settings(500, 1, 1, 1)), EXAMPLE_WALK);
    for cut in 0..12 {
        assert_eq!(parse_settings(&EXAMPLE_WALK[..cut]), refused(1, 0));
    }
    let with = |place: usize, bytes: &[u8]| {
        let mut walk = EXAMPLE_WALK.to_vec();
        walk[place..place + bytes.len()].copy_from_slice(bytes);
        parse_settings(&walk)
    };
    for tag in (0..=255).filter(|&tag| tag != 16) {
        assert_eq!(with(0, &[tag]), refused(2, 0));
        // 2 before 3.
        assert_eq!(with(0, &[tag, 8]), refused(2, 0));
    }
    for length in (0..=300u16).filter(|&length| length != 9 && length != 12) {
        assert_eq!(with(1, &length.to_le_bytes()), refused(3, 0));
    }
    assert_eq!(with(1, &12u16.to_le_bytes()), refused(1, 0));
    // Bytes after the field come before its settings.
    let mut longer = EXAMPLE_WALK.to_vec();
    longer[3] = 255;
    longer[4] = 255;
    assert_eq!(parse_settings(&longer), refused(11, 0));
    longer.push(16);
    assert_eq!(parse_settings(&longer), refused(7, 12));
}

/// "walk.bin may have length 12, with a heuristic byte (0 SKC, 1 this) and a two-byte walk chance;
/// length 9 means SKC."
#[test]
fn settings_of_length_12() {
    let walk = [16, 12, 0, 0xF4, 1, 1, 0, 1, 0, 0, 0, 1, 1, 0x2C, 1];
    let novelty = novelty(settings(500, 1, 1, 1), 300);
    assert_eq!(parse_settings(&walk), Ok(novelty));
    assert_eq!(write_settings(&novelty), walk);
    for cut in 0..15 {
        assert_eq!(parse_settings(&walk[..cut]), refused(1, 0));
    }
    let with = |place: usize, bytes: &[u8]| {
        let mut walk = walk.to_vec();
        walk[place..place + bytes.len()].copy_from_slice(bytes);
        parse_settings(&walk)
    };
    // A heuristic byte 0 is SKC, whatever the chance.
    let skc = with(12, &[0]).unwrap();
    assert_eq!((skc.heuristic, skc.chance), (0, 300));
    for heuristic in 2..=255 {
        assert_eq!(with(12, &[heuristic]), refused(15, 0));
        // 15 before 16, 14 before both.
        assert_eq!(with(12, &[heuristic, 0xE9, 3]), refused(15, 0));
        assert_eq!(with(11, &[2, heuristic, 0xE9, 3]), refused(14, 0));
    }
    for heuristic in [0, 1] {
        assert!(with(12, &[heuristic, 0xE8, 3]).is_ok());
        assert_eq!(with(12, &[heuristic, 0xE9, 3]), refused(16, 0));
        assert_eq!(with(12, &[heuristic, 255, 255]), refused(16, 0));
    }
    let longer = [&walk[..], &[16]].concat();
    assert_eq!(parse_settings(&longer), refused(7, 15));
}

#[test]
fn settings_out_of_range() {
    let cases = [
        ((0, 1, 1, 0), None),
        ((1_000, 1_000, 1_000_000, 1), None),
        ((1_001, 1, 1, 0), Some(11)),
        ((65_535, 0, 0, 9), Some(11)),
        ((1_000, 0, 1, 0), Some(12)),
        ((1_000, 1_001, 0, 9), Some(12)),
        ((1_000, 65_535, 1, 0), Some(12)),
        ((1_000, 1_000, 0, 9), Some(13)),
        ((1_000, 1_000, 1_000_001, 0), Some(13)),
        ((1_000, 1_000, u32::MAX, 0), Some(13)),
        ((1_000, 1_000, 1_000_000, 2), Some(14)),
        ((1_000, 1_000, 1_000_000, 255), Some(14)),
    ];
    for ((noise, tries, flips, mode), number) in cases {
        let given = settings(noise, tries, flips, mode);
        assert_eq!(given.refusal(), number);
        let answer = parse_settings(&write_settings(&given));
        match number {
            Some(number) => assert_eq!(answer, refused(number, 0)),
            None => assert_eq!(answer, Ok(given)),
        }
        let searched = reference::walk::search(&example_plan(), &given, &[]);
        assert_eq!(searched.err().map(|refusal| refusal.number), number);
    }
}

#[test]
fn lists_of_numbers() {
    assert_eq!(parse_numbers(&[]), Ok(vec![]));
    let bytes = [1, 0, 0, 0, 0, 1, 0, 255, 9];
    assert_eq!(parse_numbers(&bytes[..8]), Ok(vec![1, 0xFF00_0100]));
    for length in [1, 2, 3, 5, 6, 7, 9] {
        assert_eq!(parse_numbers(&bytes[..length]), refused(8, 0));
    }
    let numbers = Random::new(23).numbers(16_384);
    assert_eq!(parse_numbers(&write_numbers(&numbers)), Ok(numbers));
}
