//! The proved call from the mapper's two lists to a plan file, held to the reference: the cases of a
//! separately written program, random lists, sound, damaged and cut, buffers of any size, and the
//! header's words.

use harness::guarded::Guarded;
use harness::layout;
use harness::mapper::{map, raw, refused, Mapped};
use harness::planner::Loaded;
use harness::program::{printed_by_c, root};
use reference::csv::{mapped, LEAST_ROOM};
use reference::file::{parse, write};
use reference::making::from_hexadecimal;
use reference::mapper::{damage, lists, sound};
use reference::random::Random;
use std::collections::BTreeMap;
use std::fs;
use std::mem::{offset_of, size_of};
use std::ptr::{null, null_mut};

/// The call answers and leaves what the reference says, with a buffer of this size; answers the
/// refusal's number.
fn check(random: &mut Random, sites: &[u8], zones: &[u8], room: usize) -> u32 {
    let before = Guarded::sized(random, &[], room);
    let mut plan = before.clone();
    let answer = map(sites, zones, plan.lend());
    let shown = || format!("{} / {}", sites.escape_ascii(), zones.escape_ascii());
    assert!(plan.same_guards(&before), "{}", shown());
    match mapped(sites, zones, room) {
        Err(refusal) => {
            assert_eq!(answer, refused(refusal), "{}", shown());
            assert_eq!(plan, before, "{}", shown());
        }
        Ok(expected) => {
            let file = write(&expected);
            let accepted = Mapped {
                refusal: 0,
                list: 0,
                row: 0,
                length: file.len(),
            };
            assert_eq!(answer, accepted, "{}", shown());
            assert_eq!(&plan.bytes()[..file.len()], file, "{}", shown());
            assert_eq!(
                plan.bytes()[file.len()..],
                before.bytes()[file.len()..],
                "{}",
                shown()
            );
        }
    }
    answer.refusal
}

#[test]
fn cases_of_a_separately_written_program() {
    let cases = fs::read_to_string(root().join("tests/vectors/csv.txt")).unwrap();
    let mut count = 0;
    for case in cases.lines() {
        let (given, expected) = case.split_once(" = ").unwrap();
        let (sites, zones) = given.split_once(' ').unwrap();
        let mut plan = vec![0; LEAST_ROOM];
        let answer = map(
            &from_hexadecimal(sites),
            &from_hexadecimal(zones),
            &mut plan,
        );
        let shown = if answer.refusal == 0 {
            let hex: Vec<String> = plan[..answer.length]
                .iter()
                .map(|byte| format!("{byte:02x}"))
                .collect();
            format!("accepted {}", hex.concat())
        } else {
            format!("refused {} {} {}", answer.refusal, answer.list, answer.row)
        };
        assert_eq!(shown, expected, "{case}");
        count += 1;
    }
    assert!(count >= 150, "{count} cases");
}

#[test]
fn random_lists_sound_and_damaged() {
    let mut random = Random::new(7_002);
    let mut numbers: BTreeMap<u32, usize> = BTreeMap::new();
    for case in 0..8_000 {
        let most = [3, 6, 6, 12, 40][case % 5];
        let (some, groups) = sound(&mut random, most);
        let (mut sites, mut zones) = lists(&mut random, &some, &groups);
        for _ in 0..random.below(4) {
            if random.percent(50) {
                sites = damage(&mut random, &sites);
            } else {
                zones = damage(&mut random, &zones);
            }
        }
        let room = LEAST_ROOM + random.below(200) - random.below(40) * random.below(2);
        *numbers
            .entry(check(&mut random, &sites, &zones, room))
            .or_default() += 1;
    }
    for number in [0, 21, 51, 52, 53, 54, 55] {
        let count = numbers.get(&number).copied().unwrap_or(0);
        assert!(count >= 15, "{number}: {numbers:?}");
    }
}

#[test]
fn every_cut_of_both_lists() {
    let mut random = Random::new(7_003);
    for _ in 0..12 {
        let (some, groups) = sound(&mut random, 5);
        let (sites, zones) = lists(&mut random, &some, &groups);
        for place in 0..=sites.len() {
            check(&mut random, &sites[..place], &zones, LEAST_ROOM);
        }
        for place in 0..=zones.len() {
            check(&mut random, &sites, &zones[..place], LEAST_ROOM);
        }
    }
}

#[test]
fn any_bytes_at_all() {
    let mut random = Random::new(7_004);
    for _ in 0..8_000 {
        let mut list = |most: usize| -> Vec<u8> {
            let length = random.below(most);
            let some: &[u8] = b"\"\",,\r\n\r\n01a ";
            let mut bytes = Vec::new();
            for _ in 0..length {
                let byte = match random.below(20) {
                    0 => random.number() as u8,
                    _ => some[random.below(some.len())],
                };
                bytes.push(byte);
            }
            bytes
        };
        let (sites, zones) = (list(40), list(40));
        check(&mut random, &sites, &zones, LEAST_ROOM);
    }
}

fn many(sites: usize, zones: usize) -> (Vec<u8>, Vec<u8>) {
    let site = |number: usize| format!("site-{number:011},{number},zone{:012}\r\n", number % zones);
    let zone = |number: usize| format!("zone{number:012},0,{number},yes\r\n");
    let sites: String = (0..sites).map(site).collect();
    let zones: String = (0..zones).map(zone).collect();
    (sites.into_bytes(), zones.into_bytes())
}

#[test]
fn up_to_the_limits_and_past_them() {
    let mut random = Random::new(7_005);
    for (sites, zones, number) in [
        (512, 512, 0),
        (512, 1, 0),
        (511, 512, 55),
        (513, 1, 4),
        (513, 513, 4),
        (600, 513, 4),
    ] {
        let (site_list, zone_list) = many(sites, zones);
        let answer = check(&mut random, &site_list, &zone_list, LEAST_ROOM);
        assert_eq!(answer, number, "{sites} sites, {zones} zones");
    }
    let (sites, zones) = many(512, 512);
    for room in [0, 1, LEAST_ROOM - 1] {
        assert_eq!(check(&mut random, &sites, &zones, room), 21);
        assert_eq!(check(&mut random, b"\n", b"\n", room), 21);
    }
}

#[test]
fn what_is_written_loads() {
    let mut random = Random::new(7_006);
    for _ in 0..300 {
        let (some, groups) = sound(&mut random, 30);
        let (sites, zones) = lists(&mut random, &some, &groups);
        let mut plan = vec![0; LEAST_ROOM];
        let answer = map(&sites, &zones, &mut plan);
        let file = &plan[..answer.length];
        let expected = parse(file).unwrap();
        let mut tables = vec![0; layout::TABLES];
        let mut terms = vec![0; layout::TERM_TABLE];
        let loaded = harness::planner::load(file, &mut tables, &mut terms);
        let accepted = Loaded {
            refusal: 0,
            offset: 0,
        };
        assert_eq!(loaded, accepted);
        assert_eq!((tables, terms), layout::tables(&expected));
    }
}

#[test]
fn null_where_a_length_is_0() {
    let refusal = |refusal| Mapped {
        refusal,
        list: 0,
        row: 0,
        length: 0,
    };
    let mut plan = vec![0; LEAST_ROOM];
    let answer =
        unsafe { raw::planner_map_csv(null(), 0, null(), 0, plan.as_mut_ptr(), plan.len()) };
    assert_eq!(answer, refusal(4));
    let answer = unsafe { raw::planner_map_csv(null(), 0, null(), 0, null_mut(), 0) };
    assert_eq!(answer, refusal(21));
}

#[test]
fn the_header() {
    let program = "#include \"mapper.h\"\n#include <stdio.h>\nint main(void) {\n\
        printf(\"%zu %zu %zu %zu %zu %d\\n\", sizeof(planner_mapped), offsetof(planner_mapped, refusal),\n\
        offsetof(planner_mapped, list), offsetof(planner_mapped, row), offsetof(planner_mapped, length),\n\
        PLANNER_PLAN_SIZE);\n return 0;\n}\n";
    let expected = [
        size_of::<Mapped>(),
        offset_of!(Mapped, refusal),
        offset_of!(Mapped, list),
        offset_of!(Mapped, row),
        offset_of!(Mapped, length),
        LEAST_ROOM,
    ];
    let expected: Vec<String> = expected.iter().map(|n| n.to_string()).collect();
    assert_eq!(printed_by_c("-std=c99", program).trim(), expected.join(" "));
}

/// The rows of docs/REFUSALS.md that speak of lists have the header's names and words.
#[test]
fn the_words_of_a_refusal() {
    let page = fs::read_to_string(root().join("docs/REFUSALS.md")).unwrap();
    let (_, section) = page.split_once("## The mapper's lists").unwrap();
    let header = fs::read_to_string(root().join("include/mapper.h")).unwrap();
    let program = "#include \"mapper.h\"\n#include <stdio.h>\nint main(void) {\n\
        for (uint32_t i = 0; i < 100; i++) puts(planner_mapped_text(i));\n return 0;\n}\n";
    let words: Vec<String> = printed_by_c("-std=c99", program)
        .lines()
        .map(str::to_string)
        .collect();
    let mut count = 0;
    for line in section.lines().filter(|line| line.starts_with('|')) {
        let cells: Vec<&str> = line.trim_matches('|').split('|').map(str::trim).collect();
        let Ok(number) = cells[0].parse::<usize>() else {
            continue;
        };
        let name = cells[1].trim_matches('`');
        assert!(header.contains(&format!("    {name} = {number}")), "{line}");
        assert_eq!(words[number], cells[2], "{line}");
        count += 1;
    }
    assert_eq!(count, 7);
    let known = words.iter().filter(|words| *words != "unknown refusal");
    assert_eq!(known.count(), 8);
}
