//! include/planner.h against what this harness declares of the library: every size, offset, limit
//! and ending, and the prototypes, word for word; and the prototype of include/races.h.

use harness::layout::{self, ASSIGNMENT, KEPT, MARKS, SECTIONS, TABLES, TALLIES, TERM_TABLE};
use harness::planner::{Counted, Figures, Flipped, Loaded, Searched, Squeezed, Written};
use harness::program::{printed_by_c, root};
use harness::searching::{ending, ENDINGS};
use reference::figures::NUMBERS;
use reference::file::{MOST_CLAUSES, MOST_RULES, MOST_TERMS, MOST_VARIABLES};
use reference::program::MOST_BYTES;
use reference::random::{locked_full_plan, Random};
use reference::squeeze::LIST;
use reference::walk::{Ending, LBS, LINEAR};
use std::fs;
use std::mem::{offset_of, size_of};

/// What the C compiler makes of each expression of the header.
fn in_c(expressions: &[&str]) -> Vec<i64> {
    let mut program = "#include \"planner.h\"\n#include <stdio.h>\nint main(void) {\n".to_string();
    for expression in expressions {
        program += &format!("    printf(\"%lld\\n\", (long long)({expression}));\n");
    }
    program += "    return 0;\n}\n";
    printed_by_c("-std=c11", &program)
        .lines()
        .map(|line| line.parse().unwrap())
        .collect()
}

#[test]
fn sizes_offsets_and_numbers() {
    let table: &[(&str, usize)] = &[
        ("sizeof(planner_loaded)", size_of::<Loaded>()),
        (
            "offsetof(planner_loaded, refusal)",
            offset_of!(Loaded, refusal),
        ),
        (
            "offsetof(planner_loaded, offset)",
            offset_of!(Loaded, offset),
        ),
        ("sizeof(planner_opened)", size_of::<u32>()),
        ("sizeof(planner_flipped)", size_of::<Flipped>()),
        (
            "offsetof(planner_flipped, refusal)",
            offset_of!(Flipped, refusal),
        ),
        (
            "offsetof(planner_flipped, rules)",
            offset_of!(Flipped, rules),
        ),
        ("sizeof(planner_counted)", size_of::<Counted>()),
        (
            "offsetof(planner_counted, refusal)",
            offset_of!(Counted, refusal),
        ),
        (
            "offsetof(planner_counted, break_count)",
            offset_of!(Counted, break_count),
        ),
        (
            "offsetof(planner_counted, break_cut)",
            offset_of!(Counted, break_cut),
        ),
        (
            "offsetof(planner_counted, make_count)",
            offset_of!(Counted, make_count),
        ),
        (
            "offsetof(planner_counted, make_cut)",
            offset_of!(Counted, make_cut),
        ),
        ("sizeof(planner_searched)", size_of::<Searched>()),
        (
            "offsetof(planner_searched, refusal)",
            offset_of!(Searched, refusal),
        ),
        (
            "offsetof(planner_searched, ending)",
            offset_of!(Searched, ending),
        ),
        (
            "offsetof(planner_searched, cost)",
            offset_of!(Searched, cost),
        ),
        (
            "offsetof(planner_searched, finds)",
            offset_of!(Searched, finds),
        ),
        (
            "offsetof(planner_searched, flips)",
            offset_of!(Searched, flips),
        ),
        (
            "offsetof(planner_searched, used)",
            offset_of!(Searched, used),
        ),
        ("((planner_searched){.cost = -1}).cost < 0", 1),
        ("sizeof(planner_figures)", size_of::<Figures>()),
        (
            "offsetof(planner_figures, refusal)",
            offset_of!(Figures, refusal),
        ),
        (
            "offsetof(planner_figures, found)",
            offset_of!(Figures, found),
        ),
        (
            "offsetof(planner_figures, share_top)",
            offset_of!(Figures, share),
        ),
        (
            "offsetof(planner_figures, share_bottom)",
            offset_of!(Figures, share) + 8,
        ),
        (
            "offsetof(planner_figures, flips_top)",
            offset_of!(Figures, flips),
        ),
        (
            "offsetof(planner_figures, flips_bottom)",
            offset_of!(Figures, flips) + 8,
        ),
        (
            "offsetof(planner_figures, cost_top)",
            offset_of!(Figures, cost_top),
        ),
        (
            "offsetof(planner_figures, cost_bottom)",
            offset_of!(Figures, cost_bottom),
        ),
        ("((planner_figures){.cost_top = -1}).cost_top < 0", 1),
        ("sizeof(planner_scratch)", NUMBERS + ASSIGNMENT),
        ("offsetof(planner_scratch, assignment)", NUMBERS),
        ("PLANNER_ZERO_STATE", 41),
        ("PLANNER_WRONG_RUNS", 42),
        ("PLANNER_WRONG_COUNT", 43),
        ("sizeof(planner_squeezed)", size_of::<Squeezed>()),
        (
            "offsetof(planner_squeezed, refusal)",
            offset_of!(Squeezed, refusal),
        ),
        (
            "offsetof(planner_squeezed, offset)",
            offset_of!(Squeezed, offset),
        ),
        (
            "offsetof(planner_squeezed, length)",
            offset_of!(Squeezed, length),
        ),
        (
            "offsetof(planner_squeezed, constant)",
            offset_of!(Squeezed, constant),
        ),
        ("((planner_squeezed){.constant = -1}).constant < 0", 1),
        ("sizeof(planner_written)", size_of::<Written>()),
        (
            "offsetof(planner_written, refusal)",
            offset_of!(Written, refusal),
        ),
        (
            "offsetof(planner_written, length)",
            offset_of!(Written, length),
        ),
        ("PLANNER_TEXT_OUTGROWS", 33),
        ("PLANNER_LIST_SIZE", LIST),
        ("sizeof(planner_list)", LIST),
        ("PLANNER_ALL_LOCKED", 71),
        ("PLANNER_CLAUSE_LOST", 72),
        ("PLANNER_TABLES_SIZE", TABLES),
        ("PLANNER_TERMS_SIZE", TERM_TABLE),
        ("PLANNER_ASSIGNMENT_SIZE", ASSIGNMENT),
        ("PLANNER_TALLIES_SIZE", TALLIES),
        ("PLANNER_KEPT_SIZE", KEPT),
        ("PLANNER_MARKS_SIZE", MARKS),
        ("sizeof(planner_plan)", TABLES + TERM_TABLE),
        ("offsetof(planner_plan, terms)", TABLES),
        ("sizeof(planner_state)", ASSIGNMENT + TALLIES),
        ("offsetof(planner_state, tallies)", ASSIGNMENT),
        (
            "sizeof(planner_work)",
            TABLES + TERM_TABLE + ASSIGNMENT + KEPT + MARKS,
        ),
        (
            "offsetof(planner_work, marks)",
            TABLES + TERM_TABLE + ASSIGNMENT + KEPT,
        ),
        ("PLANNER_MOST_VARIABLES", MOST_VARIABLES),
        ("PLANNER_MOST_CLAUSES", MOST_CLAUSES),
        ("PLANNER_MOST_RULES", MOST_RULES),
        ("PLANNER_MOST_TERMS", MOST_TERMS),
        ("PLANNER_FILE_SIZE", 54_446),
        ("PLANNER_LOCKS_PLACE", SECTIONS[2]),
        ("PLANNER_WRONG_LOCK", 10),
        ("PLANNER_WRONG_TEXT", 31),
        ("PLANNER_WRONG_TOTAL", 32),
        ("PLANNER_LOCKED", 26),
        ("PLANNER_INPUT_SIZE", MOST_BYTES),
        ("PLANNER_LINEAR", LINEAR as usize),
        ("PLANNER_LBS", LBS as usize),
        ("PLANNER_NOT_SEARCHED", 0),
        ("PLANNER_FLOOR", ending(Ending::Floor) as usize),
        ("PLANNER_ENDED", ending(Ending::Ended) as usize),
        ("PLANNER_NONE", ending(Ending::None) as usize),
        ("PLANNER_SHORT_FOUND", ending(Ending::ShortFound) as usize),
        ("PLANNER_SHORT_NONE", ending(Ending::ShortNone) as usize),
    ];
    let expressions: Vec<&str> = table.iter().map(|row| row.0).collect();
    for (&(expression, wanted), value) in table.iter().zip(in_c(&expressions)) {
        assert_eq!(value, wanted as i64, "{expression}");
    }
}

/// The text of an ending begins with its name.
#[test]
fn texts_of_endings() {
    let program = "#include \"planner.h\"\n#include <stdio.h>\nint main(void) {\n\
        for (uint32_t i = 1; i <= 5; i++) puts(planner_ending_text(i));\n return 0;\n}\n";
    let texts = printed_by_c("-std=c11", program);
    assert_eq!(texts.lines().count(), ENDINGS.len());
    for (text, ending) in texts.lines().zip(ENDINGS) {
        assert!(text.starts_with(&format!("{}: ", ending.name())), "{text}");
    }
}

/// The lock of each variable, as the header reads it from tables: free, at 0, at 1; free outside the
/// plan.
#[test]
fn locks_of_a_plan() {
    let mut random = Random::new(91);
    for count in [0, 1, 300, 512] {
        let plan = locked_full_plan(&mut random, count);
        let bytes: Vec<String> = layout::tables(&plan).0.iter().map(u8::to_string).collect();
        let program = format!(
            "#include \"planner.h\"\n#include <stdio.h>\nstatic planner_plan plan = {{{{{}}}, {{0}}}};\n\
             int main(void) {{\n for (uint32_t i = 0; i < 600; i++)\n\
             printf(\"%u\\n\", (unsigned)planner_plan_lock(&plan, i));\n return 0;\n}}\n",
            bytes.join(",")
        );
        let locks: Vec<Option<bool>> = printed_by_c("-std=c11", &program)
            .lines()
            .map(|line| match line {
                "0" => None,
                "1" => Some(false),
                "2" => Some(true),
                other => panic!("{other}"),
            })
            .collect();
        let wanted: Vec<Option<bool>> = (0..600).map(|variable| plan.lock(variable)).collect();
        assert_eq!(locks, wanted);
    }
    let names = ["PLANNER_FREE", "PLANNER_LOCKED_AT_0", "PLANNER_LOCKED_AT_1"];
    assert_eq!(in_c(&names), [0, 1, 2]);
    assert_eq!(
        in_c(&["planner_plan_lock(&(planner_plan){{0}, {0}}, UINT32_MAX)"]),
        [0]
    );
}

/// A function's answer and its parameters with their types, as Rust writes them.
type Prototype = (String, Vec<(String, String)>);

/// What stands from the first of two texts to the second.
fn between<'a>(text: &'a str, first: &str, second: &str) -> &'a str {
    let begin = text.find(first).unwrap_or_else(|| panic!("no {first}")) + first.len();
    let rest = &text[begin..];
    &rest[..rest.find(second).unwrap()]
}

fn c_type(words: &str) -> &'static str {
    match words {
        "const uint8_t *" => "*const u8",
        "uint8_t *" => "*mut u8",
        "size_t" => "usize",
        "size_t *" => "*mut usize",
        "planner_share_of *" => "*mut Race",
        "uint32_t" => "u32",
        "planner_loaded" => "Loaded",
        "planner_flipped" => "Flipped",
        "planner_counted" => "Counted",
        "planner_searched" => "Searched",
        "planner_figures" => "Figures",
        "planner_squeezed" => "Squeezed",
        "planner_written" => "Written",
        other => panic!("'{other}' is no type of the interface"),
    }
}

fn prototype_in_c(header: &str, name: &str) -> Prototype {
    let call = format!(" {name}(");
    let line = header.lines().find(|line| {
        let declared = line.find(&call);
        declared.is_some_and(|place| place > 0 && !line[..place].contains(' '))
    });
    let answer = line.unwrap().split(' ').next().unwrap();
    let parameters = between(header, &format!("\n{answer}{call}"), ");")
        .split(',')
        .map(|parameter| {
            let parameter = parameter.split_whitespace().collect::<Vec<_>>().join(" ");
            let place = parameter.rfind([' ', '*']).unwrap() + 1;
            let (words, name) = parameter.split_at(place);
            (name.to_string(), c_type(words.trim_end()).to_string())
        })
        .collect();
    (c_type(answer).to_string(), parameters)
}

fn prototype_in_rust(source: &str, name: &str) -> Prototype {
    let function = between(source, &format!("fn {name}("), ";");
    let (parameters, answer) = function.split_once(") -> ").unwrap();
    let parameters = parameters
        .split(',')
        .filter(|parameter| !parameter.trim().is_empty())
        .map(|parameter| {
            let (name, words) = parameter.trim().split_once(": ").unwrap();
            (name.to_string(), words.to_string())
        })
        .collect();
    (answer.to_string(), parameters)
}

#[test]
fn prototypes() {
    let header = fs::read_to_string(root().join("include/planner.h")).unwrap();
    let source = concat!(
        include_str!("../src/planner.rs"),
        include_str!("../src/races.rs")
    );
    for (name, parameters) in [
        ("planner_load", 6),
        ("planner_read_opb", 6),
        ("planner_open", 8),
        ("planner_flip", 9),
        ("planner_counts", 9),
        ("planner_search", 24),
        ("planner_runs", 32),
        ("planner_squeeze", 4),
        ("planner_races", 52),
        ("planner_write_opb", 6),
    ] {
        let declared = prototype_in_c(&header, name);
        assert_eq!(declared.1.len(), parameters, "{name}");
        assert_eq!(declared, prototype_in_rust(source, name), "{name}");
    }
    let share = fs::read_to_string(root().join("include/races.h")).unwrap();
    assert_eq!(
        prototype_in_c(&share, "planner_share"),
        prototype_in_rust(source, "planner_share")
    );
}
