//! Walks worked out by hand from documents 01 and 02, as one table. The reference is held to it, and so is
//! the library (tests/harness).

use crate::making::*;
use crate::plan::{Plan, Rule};
use crate::walk::{Settings, LBS, LINEAR};

/// A search and its answer: ending, cost, finds, flips, numbers used, and the last find's digits,
/// or `-` for none.
pub struct Worked {
    pub why: &'static str,
    pub plan: Plan,
    pub settings: Settings,
    pub numbers: Vec<u32>,
    pub answer: String,
}

/// Rows that share a reason, a plan and settings.
fn rows(
    why: &'static str,
    plan: Plan,
    settings: Settings,
    answers: &[(&[u32], &str)],
) -> Vec<Worked> {
    let row = |&(numbers, answer): &(&[u32], &str)| Worked {
        why,
        plan: plan.clone(),
        settings,
        numbers: numbers.to_vec(),
        answer: answer.to_string(),
    };
    answers.iter().map(row).collect()
}

/// Document 01's example, whole and cut at every number.
fn example() -> Vec<Worked> {
    let n = EXAMPLE_NUMBERS;
    let more = [&n[..], &[7, 7, 7]].concat();
    let mut table = rows(
        "Needs: start, start, start, clause, noise, variable, (over to linear) start, clause, \
         noise, variable. Finds at numbers 1 and 2, flips with numbers 6 and 10; numbers past the \
         last need are not used.",
        example_plan(),
        settings(500, 1, 1, LBS),
        &[
            (&n[..0], "short-none 0 0 0 0 -"),
            (&n[..1], "short-found 2 1 0 1 01"),
            (&n[..2], "short-found 1 2 0 2 10"),
            (&n[..3], "short-found 1 2 0 3 10"),
            (&n[..4], "short-found 1 2 0 4 10"),
            (&n[..5], "short-found 1 2 0 5 10"),
            (&n[..6], "short-found 1 2 1 6 10"),
            (&n[..7], "short-found 1 2 1 7 10"),
            (&n[..8], "short-found 1 2 1 8 10"),
            (&n[..9], "short-found 1 2 1 9 10"),
            (&n, "ended 1 2 2 10 10"),
            (&more, "ended 1 2 2 10 10"),
        ],
    );
    table.extend(rows(
        "Find 01 of cost 2; O ≤ 1 from 10, cost 1; O ≤ 0 from 00: clause 5, noise 900 to a pick \
         among all, 3 takes x2; the flip is the last, so the call fails.",
        example_plan(),
        settings(500, 1, 1, LINEAR),
        &[(&n, "ended 1 2 1 6 10")],
    ));
    table.extend(rows(
        "Counts are those of plan and added clause. Find 01 of cost 2; O ≤ 1 from 00. x2 would \
         spoil the added clause once and x1 would not, so the pick is among x1 alone. By the plan \
         alone 7 would pick x2 of the two.",
        example_plan(),
        settings(1_000, 1, 2, LINEAR),
        &[(&[2, 0, 0, 7], "short-found 1 2 1 4 10")],
    ));
    table
}

/// The endings floor and none.
fn endings() -> Vec<Worked> {
    let free = plan(2, &[(1, 2), (2, -3)], &[]);
    let never = plan(2, &[], &[&[at_least(5, &[(1, 1), (2, 1)])]]);
    let mut table = rows(
        "No clause, no objective: the first start is a find of cost 0 = l(O).",
        plan(2, &[], &[]),
        settings(0, 1, 1, LBS),
        &[(&[2], "floor 0 1 0 1 01")],
    );
    table.extend(rows(
        "l(O) = −3 is reached with x1 = 0, x2 = 1, and no later number is needed; or cost −1 \
         first, then O ≤ −2 from the start 01.",
        free.clone(),
        settings(0, 1, 1, LINEAR),
        &[(&[2], "floor -3 1 0 1 01"), (&[3, 2], "floor -3 2 0 2 01")],
    ));
    table.extend(rows(
        "m = (−3 − 2)/3 = −2 when rounded down.",
        free,
        settings(0, 1, 1, LBS),
        &[(&[3, 2], "floor -3 2 0 2 01")],
    ));
    table.extend(rows(
        "One empty clause: both break counts are 0, and the pick among them takes x2. None is \
         said even where the list ends with the last flip.",
        never.clone(),
        settings(0, 1, 1, LINEAR),
        &[
            (&[0, 0, 1], "none 0 0 1 3 -"),
            (&[0, 0], "short-none 0 0 0 2 -"),
            (&[0], "short-none 0 0 0 1 -"),
        ],
    ));
    table.extend(rows(
        "Two tries of two flips: 5 numbers each.",
        never,
        settings(0, 2, 2, LINEAR),
        &[
            (&[9; 10], "none 0 0 4 10 -"),
            (&[9; 5], "short-none 0 0 2 5 -"),
        ],
    ));
    table
}

/// What the last flip reaches is not looked at.
fn last_flip() -> Vec<Worked> {
    let up = || plan(1, &[], &[&[at_least(1, &[(1, 1)])]]);
    let mut table = rows(
        "One flip: what it reaches is not looked at.",
        up(),
        settings(0, 1, 1, LINEAR),
        &[(&[0, 0, 0], "none 0 0 1 3 -")],
    );
    table.extend(rows(
        "Two flips: the look before the second finds it.",
        up(),
        settings(0, 1, 2, LINEAR),
        &[(&[0, 0, 0], "floor 0 1 1 3 1")],
    ));
    table.extend(rows(
        "Two tries: the second one's start is looked at.",
        up(),
        settings(0, 2, 1, LINEAR),
        &[(&[0, 0, 0, 1], "floor 0 1 1 4 1")],
    ));
    table
}

/// n digits 0, with 1 at these variables.
fn digits(n: usize, ones: &[usize]) -> String {
    (1..=n)
        .map(|variable| if ones.contains(&variable) { '1' } else { '0' })
        .collect()
}

/// A start takes all its numbers or none.
fn starts() -> Vec<Worked> {
    let settings = settings(0, 1, 1, LINEAR);
    let found = |n, ones: &[usize], used: usize| format!("floor 0 1 0 {used} {}", digits(n, ones));
    let mut table = rows(
        "33 variables need two numbers; bit 0 is the lowest.",
        plan(33, &[], &[]),
        settings,
        &[
            (&[], "short-none 0 0 0 0 -"),
            (&[1], "short-none 0 0 0 0 -"),
            (&[1, 1], &found(33, &[1, 33], 2)),
            (&[1 << 31 | 2, !1], &found(33, &[2, 32], 2)),
        ],
    );
    table.extend(rows(
        "32 variables need one number.",
        plan(32, &[], &[]),
        settings,
        &[(&[1 << 31, 0], &found(32, &[32], 1))],
    ));
    let all: Vec<usize> = (1..=512).collect();
    table.extend(rows(
        "512 variables need 16.",
        plan(512, &[], &[]),
        settings,
        &[
            (&[0; 15], "short-none 0 0 0 0 -"),
            (&[u32::MAX; 16], &found(512, &all, 16)),
        ],
    ));
    table.extend(rows(
        "The second call's start is short: one number is left, two are needed.",
        plan(33, &[(1, 1)], &[]),
        settings,
        &[(
            &[1, 0, 0],
            &format!("short-found 1 1 0 2 {}", digits(33, &[1])),
        )],
    ));
    table
}

/// Which clause is picked, and among which of its variables.
fn picks() -> Vec<Worked> {
    let clauses = [
        [at_least(1, &[(1, 1)])],
        [at_least(1, &[(2, 1)])],
        [at_least(1, &[(2, 1), (3, 1)])],
    ];
    let mut table = rows(
        "At 100 the first clause holds; place 0 is x2 ≥ 1, place 1 is x2 + x3 ≥ 1. The former \
         leads to x2 and a find at once; the latter, with pick 1, to x3 and then to x2.",
        plan(3, &[], &[&clauses[0], &clauses[1], &clauses[2]]),
        settings(0, 1, 3, LINEAR),
        &[
            (&[1, 0, 1, 0, 0], "floor 0 1 1 3 110"),
            (&[1, 1, 1, 0, 0], "floor 0 1 2 5 111"),
            (&[1, 2, 1, 0, 0], "floor 0 1 1 3 110"),
            (&[1, 3, 1, 0, 0], "floor 0 1 2 5 111"),
        ],
    );
    table.extend(rows(
        "The added clause is the last and is picked like any other. Find 111 of cost 2. O ≤ 1 \
         from 011: unsatisfied are x1 ≥ 1 and O ≤ 1, pick 1 is the latter; its variables x2, x3 \
         have break 0 and pick 1 flips x3. Then x1 is flipped and 110 found.",
        plan(3, &[(2, 1), (3, 1)], &[&[at_least(1, &[(1, 1)])]]),
        settings(0, 1, 3, LINEAR),
        &[(&[7, 6, 1, 1, 0, 0], "short-found 1 2 2 6 110")],
    ));
    let twice = [at_least(3, &[(1, 1), (2, 1)]), at_least(1, &[(1, 1)])];
    table.extend(rows(
        "Unsatisfied at 00 with break 0 everywhere. Offered are x1, x2: number 2 takes x1, which \
         meets the second rule. Offered twice, x1 would stand at 0 and 1, and 2 would take x2.",
        plan(2, &[], &[&twice]),
        settings(0, 1, 2, LINEAR),
        &[(&[0, 0, 2], "floor 0 1 1 3 10")],
    ));
    table
}

/// Least break counts on both sides of the cap.
fn ties() -> Vec<Worked> {
    let both = |w: i64| {
        let first: [Rule; 1] = [at_least(1, &[(1, 1), (2, 1)])];
        let second = [at_most(2, &[(1, w), (2, 2 * w)]), at_least(1, &[(3, 1)])];
        plan(3, &[], &[&first, &second])
    };
    let row = |w, answer| {
        rows(
            "At 000 only x1 + x2 ≥ 1 is unsatisfied. Of the clause (w·x1 + 2w·x2 ≤ 2) or \
             (x3 ≥ 1) x1 would spoil w over 3 and x2 2w over 3. Noise 1,000 leads to the least: \
             where both are cut they tie, and number 1 takes x2; else x1 is alone. Then x3 alone \
             has break 0.",
            both(w),
            settings(1_000, 1, 3, LINEAR),
            &[(&[0, 0, 0, 1, 0, 0], answer)],
        )
    };
    let mut table = row(10, "floor 0 1 2 6 101");
    table.extend(row(100_000, "floor 0 1 2 6 011"));
    table
}

/// 'Least' with counts at the cap, above it and below it.
fn cut_counts() -> Vec<Worked> {
    let spoils = |variable, [v, w]: [i64; 2]| {
        let low = |weight| at_most(0, &[(variable, weight)]);
        [low(v), low(w), at_least(1, &[(3, 1)])]
    };
    let row = |first, second, answers: [&str; 2]| {
        let leave = [at_least(1, &[(1, 1), (2, 1)])];
        let clauses: [&[Rule]; 3] = [&leave, &spoils(1, first), &spoils(2, second)];
        rows(
            "At 000 only x1 + x2 ≥ 1 is unsatisfied. Of (v·x ≤ 0) or (w·x ≤ 0) or (x3 ≥ 1) the \
             flip of x would spoil v·w. 65,535·65,537 is 4,294,967,295, which is the true number \
             and less than any that is cut; 65,536² is cut, and so is 65,536·65,537, and these \
             tie. Noise 1,000 leads to the least, where 0 takes the first and 1 the second of \
             two. Then x3 alone has break 0.",
            plan(3, &[], &clauses),
            settings(1_000, 1, 3, LINEAR),
            &[
                (&[0, 0, 0, 0, 0, 0], answers[0]),
                (&[0, 0, 0, 1, 0, 0], answers[1]),
            ],
        )
    };
    let (at_cap, above, far) = ([65_535, 65_537], [65_536, 65_536], [65_536, 65_537]);
    let below = [65_535, 65_536];
    let (x1, x2) = ("floor 0 1 2 6 101", "floor 0 1 2 6 011");
    [
        row(at_cap, above, [x1, x1]),
        row(above, at_cap, [x2, x2]),
        row(above, far, [x1, x2]),
        row(far, above, [x1, x2]),
        row(at_cap, at_cap, [x1, x2]),
        row(at_cap, below, [x2, x2]),
        row(below, above, [x1, x1]),
    ]
    .into_iter()
    .flatten()
    .collect()
}

/// The highest number there is.
const TOP: u32 = u32::MAX;

/// Picks among m that discard numbers at or above the largest multiple of m up to 4,294,967,296.
fn discarded_places() -> Vec<Worked> {
    let any = |n: usize| {
        let ones: Vec<(usize, i64)> = (1..=n).map(|variable| (variable, 1)).collect();
        plan(n, &[], &[&[at_least(1, &ones)]])
    };
    let twice = settings(0, 1, 2, LINEAR);
    let mut table = rows(
        "From 000 the pick among one clause takes 4,294,967,295. Among three variables that number 
         alone is discarded, and 4,294,967,294 takes place 2. What is discarded is used, also where 
         the list ends there.",
        any(3),
        twice,
        &[
            (&[0, TOP], "short-none 0 0 0 2 -"),
            (&[0, TOP, TOP], "short-none 0 0 0 3 -"),
            (&[0, TOP, TOP, TOP], "short-none 0 0 0 4 -"),
            (&[0, TOP, TOP, 1], "floor 0 1 1 4 010"),
            (&[0, TOP, TOP, TOP, TOP, 2], "floor 0 1 1 6 001"),
            (&[0, TOP, TOP - 1], "floor 0 1 1 3 001"),
        ],
    );
    table.extend(rows(
        "4,294,967,296 is 4 above a multiple of 7: 4,294,967,292 is discarded, and 4,294,967,291 takes 
         the last place.",
        any(7),
        twice,
        &[
            (&[0, 0, TOP - 4], "floor 0 1 1 3 0000001"),
            (&[0, 0, TOP - 3, TOP - 5], "floor 0 1 1 4 0000010"),
            (&[0, 0, TOP, TOP - 3, 14], "floor 0 1 1 5 1000000"),
        ],
    ));
    for n in [1, 2, 4, 32] {
        table.extend(rows(
            "m divides 4,294,967,296, so nothing is discarded: the highest number takes the last 
             place.",
            any(n),
            twice,
            &[(
                &[0, TOP, TOP],
                &format!("floor 0 1 1 3 {}", digits(n, &[n])),
            )],
        ));
    }
    let start = [0; 16];
    table.extend(rows(
        "512 divides it too.",
        any(512),
        twice,
        &[(
            &[&start[..], &[TOP, TOP]].concat(),
            &format!("floor 0 1 1 18 {}", digits(512, &[512])),
        )],
    ));
    let each = |variable| [at_least(1, &[(variable, 1)])];
    table.extend(rows(
        "The clause pick. From 000 three clauses are unsatisfied: 4,294,967,295 is discarded, and 2 
         leads to x3. Then two are: it is kept and leads to x2, at last to x1.",
        plan(3, &[], &[&each(1), &each(2), &each(3)]),
        settings(0, 1, 4, LINEAR),
        &[
            (&[0, TOP, 2, TOP, TOP, TOP, TOP, TOP], "floor 0 1 3 8 111"),
            (&[0, TOP, 2, TOP, TOP, TOP, TOP], "short-none 0 0 2 7 -"),
            (&[0, TOP, TOP], "short-none 0 0 0 3 -"),
        ],
    ));
    table.extend(rows(
        "After a find. O ≤ 2 from 111 picks among one clause and three variables: the list ends 
         among discards, or 1 flips x2, and O ≤ 1 needs a start.",
        plan(3, &[(1, 1), (2, 1), (3, 1)], &[]),
        twice,
        &[
            (&[7, 7, TOP, TOP], "short-found 3 1 0 4 111"),
            (&[7, 7, TOP, TOP, TOP], "short-found 3 1 0 5 111"),
            (&[7, 7, TOP, TOP, 1], "short-found 2 2 1 5 101"),
        ],
    ));
    table
}

/// Noise numbers, the picks after them, and starts.
fn discarded_noise() -> Vec<Worked> {
    let far = [at_most(2, &[(1, 10), (2, 20)]), at_least(1, &[(3, 1)])];
    let near = [at_least(1, &[(1, 1), (2, 1)])];
    let mut table = rows(
        "At 000 only x1 + x2 ≥ 1 is unsatisfied, and x1 spoils less of the other clause than x2. With 
         noise 1 only a number 0 of 1,000 leads to x1, any other to a pick among both, where 1 takes 
         x2. Then x3 alone has break 0. From 4,294,967,000 on a noise number is discarded.",
        plan(3, &[], &[&near, &far]),
        settings(1, 1, 3, LINEAR),
        &[
            (&[0, 0, 4_294_966_000, 1, 0, 0], "floor 0 1 2 6 101"),
            (&[0, 0, 4_294_966_999, 1, 0, 0], "floor 0 1 2 6 011"),
            (&[0, 0, 4_294_967_000, 1, 1, 0, 0], "floor 0 1 2 7 011"),
            (&[0, 0, TOP, TOP, 0, 1, 0, 0], "floor 0 1 2 8 101"),
            (&[0, 0, 4_294_967_000], "short-none 0 0 0 3 -"),
            (&[0, 0, TOP, 4_294_967_000], "short-none 0 0 0 4 -"),
            (&[0, 0, TOP, 0], "short-none 0 0 0 4 -"),
        ],
    );
    let none = [
        at_most(0, &[(1, 1), (2, 1), (3, 1)]),
        at_least(1, &[(4, 1)]),
    ];
    for noise in [0, 1_000] {
        table.extend(rows(
            "At 0000 each of x1, x2, x3 spoils one clause, so that the least are all, and either 
             pick is among three. Then x4 alone has break 0.",
            plan(4, &[], &[&[at_least(1, &[(1, 1), (2, 1), (3, 1)])], &none]),
            settings(noise, 1, 3, LINEAR),
            &[
                (&[0, 7, 0, TOP, 1, TOP, TOP], "floor 0 1 2 7 0101"),
                (&[0, 7, 0, TOP], "short-none 0 0 0 4 -"),
                (&[0, 7, 0, TOP, 1, TOP], "short-none 0 0 1 6 -"),
            ],
        ));
    }
    let all: Vec<usize> = (1..=33).collect();
    table.extend(rows(
        "A start discards nothing, and takes none where one is missing.",
        plan(33, &[], &[]),
        settings(0, 1, 1, LINEAR),
        &[
            (&[TOP], "short-none 0 0 0 0 -"),
            (&[TOP, TOP], &format!("floor 0 1 0 2 {}", digits(33, &all))),
        ],
    ));
    table
}

/// LBS: its bound, and over to linear for good.
fn lbs() -> Vec<Worked> {
    let numbers = [7, 6, 6, 0, 0, 2, 2, 0, 0];
    let mut table = rows(
        "O = 9·x1 + x2 + x3 with no clause. Starts: 111 (cost 11), O ≤ 7 (22/3): 011 (cost 2), \
         O ≤ 1 (4/3): start 011 fails with one flip made. Linear from there: O ≤ 1 again, 010 \
         (cost 1), then O ≤ 0, which fails, and the search has ended. Where LBS fails with the \
         list used up, linear's start is the next need.",
        plan(3, &[(1, 9), (2, 1), (3, 1)], &[]),
        settings(0, 1, 1, LBS),
        &[
            (&numbers, "ended 1 3 2 9 010"),
            (&numbers[..5], "short-found 2 2 1 5 011"),
        ],
    );
    let free = || plan(2, &[(1, 3), (2, 1)], &[]);
    table.extend(rows(
        "O = 3·x1 + x2 with no clause, v = 4 from 11: LBS asks for 8/3, O ≤ 2; the start 10 of \
         cost 3 is no find then.",
        free(),
        settings(0, 1, 1, LBS),
        &[(&[3, 1], "short-found 4 1 0 2 11")],
    ));
    table.extend(rows(
        "O ≤ 3 of linear mode takes it.",
        free(),
        settings(0, 1, 1, LINEAR),
        &[(&[3, 1], "short-found 3 2 0 2 10")],
    ));
    table
}

/// Starts and choices with locks.
fn locked_choices() -> Vec<Worked> {
    let mut table = rows(
        "A start uses all its numbers, then the locked variables take their value.",
        locking(plan(33, &[], &[]), &[(1, 1), (33, 0)]),
        settings(0, 1, 1, LINEAR),
        &[
            (&[0], "short-none 0 0 0 0 -"),
            (&[2, 1], &format!("floor 0 1 0 2 {}", digits(33, &[1, 2]))),
        ],
    );
    table.extend(rows(
        "All three are locked, and the plan holds.",
        locking(
            plan(3, &[], &[&[between(2, &[(1, 1), (2, 1), (3, 1)], 2)]]),
            &[(1, 1), (2, 0), (3, 1)],
        ),
        settings(0, 1, 1, LINEAR),
        &[(&[2], "floor 0 1 0 1 101")],
    ));
    let any = [at_least(1, &[(1, 1), (2, 1), (3, 1)])];
    table.extend(rows(
        "x2 may not be chosen: offered are x1, x3, and number 1 takes x3.",
        locking(plan(3, &[], &[&any]), &[(2, 0)]),
        settings(0, 1, 2, LINEAR),
        &[
            (&[0, 0, 1], "floor 0 1 1 3 001"),
            (&[2, 0, 2], "floor 0 1 1 3 100"),
        ],
    ));
    let low = |variable| [at_most(0, &[(variable, 1)])];
    table.extend(rows(
        "x1 has break 0 but is locked. Of the others x2 would spoil one clause, x3 two, so that a \
         noise number is needed; it leads to x2 alone, and that flip is the last.",
        locking(plan(3, &[], &[&any, &low(2), &low(3), &low(3)]), &[(1, 0)]),
        settings(1_000, 1, 1, LINEAR),
        &[
            (&[0, 0, 0, 1], "none 0 0 1 4 -"),
            (&[0, 0, 0], "short-none 0 0 0 3 -"),
        ],
    ));
    table.extend(rows(
        "The added clause too: O = x1 + x2 with x1 locked at 1. Find 11 of cost 2; O ≤ 1 from 11 \
         offers x2 alone, and 10 is at the floor, 1.",
        locking(plan(2, &[(1, 1), (2, 1)], &[]), &[(1, 1)]),
        settings(0, 1, 2, LINEAR),
        &[(&[3, 3, 0, 0], "floor 1 2 1 4 10")],
    ));
    table
}

/// Tries that end because a clause has no unlocked variable.
fn stuck() -> Vec<Worked> {
    let alone = || locking(plan(2, &[], &[&[at_least(1, &[(1, 1)])]]), &[(1, 0)]);
    let mut table = Vec::new();
    for flips in [1, 3] {
        table.extend(rows(
            "x1 ≥ 1 with x1 locked at 0: each of two tries takes a start and a clause pick, no \
             noise number, no flip.",
            alone(),
            settings(500, 2, flips, LINEAR),
            &[
                (&[], "short-none 0 0 0 0 -"),
                (&[3], "short-none 0 0 0 1 -"),
                (&[3, 0], "short-none 0 0 0 2 -"),
                (&[3, 0, 3], "short-none 0 0 0 3 -"),
                (&[3, 0, 3, 9], "none 0 0 0 4 -"),
                (&[3, 0, 3, 9, 7], "none 0 0 0 4 -"),
            ],
        ));
    }
    table.extend(rows(
        "x1 ≥ 1 with x1 locked at 0, and x2 ≥ 1. Try 1 from 00: pick 1 leads to x2, the flip is \
         made; then the locked clause is picked, and the try ends with four flips left. Try 2 \
         picks it at once.",
        locking(
            plan(
                2,
                &[],
                &[&[at_least(1, &[(1, 1)])], &[at_least(1, &[(2, 1)])]],
            ),
            &[(1, 0)],
        ),
        settings(0, 2, 5, LBS),
        &[
            (&[0, 1, 0, 7, 0, 0], "none 0 0 1 6 -"),
            (&[0, 1, 0, 7, 0], "short-none 0 0 1 5 -"),
            (&[0, 1, 0], "short-none 0 0 1 3 -"),
        ],
    ));
    table
}

/// l(O) counts locked variables at their value.
fn locked_floors() -> Vec<Worked> {
    let mut table = rows(
        "A negative coefficient locked at 0 counts 0.",
        locking(plan(2, &[(1, -3), (2, 2)], &[]), &[(1, 0)]),
        settings(0, 1, 1, LINEAR),
        &[(&[1], "floor 0 1 0 1 00")],
    );
    let mixed = || locking(plan(2, &[(1, 5), (2, -1)], &[]), &[(1, 1)]);
    for mode in [LINEAR, LBS] {
        table.extend(rows(
            "A positive coefficient locked at 1 counts fully: l(O) = 5 − 1.",
            mixed(),
            settings(0, 1, 1, mode),
            &[(&[2], "floor 4 1 0 1 11"), (&[0, 2], "floor 4 2 0 2 11")],
        ));
    }
    let heavy = plan(3, &[(1, 6), (2, 3), (3, 1)], &[]);
    table.extend(rows(
        "LBS: x1 locked at 1, l(O) = 6. Find 111 of cost 10; O ≤ 8 (26/3) takes 101 of cost 7, \
         where 20/3 would not; O ≤ 6 (20/3) takes 100.",
        locking(heavy, &[(1, 1)]),
        settings(0, 1, 1, LBS),
        &[
            (&[7, 4], "short-found 7 2 0 2 101"),
            (&[7, 4, 0], "floor 6 3 0 3 100"),
        ],
    ));
    table.extend(rows(
        "All variables of the objective are locked: the first find is at the floor, 4 − 7.",
        locking(
            plan(3, &[(1, 4), (2, -7)], &[&[at_least(1, &[(3, 1)])]]),
            &[(1, 1), (2, 1)],
        ),
        settings(0, 1, 2, LBS),
        &[(&[0, 0, 0], "floor -3 1 1 3 111")],
    ));
    table
}

/// The whole table.
pub fn walks() -> Vec<Worked> {
    [
        example(),
        endings(),
        last_flip(),
        starts(),
        picks(),
        ties(),
        cut_counts(),
        discarded_places(),
        discarded_noise(),
        lbs(),
        locked_choices(),
        stuck(),
        locked_floors(),
    ]
    .into_iter()
    .flatten()
    .collect()
}
