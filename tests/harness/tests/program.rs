//! The program target/bin/tent: all that it prints, byte for byte, against the reference on the
//! same three files.

use harness::program::{check_files, printed, root, Folder, NAMES};
use reference::file::{write, write_field, write_numbers, write_settings, WALK};
use reference::making;
use reference::plan::Plan;
use reference::random::{self, Random};
use reference::walk::Settings;
use reference::worked::walks;
use std::collections::BTreeMap;
use std::fs;
use std::os::unix::fs::{symlink, PermissionsExt};

/// Document 01's example: n = 2, objective 1·x1 + 2·x2, one clause x1 + x2 ≥ 1.
const EXAMPLE_PLAN: [u8; 50] = [
    1, 2, 0, 2, 0, // at 0: 2 variables
    2, 12, 0, 1, 0, 1, 0, 0, 0, 2, 0, 2, 0, 0, 0, // at 5: objective
    3, 0, 0, // at 20: clause
    4, 21, 0, 1, 1, 0, 0, 0, 0, 0, 0, 0, 1, 0, 1, 0, 0, 0, 2, 0, 1, 0, 0, 0, // at 23: rule
    5, 0, 0, // at 47: end
];

/// "Noise 500, tries 1, flips 1, mode 1."
const EXAMPLE_WALK: [u8; 12] = [16, 9, 0, 0xF4, 1, 1, 0, 1, 0, 0, 0, 1];

const EXAMPLE_SETTINGS: Settings = Settings {
    noise: 500,
    tries: 1,
    flips: 1,
    mode: 1,
    heuristic: 0,
    chance: 0,
};

const EXAMPLE_NUMBERS: [u32; 10] = [2, 1, 0, 5, 900, 3, 0, 5, 100, 0];

/// "Output, whole".
const EXAMPLE_LINES: &str = "ended 1 2 2 10\n10\n";

/// What is printed with an empty list of numbers.
const SHORT_NONE: &str = "short-none 0 0 0 0\n-\n";

#[track_caller]
fn check(plan: &[u8], walk: &[u8], numbers: &[u8]) -> String {
    check_files(&[plan, walk, numbers].map(|bytes| Some(bytes.to_vec())))
}

/// The example with another walk.bin.
#[track_caller]
fn check_walk(walk: &[u8]) -> String {
    check(&EXAMPLE_PLAN, walk, &write_numbers(&EXAMPLE_NUMBERS))
}

fn refusal(number: u32, offset: usize) -> String {
    format!("refused {number} {offset}\n")
}

/// The bytes, cut or filled up with zeros to a length.
fn resized(bytes: &[u8], length: usize) -> Vec<u8> {
    let mut bytes = bytes.to_vec();
    bytes.resize(length, 0);
    bytes
}

/// How often the first word of what is printed was met, a refusal's number with it.
#[derive(Default)]
struct Met(BTreeMap<String, usize>);

impl Met {
    fn add(&mut self, printed: &str) {
        let mut words = printed.split_whitespace();
        let mut met = words.next().unwrap().to_string();
        if met == "refused" {
            met = format!("{met} {}", words.next().unwrap());
        }
        *self.0.entry(met).or_default() += 1;
    }

    #[track_caller]
    fn at_least(&self, count: usize, kinds: &[&str]) {
        for kind in kinds {
            let met = self.0.get(*kind).copied().unwrap_or(0);
            assert!(met >= count, "{kind}: {:?}", self.0);
        }
    }
}

const ENDINGS: [&str; 5] = ["floor", "ended", "none", "short-found", "short-none"];

#[test]
fn the_example_of_document_01() {
    let numbers = write_numbers(&EXAMPLE_NUMBERS);
    assert_eq!(check_walk(&EXAMPLE_WALK), EXAMPLE_LINES);
    // Each cut of the list: "8 when its length is no multiple of 4".
    for length in 0..numbers.len() {
        let printed = check(&EXAMPLE_PLAN, &EXAMPLE_WALK, &numbers[..length]);
        assert_eq!(printed == refusal(8, 0), length % 4 != 0);
    }
    // Numbers that are not needed.
    for more in 0..9 {
        let numbers = resized(&numbers, numbers.len() + more);
        let printed = check(&EXAMPLE_PLAN, &EXAMPLE_WALK, &numbers);
        let wanted = match more % 4 {
            0 => EXAMPLE_LINES.to_string(),
            _ => refusal(8, 0),
        };
        assert_eq!(printed, wanted);
    }
}

/// The walks worked out by hand, through the program. A row's answer is the two lines in one.
#[test]
fn walks_worked_out_by_hand() {
    for row in walks() {
        let (plan, walk) = (write(&row.plan), write_settings(&row.settings));
        let printed = check(&plan, &walk, &write_numbers(&row.numbers));
        let lines: Vec<&str> = printed.lines().collect();
        assert_eq!(lines.join(" "), row.answer, "{}", row.why);
    }
}

#[test]
fn the_bundled_examples() {
    let mut folders = 0;
    for entry in fs::read_dir(root().join("examples")).unwrap() {
        let folder = entry.unwrap().path();
        // The mapper's folder has lists in place of a plan.
        if !folder.join("plan.bin").exists() {
            continue;
        }
        let expected = fs::read_to_string(folder.join("expected.txt")).unwrap();
        assert_eq!(printed(&folder), expected, "{}", folder.display());
        let files = NAMES.map(|name| Some(fs::read(folder.join(name)).unwrap()));
        assert_eq!(check_files(&files), expected);
        folders += 1;
    }
    assert!(folders >= 2);
}

/// Each file good, missing, empty, at the limit of 65,536 bytes and one byte above, in all
/// combinations.
#[test]
fn missing_empty_and_long_files() {
    let good = [
        EXAMPLE_PLAN.to_vec(),
        EXAMPLE_WALK.to_vec(),
        write_numbers(&EXAMPLE_NUMBERS),
    ];
    let kinds = |file: usize| {
        [
            Some(good[file].clone()),
            None,
            Some(Vec::new()),
            Some(resized(&good[file], 65_536)),
            Some(resized(&good[file], 65_537)),
        ]
    };
    let (plans, walks, lists) = (kinds(0), kinds(1), kinds(2));
    for set in 0..125 {
        let [plan, walk, list] = [set / 25, set / 5 % 5, set % 5];
        let printed = check_files(&[
            plans[plan].clone(),
            walks[walk].clone(),
            lists[list].clone(),
        ]);
        let wanted = match [plan, walk, list] {
            kinds if kinds.contains(&4) => refusal(9, 0),
            [1 | 2, ..] => refusal(1, 0),
            [3, ..] => refusal(7, 50),
            [_, 1 | 2, _] => refusal(1, 0),
            [_, 3, _] => refusal(7, 12),
            [_, _, 1 | 2] => SHORT_NONE.to_string(),
            _ => EXAMPLE_LINES.to_string(),
        };
        assert_eq!(printed, wanted, "{plan} {walk} {list}");
    }
    // Far above the limit, multiples of 65,536 too.
    for length in [65_540, 131_072, 131_122, 1_000_000] {
        for file in 0..3 {
            let mut files = good.clone();
            files[file] = resized(&files[file], length);
            assert_eq!(check_files(&files.map(Some)), refusal(9, 0));
        }
    }
}

/// What stands under a file's name cannot be read: a folder, a link to nothing, or a file whose
/// reading fails. It counts as empty.
#[test]
fn what_cannot_be_read_is_empty() {
    let good = [
        EXAMPLE_PLAN.to_vec(),
        EXAMPLE_WALK.to_vec(),
        write_numbers(&EXAMPLE_NUMBERS),
    ];
    for file in 0..3 {
        let mut files = good.clone().map(Some);
        files[file] = None;
        let wanted = check_files(&files);
        let folder = Folder::new(&files);
        let path = folder.0.join(NAMES[file]);
        fs::create_dir(&path).unwrap();
        assert_eq!(printed(&folder.0), wanted);
        fs::remove_dir(&path).unwrap();
        for target in ["nothing", "/proc/self/mem"] {
            symlink(target, &path).unwrap();
            assert_eq!(printed(&folder.0), wanted);
            fs::remove_file(&path).unwrap();
        }
        // A file that may not be read; it may be by whoever may read everything.
        fs::write(&path, &good[file]).unwrap();
        fs::set_permissions(&path, fs::Permissions::from_mode(0o000)).unwrap();
        let wanted = match fs::File::open(&path) {
            Ok(_) => EXAMPLE_LINES.to_string(),
            Err(_) => wanted,
        };
        assert_eq!(printed(&folder.0), wanted);
    }
}

#[test]
fn refusals_of_a_plan() {
    let numbers = write_numbers(&EXAMPLE_NUMBERS);
    let check_plan = |plan: &[u8]| check(plan, &EXAMPLE_WALK, &numbers);
    // "The example's file is 50 bytes and one byte more gives 7 at 50."
    assert_eq!(check_plan(&resized(&EXAMPLE_PLAN, 51)), refusal(7, 50));
    // A cut is met at the field that it falls in.
    let fields = [0, 5, 20, 23, 47];
    for length in 0..50 {
        let offset = fields.into_iter().rfind(|&place| place <= length).unwrap();
        assert_eq!(check_plan(&EXAMPLE_PLAN[..length]), refusal(1, offset));
    }
    let faults = [
        (0, 2, 2, 0),
        (5, 3, 2, 5),
        (23, 5, 2, 23),
        (47, 9, 2, 47),
        (1, 3, 3, 0),
        (6, 11, 3, 5),
        (24, 22, 3, 23),
        (48, 1, 3, 47),
        (3, 0, 4, 0),
        (4, 3, 4, 0),
        (8, 0, 5, 5),
        (14, 1, 5, 5),
        (41, 3, 5, 23),
        (37, 0, 5, 23),
        (26, 0, 6, 23),
        (26, 4, 6, 23),
        (30, 127, 6, 23),
        (31, 1, 6, 23),
    ];
    for (place, byte, number, offset) in faults {
        let mut plan = EXAMPLE_PLAN;
        plan[place] = byte;
        assert_eq!(check_plan(&plan), refusal(number, offset), "byte {place}");
    }
}

#[test]
fn refusals_of_walk_bin() {
    // 1: too short for the head, then for the body.
    for length in 0..12 {
        assert_eq!(check_walk(&EXAMPLE_WALK[..length]), refusal(1, 0));
    }
    let body = &EXAMPLE_WALK[3..];
    // 2: any other tag, whatever the length, once there is a head.
    for tag in (0..=255).filter(|&tag| tag != WALK).step_by(15) {
        assert_eq!(check_walk(&write_field(tag, body)), refusal(2, 0));
        assert_eq!(check_walk(&[tag, 10, 0]), refusal(2, 0));
        assert_eq!(check_walk(&[tag, 9]), refusal(1, 0));
    }
    // 3: any other length, whether or not so many bytes are there.
    for length in [0, 1, 8, 10, 11, 13, 15, 256, 256 + 9, 256 + 12, 60_000] {
        let walk = write_field(WALK, &resized(body, length));
        assert_eq!(check_walk(&walk), refusal(3, 0));
        assert_eq!(check_walk(&walk[..3]), refusal(3, 0));
    }
    // 7: bytes after the field, before anything in it is judged.
    let wrong = write_settings(&Settings {
        noise: 1_001,
        tries: 0,
        flips: 0,
        mode: 2,
        heuristic: 0,
        chance: 0,
    });
    for length in [13, 14, 24, 300] {
        assert_eq!(check_walk(&resized(&EXAMPLE_WALK, length)), refusal(7, 12));
        assert_eq!(check_walk(&resized(&wrong, length)), refusal(7, 12));
    }
    assert_eq!(check_walk(&wrong), refusal(11, 0));
    // "walk.bin may have length 12": cut short, whole, and with bytes after it.
    let long = write_settings(&making::novelty(EXAMPLE_SETTINGS, 10));
    assert_eq!(long.len(), 15);
    for length in 3..15 {
        assert_eq!(check_walk(&long[..length]), refusal(1, 0));
    }
    // By hand: finds at 01 (cost 2) and 10 (cost 1). For O ≤ 0 from 00 the clause is picked by 5, 900
    // is no walk, x1 makes 1 and breaks 1, x2 makes 1 and breaks 2: x1 is flipped, the one flip. Then
    // O ≤ 0 from 11: picked by 0, 5 is below 10 and 100 takes x1. Two flips, nine numbers.
    assert_eq!(check_walk(&long), "ended 1 2 2 9\n10\n");
    assert_eq!(check(&EXAMPLE_PLAN, &long, &[]), SHORT_NONE);
    for length in [16, 17, 300] {
        assert_eq!(check_walk(&resized(&long, length)), refusal(7, 15));
    }
}

#[test]
fn settings_at_their_edges() {
    type Set = fn(&mut Settings, u32);
    let cases: [(u32, Set, &[u32], &[u32]); 6] = [
        (11, |s, n| s.noise = n, &[0, 1_000], &[1_001, 65_535]),
        (12, |s, n| s.tries = n, &[1, 1_000], &[0, 1_001, 65_535]),
        (
            13,
            |s, n| s.flips = n,
            &[1, 1_000_000],
            &[0, 1_000_001, 1 << 31, u32::MAX],
        ),
        (14, |s, n| s.mode = n, &[0, 1], &[2, 128, 255]),
        (15, |s, n| s.heuristic = n, &[0, 1], &[2, 128, 255]),
        (16, |s, n| s.chance = n, &[0, 1_000], &[1_001, 65_535]),
    ];
    for (number, set, inside, outside) in cases {
        for &value in inside.iter().chain(outside) {
            let mut settings = EXAMPLE_SETTINGS;
            set(&mut settings, value);
            let printed = check_walk(&write_settings(&settings));
            assert_eq!(printed == refusal(number, 0), outside.contains(&value));
            assert_eq!(printed.starts_with("refused"), outside.contains(&value));
        }
    }
    // Several outside at once: the first of 11 to 16.
    for set in 1..64_u32 {
        let mut settings = EXAMPLE_SETTINGS;
        for (place, (_, put, _, outside)) in cases.iter().enumerate() {
            if set >> place & 1 == 1 {
                put(&mut settings, outside[0]);
            }
        }
        let printed = check_walk(&write_settings(&settings));
        assert_eq!(printed, refusal(11 + set.trailing_zeros(), 0));
    }
}

/// Every set of faults: 9 before all else, then the plan's, that of walk.bin, that of the list.
#[test]
fn the_order_of_judging() {
    for set in 0..64_u32 {
        let met = |fault: usize| set >> fault & 1 == 1;
        let mut files = [
            EXAMPLE_PLAN[..50 - met(3) as usize].to_vec(),
            EXAMPLE_WALK.to_vec(),
            write_numbers(&EXAMPLE_NUMBERS),
        ];
        if met(4) {
            files[1][11] = 2;
        }
        if met(5) {
            files[2].pop();
        }
        for (file, bytes) in files.iter_mut().enumerate() {
            if met(file) {
                *bytes = resized(bytes, 65_537);
            }
        }
        let wanted = match set.trailing_zeros() {
            0..=2 => refusal(9, 0),
            3 => refusal(1, 47),
            4 => refusal(14, 0),
            5 => refusal(8, 0),
            _ => EXAMPLE_LINES.to_string(),
        };
        assert_eq!(check_files(&files.map(Some)), wanted, "{set:06b}");
    }
}

/// Settings under which a search often ends within a hundred numbers.
fn short_settings(random: &mut Random) -> Settings {
    let mut settings = random::settings(random);
    settings.tries = 1 + settings.tries % 3;
    settings.flips = 1 + settings.flips % 12;
    settings
}

/// The files of a small plan, with a short list of numbers.
fn small_files(random: &mut Random) -> [Vec<u8>; 3] {
    let plan = match random.below(3) {
        0 => random::small_plan(random),
        _ => random::small_met_plan(random),
    };
    let settings = match random.below(3) {
        0 => random::settings(random),
        _ => short_settings(random),
    };
    let count = random.below(250);
    let numbers = random.any_numbers(count);
    [
        write(&plan),
        write_settings(&settings),
        write_numbers(&numbers),
    ]
}

#[test]
fn random_small_plans() {
    let mut random = Random::new(61);
    let mut met = Met::default();
    for _ in 0..800 {
        met.add(&check_files(&small_files(&mut random).map(Some)));
    }
    met.at_least(15, &ENDINGS);
}

/// One of the three files with some bits turned over, cut, or with bytes put in or added.
#[test]
fn mutated_files() {
    let mut random = Random::new(62);
    let mut met = Met::default();
    for _ in 0..1_600 {
        let mut files = small_files(&mut random);
        // Most of the places at which a change matters are in the plan.
        let file = [0, 0, 0, 0, 1, 1, 2][random.below(7)];
        let bytes = &mut files[file];
        match random.below(6) {
            0 => bytes.truncate(random.below(bytes.len() + 1)),
            1 => {
                let place = random.below(bytes.len() + 1);
                bytes.insert(place, random.number() as u8);
            }
            2 => {
                for _ in 0..1 + random.below(8) {
                    bytes.push(random.number() as u8);
                }
            }
            _ if bytes.is_empty() => {}
            _ => {
                for _ in 0..1 + random.below(3) {
                    let place = random.below(bytes.len());
                    bytes[place] ^= 1 << random.below(8);
                }
            }
        }
        met.add(&check_files(&files.map(Some)));
    }
    met.at_least(5, &ENDINGS);
    met.at_least(
        1,
        &[
            "refused 1",
            "refused 2",
            "refused 3",
            "refused 4",
            "refused 5",
            "refused 6",
            "refused 7",
            "refused 8",
            "refused 10",
            "refused 11",
            "refused 12",
            "refused 13",
            "refused 14",
            "refused 15",
            "refused 16",
        ],
    );
}

/// Plans of a race's size and files with a fault in a field.
#[test]
fn any_files() {
    let mut random = Random::new(63);
    let mut met = Met::default();
    for _ in 0..400 {
        met.add(&check_files(&random::program_files(&mut random).map(Some)));
    }
    met.at_least(5, &ENDINGS);
}

/// The largest plan file, and the longest lines.
#[test]
fn the_full_limits() {
    let mut random = Random::new(64);
    let settings = Settings {
        noise: 800,
        tries: 3,
        flips: 1_000,
        mode: 1,
        heuristic: 0,
        chance: 0,
    };
    for (locks, size) in [(0, 52_907), (400, 54_110), (512, 54_446)] {
        let plan = write(&random::locked_full_plan(&mut random, locks));
        assert_eq!(plan.len(), size);
        let numbers = write_numbers(&random.any_numbers(2_500));
        let printed = check(&plan, &write_settings(&settings), &numbers);
        assert!(!printed.starts_with("refused"));
    }
    // Every variable chosen, at the least and at the greatest cost there is.
    for (weight, first) in [
        (-1_000_000, "floor -512000000 1 0 16"),
        (1_000_000, "short-found 512000000 1 0 16"),
    ] {
        let mut plan = Plan {
            variables: 512,
            objective: random.terms(512, 512, 1),
            locks: Vec::new(),
            clauses: Vec::new(),
        };
        for term in &mut plan.objective {
            term.weight = weight;
        }
        let (plan, walk) = (write(&plan), write_settings(&settings));
        let printed = check(&plan, &walk, &write_numbers(&[u32::MAX; 16]));
        assert_eq!(printed, format!("{first}\n{}\n", "1".repeat(512)));
    }
}
