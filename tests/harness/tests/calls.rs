//! Opening, flip and counts against the reference's book: answers, every byte, refusals in their
//! order.

use harness::guarded::Guarded;
use harness::layout::{self, Part, ASSIGNMENT, TABLES, TALLIES, TERM_TABLE};
use harness::planner::{counts, flip, open, Counted, Flipped};
use reference::book::{Answer, Book, Call};
use reference::counts::Count;
use reference::expansion;
use reference::making::difference_over_2;
use reference::plan::Plan;
use reference::random::{self, Random};
use reference::tallies::Tallies;

/// What is lent to a call: the two tables, the assignment and the tallies, each with noise past its
/// full limit.
#[derive(Clone, PartialEq)]
struct Lent {
    tables: Guarded,
    terms: Guarded,
    assignment: Guarded,
    tallies: Guarded,
}

impl Lent {
    fn new(random: &mut Random, plan: &Plan, bits: &[bool]) -> Lent {
        let (mut tables, mut terms) = layout::tables(plan);
        let mut assignment = layout::bits(bits);
        let mut tallies = vec![0; TALLIES];
        let extra = random.below(9);
        for (bytes, length) in [
            (&mut tables, TABLES),
            (&mut terms, TERM_TABLE),
            (&mut assignment, ASSIGNMENT),
            (&mut tallies, TALLIES),
        ] {
            while bytes.len() < length + extra {
                bytes.push(random.number() as u8);
            }
        }
        for byte in &mut tallies[..TALLIES] {
            *byte = random.number() as u8;
        }
        Lent {
            tables: Guarded::holding(&tables, 1),
            terms: Guarded::holding(&terms, 2),
            assignment: Guarded::holding(&assignment, 3),
            tallies: Guarded::holding(&tallies, 4),
        }
    }

    fn open(&mut self) -> u32 {
        open(
            self.tables.bytes(),
            self.terms.bytes(),
            self.assignment.bytes(),
            self.tallies.lend(),
        )
    }

    fn flip(&mut self, variable: u32) -> Flipped {
        flip(
            self.tables.bytes(),
            self.terms.bytes(),
            self.assignment.lend(),
            self.tallies.lend(),
            variable,
        )
    }

    fn counts(&self, variable: u32) -> Counted {
        counts(
            self.tables.bytes(),
            self.terms.bytes(),
            self.assignment.bytes(),
            self.tallies.bytes(),
            variable,
        )
    }

    /// Makes one call, and compares its answer with the book's.
    fn check(&mut self, call: Call, wanted: Answer) {
        match call {
            Call::Flip(variable) => assert_eq!(self.flip(variable), wanted.into(), "{call:?}"),
            Call::Counts(variable) => assert_eq!(self.counts(variable), wanted.into(), "{call:?}"),
        }
    }

    /// What must be lent after the bits have become these: all else as before.
    fn holding(&self, plan: &Plan, bits: &[bool]) -> Lent {
        let mut wanted = self.clone();
        wanted.assignment.lend()[..plan.variables].copy_from_slice(&layout::bits(bits));
        wanted.tallies.lend()[..TALLIES]
            .copy_from_slice(&layout::tallies(&Tallies::fresh(plan, bits)));
        wanted
    }
}

/// What came up in lists of calls.
#[derive(Default, Debug)]
struct Met {
    flips: u32,
    /// Flips of variables that no rule names, that one names, and that more do.
    named: [u32; 3],
    counts: u32,
    /// Counts that are cut, that are the cap itself, and that are neither.
    cut: u32,
    at_the_cap: u32,
    below: u32,
    refused: u32,
    /// Flips of locked variables.
    locked: u32,
    /// Lists opened with an assignment that disagrees with the locks.
    disagreeing: u32,
    /// Counts of locked variables.
    counts_of_locked: u32,
}

impl Met {
    fn count(&mut self, answer: Answer) {
        match answer {
            Answer::Flipped { rules } => {
                self.flips += 1;
                self.named[rules.min(2) as usize] += 1;
            }
            Answer::Refused(26) => self.locked += 1,
            Answer::Refused(_) => self.refused += 1,
            Answer::Counts {
                break_count,
                make_count,
            } => {
                self.counts += 1;
                for count in [break_count, make_count] {
                    match count {
                        Count::CUT => self.cut += 1,
                        Count::CAP => self.at_the_cap += 1,
                        _ => self.below += 1,
                    }
                }
            }
        }
    }
}

/// A list of calls after an opening, each handed what the last one left.
fn check_list(random: &mut Random, plan: &Plan, length: usize, met: &mut Met) {
    let bits = random.assignment(plan.variables);
    let mut lent = Lent::new(random, plan, &bits);
    let opened = lent.holding(plan, &bits);
    met.disagreeing += !plan.obeyed(&bits) as u32;
    assert_eq!(lent.open(), 0);
    assert!(lent == opened, "opening left other bytes");
    let mut book = Book::open(plan, &bits);
    for _ in 0..length {
        let call = random::call(random, plan.variables);
        let wanted = book.call(call);
        lent.check(call, wanted);
        met.count(wanted);
        if let Call::Counts(variable) = call {
            met.counts_of_locked += plan.lock(variable as usize).is_some() as u32;
        }
        assert!(
            lent == opened.holding(plan, book.bits()),
            "{call:?} left other bytes"
        );
    }
}

#[test]
fn lists_of_calls_on_small_plans() {
    let mut random = Random::new(21);
    let mut met = Met::default();
    for _ in 0..1_500 {
        let plan = random::small_plan(&mut random);
        check_list(&mut random, &plan, 12, &mut met);
    }
    let least = met.flips.min(met.counts).min(met.refused);
    let locks = met.locked.min(met.counts_of_locked);
    let named = met.named.into_iter().min().unwrap();
    assert!(least.min(locks).min(named) > 500, "{met:?}");
    assert!(met.disagreeing > 200, "{met:?}");
}

#[test]
fn lists_of_calls_on_large_plans() {
    let mut random = Random::new(22);
    let (mut met, mut heavy) = (Met::default(), Met::default());
    for round in 0..60 {
        match round % 3 {
            0 => {
                let plan = random::locked_full_plan(&mut random, [0, 100, 512][round % 9 / 3]);
                check_list(&mut random, &plan, 40, &mut met);
            }
            1 => {
                let plan = random::heavy_plan(&mut random);
                check_list(&mut random, &plan, 40, &mut heavy);
            }
            _ => {
                let plan = random::race_plan(&mut random);
                check_list(&mut random, &plan, 40, &mut met);
            }
        };
    }
    assert!(met.flips.min(met.counts).min(met.locked) > 100, "{met:?}");
    // On both sides of the cap.
    assert!(heavy.cut.min(heavy.below) > 30, "{heavy:?}");
}

/// Counts of 4,294,967,295 that are true, and some that are cut.
#[test]
fn lists_of_calls_around_the_cap() {
    let mut random = Random::new(27);
    let mut met = Met::default();
    for _ in 0..400 {
        let plan = random::cap_plan(&mut random);
        check_list(&mut random, &plan, 30, &mut met);
    }
    let least = met.cut.min(met.at_the_cap).min(met.below);
    assert!(least > 500, "{met:?}");
}

/// A difference that is the cap itself, of two binomials that are cut; and its neighbours.
#[test]
fn differences_at_the_cap() {
    let mut random = Random::new(28);
    for (m, w) in [(252_645_127, 17), (286_331_146, 15), (84_215_020, 51)] {
        for (m, spoiled) in [
            (m - 1, Count::uncut(u32::MAX - w)),
            (m, Count::CAP),
            (m + 1, Count::CUT),
        ] {
            let (plan, mut bits) = difference_over_2(m, w as i64);
            let mut lent = Lent::new(&mut random, &plan, &bits);
            assert_eq!(lent.open(), 0);
            assert_eq!(lent.counts(1), Counted::of(spoiled, Count::ZERO));
            let flipped = Flipped {
                refusal: 0,
                rules: 1,
            };
            assert_eq!(lent.flip(1), flipped);
            assert_eq!(lent.counts(1), Counted::of(Count::ZERO, spoiled));
            bits[0] = true;
            assert_eq!(lent.assignment.bytes()[..bits.len()], layout::bits(&bits));
        }
    }
}

/// Counts against the expansion written out.
#[test]
fn counts_by_brute_expansion() {
    let mut random = Random::new(23);
    let mut counted = 0;
    for _ in 0..2_000 {
        let plan = random::small_plan(&mut random);
        let Some(parts) = expansion::plan(&plan, 20_000) else {
            continue;
        };
        let bits = random.assignment(plan.variables);
        let mut lent = Lent::new(&mut random, &plan, &bits);
        assert_eq!(lent.open(), 0);
        for variable in 1..=plan.variables {
            let [spoiled, mended] = [expansion::spoiled, expansion::mended]
                .map(|count| Count::uncut(count(&parts, &bits, variable) as u32));
            let wanted = Counted::of(spoiled, mended);
            assert_eq!(lent.counts(variable as u32), wanted);
            counted += 1;
        }
    }
    assert!(counted > 3_000);
}

/// A buffer cut to a length.
fn shorten(buffer: &mut Guarded, length: usize) {
    *buffer = Guarded::holding(&buffer.bytes()[..length], 9);
}

/// Ways to spoil tables so that no accepted loading leaves them.
fn spoil_tables(lent: &mut Lent, n: usize, way: usize) {
    let [clauses, rules, locks, ends, order] = layout::SECTIONS;
    match way {
        // The counts of variables, clauses, rules and terms.
        0 => lent.tables.lend()[3] ^= 0x80,
        1 => lent.tables.lend()[7] ^= 0x80,
        2 => lent.tables.lend()[11] ^= 0x80,
        3 => lent.tables.lend()[15] ^= 0x80,
        // The first clause's first rule, the first rule's mode, the first term's variable.
        4 => lent.tables.lend()[clauses] ^= 1,
        5 => lent.tables.lend()[rules + 8] = 0,
        6 => lent.terms.lend()[1] ^= 0x80,
        // The last entry of each section, which no plan uses.
        7 => lent.tables.lend()[rules - 1] ^= 1,
        8 => lent.tables.lend()[locks - 1] ^= 1,
        9 => lent.tables.lend()[ends - 1] ^= 1,
        // A lock above 2 of the first and of the last variable, and one beyond the last.
        10 => lent.tables.lend()[locks] = 3,
        11 => lent.tables.lend()[locks + 4 * n - 1] = 1,
        12 => lent.tables.lend()[locks + 4 * n] = 1,
        // The first run's begin, the last run's end, an end beyond the last; the first word of the
        // order: its sign, its mark of several rules; the last word, which no plan uses.
        13 => lent.tables.lend()[ends] ^= 1,
        14 => lent.tables.lend()[ends + 4 * n] ^= 1,
        15 => lent.tables.lend()[order - 1] ^= 1,
        16 => lent.tables.lend()[order] ^= 1,
        17 => lent.tables.lend()[order + 3] ^= 0x80,
        18 => lent.tables.lend()[TABLES - 1] ^= 1,
        _ => lent.terms.lend()[TERM_TABLE - 1] ^= 1,
    }
    let spoiled = layout::loaded(lent.tables.bytes(), lent.terms.bytes());
    assert!(spoiled.is_none(), "way {way}");
}

const CONDITIONS: [u32; 6] = [21, 22, 24, 25, 23, 26];

/// How many ways there are to meet each condition.
const WAYS: [usize; 6] = [8, 20, 3, 3, 3, 3];

/// Brings one condition about, in one of its ways; the first in their order is to be the last of
/// several.
fn bring_about(
    random: &mut Random,
    lent: &mut Lent,
    variable: &mut u32,
    plan: &Plan,
    condition: u32,
    way: usize,
) {
    let n = plan.variables;
    match (condition, way) {
        (21, way) => {
            let (buffer, size) = match way / 2 {
                0 => (&mut lent.tables, TABLES),
                1 => (&mut lent.terms, TERM_TABLE),
                2 => (&mut lent.assignment, ASSIGNMENT),
                _ => (&mut lent.tallies, TALLIES),
            };
            shorten(buffer, if way % 2 == 0 { size - 1 } else { 0 });
        }
        (22, way) => spoil_tables(lent, n, way),
        (24, way) => {
            let place = [0, n - 1, random.below(n)][way];
            lent.assignment.lend()[place] = 2 + random.below(254) as u8;
        }
        (25, way) => {
            let place = [0, TALLIES - 1, random.below(TALLIES)][way];
            lent.tallies.lend()[place] ^= 1 << random.below(8);
        }
        (23, way) => *variable = [0, n as u32 + 1, u32::MAX][way],
        (_, way) => {
            let last = plan.locks.len() - 1;
            let lock = [0, last, random.below(last + 1)][way];
            *variable = plan.locks[lock].variable as u32;
        }
    }
}

/// A plan with locked and unlocked variables, and one of the latter.
fn partly_locked(random: &mut Random) -> (Plan, u32) {
    loop {
        let plan = random::race_plan(random);
        let variable = 1 + random.below(plan.variables);
        if !plan.locks.is_empty() && plan.lock(variable).is_none() {
            return (plan, variable as u32);
        }
    }
}

/// Every set of the six conditions: a flip answers the first in the order 21, 22, 24, 25, 23, 26,
/// counts the first but 26, and no byte changes.
#[test]
fn refusals_in_their_order() {
    let mut random = Random::new(24);
    let mut decided = [0; CONDITIONS.len()];
    // In each set the ways are gone through side by side.
    for (set, round) in (0..64_u32).flat_map(|set| (0..20).map(move |round| (set, round))) {
        let (plan, mut variable) = partly_locked(&mut random);
        let bits = random.assignment(plan.variables);
        let mut lent = Lent::new(&mut random, &plan, &bits);
        assert_eq!(lent.open(), 0);
        let met: Vec<usize> = (0..6).filter(|place| set >> place & 1 == 1).collect();
        for &place in met.iter().rev() {
            let (condition, way) = (CONDITIONS[place], round % WAYS[place]);
            bring_about(&mut random, &mut lent, &mut variable, &plan, condition, way);
        }
        let first = |known: &[u32]| {
            let mut numbers = met.iter().map(|&place| CONDITIONS[place]);
            numbers.find(|number| known.contains(number)).unwrap_or(0)
        };
        let before = lent.clone();
        let counted = lent.counts(variable);
        assert_eq!(
            counted.refusal,
            first(&CONDITIONS[..5]),
            "{met:?}, round {round}"
        );
        if counted.refusal != 0 {
            assert_eq!(counted, Counted::refused(counted.refusal));
        }
        let flipped = lent.flip(variable);
        let refusal = first(&CONDITIONS);
        assert_eq!(flipped.refusal, refusal, "{met:?}, round {round}");
        if refusal == 0 {
            continue;
        }
        assert_eq!(flipped, Flipped::refused(refusal));
        assert!(lent == before, "a refused call ({refusal}) changed a byte");
        let opened = lent.open();
        assert_eq!(opened, first(&[21, 22, 24]), "{met:?}, round {round}");
        assert!(opened == 0 || lent == before, "opening, {met:?}");
        decided[met[0]] += 1;
    }
    // Each condition decided half of the sets that the ones before it left.
    assert_eq!(decided, [640, 320, 160, 80, 40, 20]);
}

/// Each buffer alone one byte short, or empty: 21 from each call, whatever else is wrong, and no
/// byte changes.
#[test]
fn each_buffer_one_byte_short() {
    let mut random = Random::new(26);
    let plan = random::race_plan(&mut random);
    let bits = random.assignment(plan.variables);
    let mut good = Lent::new(&mut random, &plan, &bits);
    assert_eq!(good.open(), 0);
    for place in 0..4 {
        for (empty, spoiled) in [(false, false), (true, false), (false, true)] {
            let mut lent = good.clone();
            if spoiled {
                lent.tables.lend()[0] ^= 0x80;
                lent.assignment.lend()[0] = 2;
                lent.tallies.lend()[TALLIES - 2] ^= 1;
            }
            let (buffer, size) = match place {
                0 => (&mut lent.tables, TABLES),
                1 => (&mut lent.terms, TERM_TABLE),
                2 => (&mut lent.assignment, ASSIGNMENT),
                _ => (&mut lent.tallies, TALLIES),
            };
            shorten(buffer, if empty { 0 } else { size - 1 });
            let before = lent.clone();
            for variable in [1, plan.variables as u32, 0] {
                assert_eq!(lent.open(), 21, "buffer {place}");
                let flipped = lent.flip(variable);
                assert_eq!(flipped, Flipped::refused(21), "buffer {place}");
                let counted = lent.counts(variable);
                assert_eq!(counted, Counted::refused(21), "buffer {place}");
                assert!(lent == before, "buffer {place}: a byte changed");
            }
        }
    }
}

/// A single changed bit of good tables: 22, or tables that another file leaves.
#[test]
fn changed_tables() {
    let mut random = Random::new(25);
    let (mut met, mut locks, mut order) = ([0; 2], [0; 2], [0; 2]);
    for _ in 0..3_000 {
        let plan = random::race_plan(&mut random);
        let bits = vec![false; ASSIGNMENT];
        let (mut tables, mut terms) = layout::tables(&plan);
        let part = layout::turn_a_bit(&mut random, &plan, &mut tables, &mut terms);
        let loaded = layout::loaded(&tables, &terms).is_some();
        let refusal = open(&tables, &terms, &layout::bits(&bits), &mut vec![0; TALLIES]);
        assert_eq!(refusal, if loaded { 0 } else { 22 });
        met[(refusal == 22) as usize] += 1;
        locks[(refusal == 22) as usize] += (part == Part::Locks) as u32;
        order[(refusal == 22) as usize] += (part == Part::Order) as u32;
    }
    assert!(met.iter().all(|&count| count > 300), "{met:?}");
    assert!(locks.iter().all(|&count| count > 100), "{locks:?}");
    assert!(order[0] == 0 && order[1] > 500, "{order:?}");
}
