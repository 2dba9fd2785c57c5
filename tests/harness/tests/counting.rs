//! Binomials, differences, sums, products, shares and clause counts, with their marks, against the
//! reference's exact integers.

use harness::probe::{
    binomial, difference, factors, joined, joined_marked, shares, third, Marked, Standing, Three,
    START,
};
use reference::big::Big;
use reference::counts::{self, choices, choices_with, Count, Number, CAP};
use reference::exact;
use reference::literals::Literal;
use reference::random::Random;

const LARGEST: i64 = 512_000_000;

/// A true number as it is given out.
fn given(number: &Big) -> Count {
    number
        .to_u128()
        .map_or(Number::AboveCap, Number::Exact)
        .given()
}

/// The exact binomial as it is given out; by the reference's own rule where it cannot be written out.
fn expected(m: i64, k: i64) -> Count {
    match exact::binomial(m, k, 400) {
        Some(n) => given(&n),
        None => choices(m, Some(k)).given(),
    }
}

#[test]
fn pascals_triangle_and_beyond() {
    for m in 0..300 {
        for k in 0..310 {
            assert_eq!(binomial(m as u64, k as u64), expected(m, k), "{m} over {k}");
        }
    }
}

/// For each k the m at which m over k passes the cap, and its neighbours, from both ends of the
/// row. Only for k = 1 is the cap itself reached.
#[test]
fn around_the_cap() {
    for k in 1..=40_i64 {
        let (mut low, mut high) = (k, LARGEST);
        while low < high {
            let m = (low + high) / 2;
            match choices(m, Some(k)) {
                Number::Exact(n) if n <= CAP => low = m + 1,
                _ => high = m,
            }
        }
        for m in (low - 3).max(0)..=(low + 3).min(LARGEST) {
            assert_eq!(binomial(m as u64, k as u64), expected(m, k), "{m} over {k}");
            if m >= k {
                assert_eq!(
                    binomial(m as u64, (m - k) as u64),
                    expected(m, k),
                    "{m} over {}",
                    m - k
                );
            }
        }
    }
    // 4,294,967,295 over 1 is the cap itself, and not cut; one less is below it.
    for k in [1, 4_294_967_294] {
        assert_eq!(binomial(4_294_967_295, k), Count::CAP);
    }
    assert_eq!(binomial(4_294_967_294, 1), Count::uncut(4_294_967_294));
    assert_eq!(binomial(4_294_967_295, 2), Count::CUT);
}

/// Worked out by hand from the sentence of T-03: m, k and the factors.
#[test]
fn factors_along_the_edges() {
    let edges = [
        // The table reports none, to its last entry.
        (0, 0, 0),
        (2, 1, 0),
        (34, 17, 0),
        (34, 35, 0),
        // Above it: none for nothing and for all, from either end one for one.
        (35, 0, 0),
        (35, 35, 0),
        (35, 36, 0),
        (35, 1, 1),
        (35, 34, 1),
        // 35 over 16 is 4,059,928,950, 35 over 17 is 4,537,567,650.
        (35, 16, 16),
        (35, 17, 17),
        (35, 18, 17),
        (35, 19, 16),
        // 36 over 14 is 3,796,297,200, 36 over 15 is 5,567,902,560.
        (36, 14, 14),
        (36, 15, 15),
        (36, 18, 15),
        (36, 21, 15),
        (36, 22, 14),
        // 92,682 over 2 is 4,294,930,221, 92,683 over 2 is 4,295,022,903.
        (92_682, 2, 2),
        (92_682, 3, 3),
        (92_683, 2, 2),
        (92_683, 3, 2),
        // 4,294,967,295 over 1 is the cap, and does not pass it.
        (4_294_967_295, 1, 1),
        (4_294_967_295, 2, 2),
        (4_294_967_295, 4_294_967_294, 1),
        (4_294_967_295, 4_294_967_295, 0),
    ];
    for (m, k, wanted) in edges {
        assert_eq!(factors(m, k), wanted, "{m} over {k}");
        assert_eq!(exact::factors(m as i64, k as i64), wanted as i64);
    }
}

#[test]
fn factors_of_whole_rows_and_of_random_binomials() {
    let mut most = 0;
    let mut check = |m: i64, k: i64| {
        let got = factors(m as u64, k as u64);
        assert_eq!(got as i64, exact::factors(m, k), "{m} over {k}");
        assert!(got < 17 || m == 35, "{m} over {k}");
        most = most.max(got);
    };
    for m in 0..120 {
        for k in 0..=m + 2 {
            check(m, k);
        }
    }
    let mut random = Random::new(5);
    for _ in 0..50_000 {
        let m = match random.below(3) {
            0 => some_size(&mut random),
            1 => 35 + random.below(100) as i64,
            _ => random.draw() as i64 & 0xffff_ffff,
        };
        let k = some_choice(&mut random, m);
        check(m, k);
    }
    assert_eq!(most, 17);
}

/// "Tempting, and wrong": the difference of two capped binomials would be 0 here.
#[test]
fn tempting_and_wrong() {
    let number = Count::uncut(100_000);
    assert_eq!(binomial(100_001, 2), Count::CUT);
    assert_eq!(binomial(100_000, 2), Count::CUT);
    assert_eq!(difference(100_000, 1, 2), number);
    // x1 + 100,000·x2 ≤ 1 at 1,1: x1 has make count 100,000.
    let rule = shares(Standing::On(1), 0, 100_001, None, Some(2));
    assert_eq!(rule.f, number);
    assert_eq!(joined(START, rule).f, number);
    // l(O) = −7, v = −2: m = −4. l(O) = −1, v = 0: m = −1.
    assert_eq!(third(-7 - 4), -4);
    assert_eq!(third(-1), -1);
}

/// m + w over 2 less m over 2 is w·(2m + w − 1)/2. For every w that has such an m, the m at which this
/// is the cap: both binomials are above it, and the difference is not cut. One more is, one less is
/// not.
#[test]
fn differences_at_the_cap() {
    let mut met = 0;
    for w in 1..100_000_u64 {
        let twice = 2 * CAP as u64;
        let sum = twice / w + 1;
        if !twice.is_multiple_of(w) || sum < w || !(sum - w).is_multiple_of(2) {
            continue;
        }
        let m = (sum - w) / 2;
        if m == 0 || m + 1 + w > CAP as u64 {
            continue;
        }
        assert_eq!(binomial(m + w, 2), Count::CUT);
        let (w, m) = (w as u32, m as u32);
        assert_eq!(difference(m, w, 2), Count::CAP, "{m} and {w}");
        assert_eq!(difference(m + 1, w, 2), Count::CUT, "{m} and {w}");
        let below = Count::uncut(u32::MAX - w);
        assert_eq!(difference(m - 1, w, 2), below, "{m} and {w}");
        met += 1;
    }
    assert!(met > 20, "{met}");
    // Over 1 it is w.
    for w in [u32::MAX - 1, u32::MAX] {
        assert_eq!(difference(0, w, 1), Count::uncut(w));
    }
}

#[test]
fn thirds_are_rounded_down() {
    let mut random = Random::new(3);
    for a in (-1_000..1_000)
        .chain((0..20_000).map(|_| random.draw() as i64))
        .chain([i64::MIN, i64::MAX])
    {
        assert_eq!(third(a), a.div_euclid(3), "{a}");
    }
}

/// Numbers of copies: small, around powers of two, and up to the largest.
fn some_size(random: &mut Random) -> i64 {
    match random.below(4) {
        0 => random.below(40) as i64,
        1 => random.below(3_000) as i64,
        2 => (1 << random.below(29)) + random.below(5) as i64,
        _ => random.below(LARGEST as usize + 1) as i64,
    }
}

fn small_size(random: &mut Random) -> i64 {
    random.below(60) as i64
}

fn some_choice(random: &mut Random, m: i64) -> i64 {
    match random.below(5) {
        0 => random.below(20) as i64,
        1 => m - (random.below(20) as i64).min(m),
        2 => m + random.below(3) as i64,
        3 => random.below(m as usize + 1) as i64,
        _ => random.below(1_600_000_000) as i64,
    }
}

#[test]
fn random_binomials_and_differences() {
    let mut random = Random::new(1);
    let (mut zero, mut exact, mut cut, mut from_cut) = (0, 0, 0, 0);
    for _ in 0..200_000 {
        let m = some_size(&mut random);
        let w = (1 + some_size(&mut random)).min(1_000_000);
        let k = some_choice(&mut random, m + w);
        assert_eq!(
            binomial(m as u64, k as u64),
            choices(m, Some(k)).given(),
            "{m} over {k}"
        );
        let m = m.min(LARGEST - w).max(0);
        let got = difference(m as u32, w as u32, k as u64);
        assert_eq!(
            got,
            choices_with(m, w, Some(k)).given(),
            "{m} and {w} over {k}"
        );
        let both_cut = choices(m, Some(k)).given().cut && got != Count::ZERO;
        match got {
            Count::ZERO => zero += 1,
            Count { cut: true, .. } => cut += 1,
            _ if both_cut => from_cut += 1,
            _ => exact += 1,
        }
    }
    assert!(
        zero.min(exact).min(cut) > 1_000 && from_cut > 100,
        "{zero} {exact} {cut} {from_cut}"
    );
}

fn given_parts(parts: counts::Parts) -> Three {
    Three {
        e: parts.e.given(),
        f: parts.f.given(),
        g: parts.g.given(),
    }
}

/// A rule as numbers: N, P, the two sizes and how the variable stands; N and P by `sum`.
fn some_rule(random: &mut Random, sum: fn(&mut Random) -> i64) -> (counts::Parts, Three) {
    let n = sum(random) / 2;
    let p = sum(random) / 2;
    let size = |random: &mut Random| match random.below(4) {
        0 => None,
        1 => Some(some_choice(random, n + p)),
        _ => Some(random.below(n.max(p) as usize + 2) as i64),
    };
    let (a, b) = (size(random), size(random));
    let w = 1 + sum(random).min(999_999);
    let standing = match random.below(3) {
        0 if w <= p => Standing::On(w as u32),
        1 if w <= n => Standing::Off(w as u32),
        _ => Standing::Out,
    };
    let literal = Literal {
        variable: 1,
        positive: true,
        weight: w,
    };
    let stands = match standing {
        Standing::Out => None,
        Standing::On(_) => Some((&literal, true)),
        Standing::Off(_) => Some((&literal, false)),
    };
    let wanted = counts::parts((n + p, p), (a, b), stands);
    let got = shares(
        standing,
        n as u32,
        p as u32,
        a.map(|a| a as u64),
        b.map(|b| b as u64),
    );
    (wanted, got)
}

#[test]
fn shares_of_random_rules() {
    let mut random = Random::new(2);
    for _ in 0..100_000 {
        let (wanted, got) = some_rule(&mut random, some_size);
        assert_eq!(got, given_parts(wanted));
    }
}

#[test]
fn clauses_of_random_rules() {
    let mut random = Random::new(4);
    let (mut nonzero, mut uncut) = (0, 0);
    for _ in 0..100_000 {
        let sum = if random.percent(50) {
            some_size
        } else {
            small_size
        };
        let rules: Vec<_> = (0..1 + random.below(4))
            .map(|_| some_rule(&mut random, sum))
            .collect();
        let parts: Vec<_> = rules.iter().map(|(wanted, _)| *wanted).collect();
        let wanted = counts::clause_counts(&parts);
        let left = parts
            .iter()
            .fold(Number::ONE, |left, rule| left.times(rule.g));
        let got = rules
            .iter()
            .fold(START, |clause, (_, rule)| joined(clause, *rule));
        assert_eq!(got.e, wanted.break_count.given());
        assert_eq!(got.f, wanted.make_count.given());
        assert_eq!(got.g, left.given());
        nonzero += (got.e != Count::ZERO) as u32;
        uncut += (got.e != Count::ZERO && !got.e.cut) as u32;
    }
    assert!(nonzero > 1_000 && uncut > 1_000, "{nonzero} {uncut}");
}

/// Π(e+g) − Πg of numbers past the cap: subtracting cut products would give 0.
#[test]
fn no_cut_products_are_subtracted() {
    let (e, g) = (3_u32, 100_000_u32);
    let rule = Three {
        e: Count::uncut(e),
        f: Count::ZERO,
        g: Count::uncut(g),
    };
    let exact = Big::from((e + g) as u128)
        .mul(&Big::from((e + g) as u128))
        .sub(&Big::from(g as u128).mul(&Big::from(g as u128)));
    let got = joined(joined(START, rule), rule);
    assert_eq!(got.e, given(&exact));
    assert_eq!((got.e.cut, got.f, got.g), (false, Count::ZERO, Count::CUT));
}

/// A count from both sides of the cap, and around the roots of it.
fn some_count(random: &mut Random) -> Count {
    match random.below(8) {
        0 => Count::CUT,
        1 => Count::uncut(u32::MAX - random.below(2) as u32),
        2 | 3 => Count::uncut(random.below(3) as u32),
        4 => Count::uncut(65_535 + random.below(3) as u32),
        _ => Count::uncut(random.number() >> random.below(32)),
    }
}

fn some_three(random: &mut Random) -> Three {
    Three {
        e: some_count(random),
        f: some_count(random),
        g: some_count(random),
    }
}

/// What a count is known to be.
fn known(count: Count) -> Number {
    match count.cut {
        true => Number::AboveCap,
        false => Number::Exact(count.value as u128),
    }
}

/// The product and the sum of two counts, as joining works them out: x·(0 + y) + 0·0 and
/// 1·(x + y) + 0·x.
fn product_and_sum(x: Count, y: Count) -> [Count; 2] {
    let zero = Count::ZERO;
    let three = |e, g| Three { e, f: zero, g };
    let product = joined(three(x, zero), three(zero, y));
    let sum = joined(three(Count::uncut(1), zero), three(x, y));
    [product.e, sum.e]
}

#[test]
fn products_and_sums_by_hand() {
    let (zero, one, cap, cut) = (Count::ZERO, Count::uncut(1), Count::CAP, Count::CUT);
    let number = Count::uncut;
    for (x, y, product, sum) in [
        (zero, cut, zero, cut),
        (cut, zero, zero, cut),
        (one, cut, cut, cut),
        (cut, cut, cut, cut),
        (zero, cap, zero, cap),
        (cap, one, cap, cut),
        (one, cap, cap, cut),
        (cap, cap, cut, cut),
        (number(65_535), number(65_537), cap, number(131_072)),
        (number(65_536), number(65_536), cut, number(131_072)),
        (number(u32::MAX - 1), one, number(u32::MAX - 1), cap),
        (number(u32::MAX - 1), number(2), cut, cut),
        (number(1 << 31), number(2), cut, number((1 << 31) + 2)),
        (number(1 << 31), number(1 << 31), cut, cut),
    ] {
        assert_eq!(product_and_sum(x, y), [product, sum], "{x:?} {y:?}");
        assert_eq!(
            [
                known(x).times(known(y)).given(),
                known(x).plus(known(y)).given()
            ],
            [product, sum]
        );
    }
}

/// Joining any two: e·(e' + g') + g·e', the same of f, and g·g'. What stands in the value of a cut
/// count does not matter, nor which mark but 0 it has.
#[test]
fn joining_any_counts() {
    let mut random = Random::new(6);
    let (mut cut, mut at_the_cap, mut zero_by_cut) = (0, 0, 0);
    for _ in 0..200_000 {
        let (clause, rule) = (some_three(&mut random), some_three(&mut random));
        let [left, more] = [clause.g, rule.g].map(known);
        let changed = |so_far, this| {
            let (so_far, this) = (known(so_far), known(this));
            so_far.times(this.plus(more)).plus(left.times(this)).given()
        };
        let wanted = Three {
            e: changed(clause.e, rule.e),
            f: changed(clause.f, rule.f),
            g: left.times(more).given(),
        };
        let mut noisy = |count: Count| match count.cut {
            true => Marked {
                value: random.number(),
                cut: [1, 2, 1 << 31, u32::MAX][random.below(4)],
            },
            false => count.into(),
        };
        let [clause_in, rule_in] = [clause, rule].map(|three| Three {
            e: noisy(three.e),
            f: noisy(three.f),
            g: noisy(three.g),
        });
        assert_eq!(
            joined_marked(clause_in, rule_in),
            wanted,
            "{clause:?} {rule:?}"
        );
        cut += wanted.e.cut as u32;
        at_the_cap += (wanted.e == Count::CAP || wanted.g == Count::CAP) as u32;
        zero_by_cut += (wanted.g == Count::ZERO && (clause.g.cut || rule.g.cut)) as u32;
    }
    let least = cut.min(at_the_cap).min(zero_by_cut);
    assert!(least > 1_000, "{cut} {at_the_cap} {zero_by_cut}");
}
