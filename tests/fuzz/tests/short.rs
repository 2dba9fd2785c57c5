//! A short run with a fixed seed, in which everything comes up.

use fuzz::figures::CASES;

#[test]
fn a_short_run() {
    let figures = fuzz::run(2026, |number| number < 250_000);
    let calls: [(&str, &[u32]); 11] = [
        ("load", &[0, 1, 2, 3, 4, 5, 6, 7, 10, 21]),
        ("read", &[0, 5, 21, 31, 32]),
        ("open", &[0, 21, 22, 24]),
        ("flip", &[0, 21, 22, 23, 24, 25, 26]),
        ("counts", &[0, 21, 22, 23, 24, 25]),
        ("search", &[0, 11, 12, 13, 14, 15, 16, 21, 22]),
        ("squeeze", &[0, 1, 2, 3, 4, 5, 6, 7, 10, 21, 71, 72]),
        ("map", &[0, 21, 51, 52, 53, 54, 55]),
        ("runs", &[0, 11, 12, 13, 14, 15, 16, 21, 22, 41, 42, 43]),
        ("races", &[0, 21, 61, 62]),
        ("write", &[0, 21, 22, 33]),
    ];
    for (call, refusals) in calls {
        for &refusal in refusals {
            let met = figures.met(call, refusal);
            assert!(met > 0, "{call} never gave {refusal}");
        }
    }
    for ending in ["floor", "ended", "none", "short-found", "short-none"] {
        let met = figures.ended(ending);
        assert!(met > 0, "no search came to {ending}");
    }
    for case in CASES {
        assert!(figures.noted(case) > 20, "{case}: {}", figures.noted(case));
    }
    // Counts know no 26.
    assert_eq!(figures.met("counts", 26), 0);
}
