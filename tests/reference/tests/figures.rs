//! The generator against numbers worked out apart.

use reference::figures::Xorwow;

/// From the state that the paper starts its generator with. The numbers are those that the paper's own lines of C give.
#[test]
fn the_first_numbers_of_the_paper() {
    let mut state = Xorwow {
        words: [123_456_789, 362_436_069, 521_288_629, 88_675_123, 5_783_321],
        counter: 6_615_241,
    };
    let first = [(); 8].map(|()| state.draw());
    let wanted = [
        246_875_399,
        3_690_007_200,
        1_264_581_005,
        3_906_711_041,
        1_866_187_943,
        2_481_925_219,
        2_464_530_826,
        1_604_040_631,
    ];
    assert_eq!(first, wanted);
}

/// One step by hand: t = 1 ^ 0 = 1, so the newest word is (2 ^ 32) ^ (1 ^ 2) = 33, and the counter begins again.
#[test]
fn one_step_by_hand() {
    let mut state = Xorwow {
        words: [1, 5, 6, 7, 2],
        counter: u32::MAX - 362_436,
    };
    assert_eq!(state.draw(), 33);
    assert_eq!(state.words, [5, 6, 7, 2, 33]);
    assert_eq!(state.counter, 0);
}
