//! The split of a list among races, on the edges that document 02 names.

use reference::races::{split, Part};

fn parts(stakes: &[usize], numbers: usize) -> Vec<(usize, usize)> {
    let parts = split(stakes, numbers).unwrap();
    parts.iter().map(|part| (part.first, part.length)).collect()
}

#[test]
fn what_remains_goes_to_the_first_races() {
    assert_eq!(parts(&[1, 1, 1], 8), [(0, 3), (3, 3), (6, 2)]);
    assert_eq!(parts(&[1, 100], 100), [(0, 1), (1, 99)]);
    assert_eq!(parts(&[100, 1], 0), [(0, 0), (0, 0)]);
    assert_eq!(parts(&[7], usize::MAX), [(0, usize::MAX)]);
}

#[test]
fn the_number_of_races_comes_before_their_stakes() {
    assert_eq!(split(&[], 9), Err(61));
    assert_eq!(split(&[0; 9], 9), Err(61));
    assert_eq!(split(&[1, 0], 9), Err(62));
    assert_eq!(split(&[101], 9), Err(62));
    let part = Part {
        first: 0,
        length: 9,
    };
    assert_eq!(split(&[100], 9), Ok(vec![part]));
}
