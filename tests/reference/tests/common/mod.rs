//! Short ways to write plans, assignments and files in tests.
#![allow(dead_code, unused_imports)]

pub use reference::making::*;

/// The example's file of document 01, byte by byte: n = 2, objective 1·x1 + 2·x2, one clause
/// x1 + x2 ≥ 1.
pub const EXAMPLE: [u8; 50] = [
    1, 2, 0, 2, 0, // at 0: 2 variables
    2, 12, 0, 1, 0, 1, 0, 0, 0, 2, 0, 2, 0, 0, 0, // at 5: objective
    3, 0, 0, // at 20: clause
    4, 21, 0, 1, 1, 0, 0, 0, 0, 0, 0, 0, 1, 0, 1, 0, 0, 0, 2, 0, 1, 0, 0, 0, // at 23: rule
    5, 0, 0, // at 47: end
];

/// Where the example's fields begin.
pub const EXAMPLE_FIELDS: [usize; 5] = [0, 5, 20, 23, 47];

/// The example's walk.bin: noise 500, tries 1, flips 1, mode 1.
pub const EXAMPLE_WALK: [u8; 12] = [16, 9, 0, 0xF4, 1, 1, 0, 1, 0, 0, 0, 1];
