//! The settings that the desk takes where a text has no walk statement. docs/DESK.md tells how they
//! were chosen, on several plans, and how they do on others: no one choice is best on all of them, so
//! that `desk plan` tries each of these and keeps the one that finds the cheapest plan.

use reference::walk::{Settings, LINEAR, NOVELTY, SKC};

/// Novelty+ as it does best on plans with a hundred sites and more.
pub const FIRST: Settings = Settings {
    noise: 200,
    tries: 10,
    flips: 3_000,
    mode: LINEAR,
    heuristic: NOVELTY,
    chance: 10,
};

/// SKC, which does better on plans of some dozens of sites.
pub const SECOND: Settings = Settings {
    noise: 500,
    tries: 20,
    flips: 1_000,
    mode: LINEAR,
    heuristic: SKC,
    chance: 0,
};

/// Novelty+ with more blind steps: seldom the best, and never far off.
pub const THIRD: Settings = Settings {
    tries: 20,
    flips: 1_000,
    chance: 100,
    ..FIRST
};

pub const DEFAULTS: [Settings; 3] = [FIRST, SECOND, THIRD];
