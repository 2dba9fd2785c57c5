//! The proved library as Rust sees it: each exported function declared once, in a safe wrapper.

pub mod festivals;
pub mod guarded;
pub mod layout;
pub mod mapper;
pub mod planner;
pub mod probe;
pub mod program;
pub mod races;
pub mod replay;
pub mod running;
pub mod searching;
