//! A reference for the tent planner, written from document 01 and papers 004 and 000.
//!
//! It is meant to be obviously right rather than fast: tallies are counted afresh after each
//! flip, and every count exists three times - by the real lists of the expansion
//! (`expansion`), by the printed equations over exact integers (`exact`), and by a form that
//! never subtracts what it cut (`counts`), which alone reaches plans at the full limits.

pub mod big;
pub mod book;
pub mod counts;
pub mod csv;
pub mod exact;
pub mod expansion;
pub mod figures;
pub mod file;
pub mod literals;
pub mod making;
pub mod mapper;
pub mod novelty;
pub mod opb_read;
pub mod opb_write;
pub mod plan;
pub mod program;
pub mod races;
pub mod random;
pub mod squeeze;
pub mod tallies;
pub mod walk;
pub mod worked;
