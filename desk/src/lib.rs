//! Plans at the desk: a text form that a race planner can read and write, turned into plan.bin,
//! walk.bin and numbers.bin and back, searched, swept over settings and printed for the crew.
//! `docs/DESK.md` describes the form and the commands.
//!
//! What the library does is done by the proved archive (`planner`); what a lawful plan is stands in
//! `reference`, which is the second opinion too. Here are words for both.

pub mod archive;
pub mod chosen;
pub mod command;
pub mod console;
pub mod daily;
pub mod festival;
pub mod files;
pub mod finds;
pub mod html;
pub mod lists;
pub mod names;
pub mod options;
pub mod page;
pub mod picture;
pub mod planner;
pub mod print;
pub mod read;
pub mod relaxed;
pub mod report;
pub mod screen;
pub mod settings;
pub mod sweep;
pub mod tokens;
