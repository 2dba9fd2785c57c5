//! The program of document 01 over the reference: it reads plan.bin, walk.bin and numbers.bin in
//! the current folder and prints its lines.

use reference::program::{contents, lines};
use std::io::Write;
use std::path::Path;

fn main() {
    let files = ["plan.bin", "walk.bin", "numbers.bin"];
    let [plan, walk, numbers] = files.map(|name| contents(Path::new(name)));
    let lines = lines(plan.as_deref(), walk.as_deref(), numbers.as_deref());
    // A closed output is no fault of the plan; there is nobody left to tell.
    let _ = std::io::stdout().write_all(lines.as_bytes());
}
