//! Prints what examples/screen.c shows of a folder for the commands on the standard input, worked
//! out by the reference: `screen FOLDER`.

use std::io::{Read, Write};
use std::path::Path;
use std::process::ExitCode;

fn main() -> ExitCode {
    let folder = std::env::args_os().nth(1).expect("a folder");
    let mut input = Vec::new();
    std::io::stdin().read_to_end(&mut input).unwrap();
    let (shown, code) = desk::screen::session(Path::new(&folder), &input);
    std::io::stdout().write_all(&shown).unwrap();
    ExitCode::from(code)
}
