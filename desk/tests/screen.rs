//! The bundled session of examples/screen.c: its text is the one that the reference works out.

use desk::screen::session;
use std::fs;
use std::path::{Path, PathBuf};

fn race_day() -> PathBuf {
    Path::new(env!("CARGO_MANIFEST_DIR")).join("../examples/race-day")
}

#[test]
fn the_session() {
    let file = |name| fs::read(race_day().join(name)).unwrap();
    let (shown, code) = session(&race_day(), &file("session.txt"));
    let (shown, expected) = (
        String::from_utf8(shown).unwrap(),
        String::from_utf8(file("session-expected.txt")).unwrap(),
    );
    assert_eq!(code, 0);
    assert_eq!(shown, expected);
    // Every command of the screen is in it, and every kind of line.
    for words in [
        "no longer met: ",
        "now met: ",
        "not met: ",
        "With it: ",
        "Without it: ",
        " is now chosen: ",
        " is no longer chosen: ",
        "is refused (23)",
        "No site is called",
        "No command is called",
        "every clause met.",
        " so far.",
        "SITE is a number or a name.",
    ] {
        assert!(expected.contains(words), "{words}");
    }
}
