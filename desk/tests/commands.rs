//! The built tool: its commands, what it prints where, and its exit codes.

use desk::command::HELP;
use desk::settings::FIRST;
use reference::file::{parse, parse_numbers, parse_settings};
use std::fs;
use std::path::PathBuf;
use std::process::Command;

/// A plan of three sites; line 6 asks for two of them.
const TEXT: &str = "\
variable 1 start
variable 2 ford
variable 3 bridge
minimise 10 start + 300 ford - 20 bridge
clause start >= 1
clause start + ford + bridge >= 2
walk noise 500 tries 2 flips 20 mode lbs
";

/// An empty folder of this test's own.
fn folder(name: &str) -> PathBuf {
    let folder = PathBuf::from(env!("CARGO_TARGET_TMPDIR")).join(format!("desk-{name}"));
    let _ = fs::remove_dir_all(&folder);
    fs::create_dir_all(&folder).unwrap();
    folder
}

/// Exit code, output and what is said beside it, of the tool run in a folder.
fn desk(folder: &PathBuf, arguments: &[&str]) -> (i32, String, String) {
    let output = Command::new(env!("CARGO_BIN_EXE_desk"))
        .args(arguments)
        .current_dir(folder)
        .output()
        .unwrap();
    let text = |bytes| String::from_utf8(bytes).unwrap();
    let code = output.status.code().unwrap();
    (code, text(output.stdout), text(output.stderr))
}

fn said(code: i32, words: &str) -> (i32, String, String) {
    (code, String::new(), format!("desk: {words}\n"))
}

fn printed(code: i32, words: &str) -> (i32, String, String) {
    (code, words.to_string(), String::new())
}

#[test]
fn the_files_are_written_and_accepted() {
    let folder = folder("write");
    fs::write(folder.join("plan.txt"), TEXT).unwrap();
    let out = "wrote ./plan.bin: 83 bytes\nwrote ./walk.bin: 12 bytes\n\
               wrote ./numbers.bin: 400 bytes, 100 numbers from seed 7\n\
               wrote ./names.txt: 18 bytes\nwrote ./clauses.txt: 38 bytes\n";
    let arguments = ["write", "plan.txt", ".", "7", "100"];
    assert_eq!(desk(&folder, &arguments), printed(0, out));
    let file = |name| fs::read(folder.join(name)).unwrap();
    let plan = parse(&file("plan.bin")).unwrap();
    assert_eq!((plan.variables, plan.clauses.len()), (3, 2));
    assert_eq!(parse_settings(&file("walk.bin")).unwrap().tries, 2);
    assert_eq!(parse_numbers(&file("numbers.bin")).unwrap().len(), 100);
    assert_eq!(file("names.txt"), b"start\nford\nbridge\n");
    let clauses = b"start >= 1\nstart + ford + bridge >= 2\n";
    assert_eq!(file("clauses.txt"), clauses);
}

#[test]
fn the_same_seed_gives_the_same_numbers() {
    let folder = folder("seed");
    fs::write(folder.join("plan.txt"), TEXT).unwrap();
    let numbers = |seed: &str, count: &str| {
        let (code, _, err) = desk(&folder, &["write", "plan.txt", ".", seed, count]);
        assert_eq!((code, err.as_str()), (0, ""));
        parse_numbers(&fs::read(folder.join("numbers.bin")).unwrap()).unwrap()
    };
    // Worked out by another program from the description in docs/DESK.md.
    let first = [1_502_404_911, 693_622_011, 3_656_195_687, 1_998_850_031];
    assert_eq!(numbers("1", "4"), first);
    let full = numbers("1", "16384");
    assert_eq!((full.len(), &full[..4]), (16_384, &first[..]));
    assert_eq!(numbers("1", "16384"), full);
    assert_ne!(numbers("2", "16384"), full);
    assert_eq!(numbers("18446744073709551615", "1").len(), 1);
    assert_eq!(numbers("0", "0"), []);
}

#[test]
fn a_plan_is_shown() {
    let folder = folder("show");
    fs::write(folder.join("plan.txt"), TEXT).unwrap();
    desk(&folder, &["write", "plan.txt", ".", "7", "100"]);
    let about = "\n# plan.bin: 83 bytes of at most 54,446\n\
        # 3 variables of at most 512, 2 clauses of at most 512, \
        2 rules of at most 1,024, 4 terms of at most 6,000\n\
        # on the box: tables 56,816 bytes, terms 52,096 bytes, tallies 6,156 bytes, \
        whatever the plan\n";
    // With names, from the folder: the text itself.
    let out = format!("{TEXT}{about}# numbers.bin: 100 numbers\n");
    assert_eq!(desk(&folder, &["show", ".", "plan.txt"]), printed(0, &out));
    // Without names, from the file alone.
    let plan = "variables 3\nminimise 10 x1 + 300 x2 - 20 x3\nclause x1 >= 1\n\
                clause x1 + x2 + x3 >= 2\n";
    let out = format!("{plan}{about}");
    assert_eq!(desk(&folder, &["show", "plan.bin"]), printed(0, &out));
    // The two other files may be missing.
    fs::remove_file(folder.join("walk.bin")).unwrap();
    fs::remove_file(folder.join("numbers.bin")).unwrap();
    let missing = "# walk.bin cannot be read: the box takes it as empty\n\
                   # numbers.bin cannot be read: the box takes it as empty\n";
    let out = format!("{out}{missing}");
    assert_eq!(desk(&folder, &["show", "."]), printed(0, &out));
}

#[test]
fn a_refused_file_is_explained() {
    let folder = folder("refused");
    for name in ["plan.bin", "walk.bin"] {
        fs::write(folder.join(name), []).unwrap();
    }
    fs::write(folder.join("numbers.bin"), [0; 5]).unwrap();
    let plan = "# plan.bin is refused: number 1, offset 0, before the first clause: \
                the file ends in the middle of a field\n";
    assert_eq!(desk(&folder, &["show", "plan.bin"]), printed(1, plan));
    let walk =
        "# walk.bin is refused: number 1, offset 0: the file ends in the middle of a field\n";
    let numbers = "# numbers.bin is refused: number 8, offset 0: \
                   the list of numbers ends in the middle of a number\n";
    let out = format!("{plan}{walk}{numbers}");
    assert_eq!(desk(&folder, &["show", "."]), printed(1, &out));
}

#[test]
fn chosen_sites_by_name() {
    let folder = folder("name");
    fs::write(folder.join("plan.txt"), TEXT).unwrap();
    let name = |digits: &str| desk(&folder, &["name", "plan.txt", digits]);
    let out = "start\nbridge\ncost -10\nevery clause is met\n";
    assert_eq!(name("101"), printed(0, out));
    let out = "ford\ncost 300\nthe clause on line 5 is not met\nthe clause on line 6 is not met\n";
    assert_eq!(name("010"), printed(1, out));
    // What is locked, and has another value, is told.
    fs::write(
        folder.join("plan.txt"),
        format!("{TEXT}lock ford 0 lock bridge 1 lock x1 1"),
    )
    .unwrap();
    let out = "start\nbridge\ncost -10\nevery clause is met\n";
    assert_eq!(name("101"), printed(0, out));
    let out = "start\nford\ncost 310\nford is locked at 0\nbridge is locked at 1\n\
               every clause is met\n";
    assert_eq!(name("110"), printed(1, out));
    for digits in ["", "10", "1011", "1 1", "102"] {
        let words = "an assignment of this plan is a row of 3 digits, each 0 or 1, not";
        assert_eq!(name(digits), said(1, &format!("{words} '{digits}'")));
    }
}

#[test]
fn faults_of_a_text() {
    let folder = folder("faults");
    fs::write(
        folder.join("plan.txt"),
        TEXT.replace("ford + bridge", "fjord"),
    )
    .unwrap();
    let mark = " ".repeat(4 + 15);
    let words = "plan.txt:6:16: no variable is called 'fjord'\n    clause start + fjord >= 2\n";
    let fault = said(1, &format!("{words}{mark}^"));
    assert_eq!(desk(&folder, &["write", "plan.txt", ".", "7", "9"]), fault);
    assert_eq!(desk(&folder, &["name", "plan.txt", "101"]), fault);
    // Nothing was written.
    assert!(!folder.join("plan.bin").exists());
    // Without a walk statement the settings are the desk's own, and so are seed and count.
    fs::write(folder.join("plan.txt"), TEXT.replace("walk", "# walk")).unwrap();
    assert_eq!(desk(&folder, &["write", "plan.txt", "."]).0, 0);
    let file = |name| fs::read(folder.join(name)).unwrap();
    assert_eq!(parse_settings(&file("walk.bin")), Ok(FIRST));
    let numbers = parse_numbers(&file("numbers.bin")).unwrap();
    assert_eq!((numbers.len(), numbers[0]), (16_384, 1_502_404_911));
    // Names of another plan.
    fs::write(folder.join("plan.txt"), TEXT).unwrap();
    fs::write(folder.join("other.txt"), "variable 1 start").unwrap();
    desk(&folder, &["write", "plan.txt", ".", "7", "9"]);
    let fault = said(1, "the text names 1 variable, the plan has 3");
    assert_eq!(desk(&folder, &["show", ".", "other.txt"]), fault);
}

#[test]
fn files_that_cannot_be_read_or_written() {
    let folder = folder("missing");
    fs::write(folder.join("plan.txt"), TEXT).unwrap();
    for (arguments, words) in [
        (
            &["write", "no.txt", ".", "7", "9"][..],
            "cannot read no.txt: ",
        ),
        (
            &["write", "plan.txt", "no", "7", "9"],
            "cannot write no/plan.bin: ",
        ),
        (&["name", "no.txt", "101"], "cannot read no.txt: "),
        (&["show", "no"], "cannot read no: "),
        (&["show", "."], "cannot read ./plan.bin: "),
    ] {
        let (code, out, err) = desk(&folder, arguments);
        assert_eq!((code, out.as_str()), (2, ""));
        assert!(err.starts_with(&format!("desk: {words}")), "{err}");
    }
}

#[test]
fn commands_at_fault() {
    let folder = folder("usage");
    fs::write(folder.join("plan.txt"), TEXT).unwrap();
    let write = |seed, count| desk(&folder, &["write", "plan.txt", ".", seed, count]);
    let words = "SEED is a whole number from 0 to 18446744073709551615, not";
    for seed in ["", "-1", "seven", "18446744073709551616"] {
        assert_eq!(write(seed, "9"), said(2, &format!("{words} '{seed}'")));
    }
    let words = "COUNT is a whole number from 0 to 16384, not";
    for count in ["", "-1", "16385", "1.5"] {
        assert_eq!(write("7", count), said(2, &format!("{words} '{count}'")));
    }
    let words = format!("this is no command of the desk\n\n{}", HELP.trim_end());
    for arguments in [
        &[][..],
        &["plan.txt"],
        &["write", "plan.txt"],
        &["write", "plan.txt", ".", "1", "2", "3"],
        &["plan"],
        &["sweep", "plan.txt", "7"],
        &["festival", ".", "7", "plan.txt", "3"],
        &["show"],
        &["name", "plan.txt"],
        &["help", "me"],
    ] {
        assert_eq!(desk(&folder, arguments), said(2, &words));
    }
    for help in ["help", "--help", "-h"] {
        assert_eq!(desk(&folder, &[help]), printed(0, HELP));
    }
}

#[test]
fn options_at_fault() {
    let folder = folder("options");
    fs::write(folder.join("plan.txt"), TEXT).unwrap();
    for (arguments, words) in [
        (
            &["plan", "plan.txt", "--sed", "7"][..],
            "no option is called '--sed'; try desk help",
        ),
        (
            &["plan", "plan.txt", "--seed"],
            "--seed has a value after it",
        ),
        (
            &["plan", "plan.txt", "--numbers", "0"],
            "--numbers is a whole number from 1 to 16384, not '0'",
        ),
        (
            &["sweep", "plan.txt", "--runs", "1001"],
            "--runs is a whole number from 1 to 1000, not '1001'",
        ),
        (
            &["sweep", "plan.txt", "--best", "low"],
            "--best is a whole number, not 'low'",
        ),
        (
            &["plan", "plan.txt", "seven"],
            "SEED is a whole number from 0 to 18446744073709551615, not 'seven'",
        ),
    ] {
        assert_eq!(desk(&folder, arguments), said(2, words));
    }
}

#[test]
fn a_plan_becomes_an_opb_text() {
    let folder = folder("opb");
    let text = "variables 2\nminimise x1 + 2 x2\nlock x1 1\nclause x1 + x2 >= 1\n";
    fs::write(folder.join("plan.txt"), text).unwrap();
    let out = "wrote new.opb: 80 bytes, 2 variables, of them 0 new, 2 constraints\n";
    assert_eq!(
        desk(&folder, &["opb", "plan.txt", "new.opb"]),
        printed(0, out)
    );
    let wanted =
        "* #variable= 2 #constraint= 2\nmin: +1 x1 +2 x2 ;\n+1 x1 +1 x2 >= 1 ;\n+1 x1 = 1 ;\n";
    assert_eq!(fs::read_to_string(folder.join("new.opb")).unwrap(), wanted);
    assert_eq!(desk(&folder, &["opb", "nothing.txt", "new.opb"]).0, 2);
}

/// A clause with 'or' has new variables, and the text is the reference's, asked for or not.
#[test]
fn an_opb_text_with_new_variables() {
    let folder = folder("opb-or");
    let text = "variables 2\nminimise x1 + 2 x2\nclause x1 >= 1 or x2 <= 0\n";
    fs::write(folder.join("plan.txt"), text).unwrap();
    assert_eq!(desk(&folder, &["write", "plan.txt", ".", "1", "1"]).0, 0);
    let plan = parse(&fs::read(folder.join("plan.bin")).unwrap()).unwrap();
    for more in [&[][..], &["--check"]] {
        let arguments = [&["opb", "plan.txt", "new.opb"], more].concat();
        let (code, out, err) = desk(&folder, &arguments);
        assert_eq!((code, err.as_str()), (0, ""));
        assert!(out.ends_with(", 8 variables, of them 6 new, 13 constraints\n"));
        let written = fs::read_to_string(folder.join("new.opb")).unwrap();
        assert_eq!(written, reference::opb_write::write(&plan));
        fs::remove_file(folder.join("new.opb")).unwrap();
    }
}

#[test]
fn a_plan_is_squeezed() {
    let folder = folder("squeeze");
    let locked = TEXT.replace("clause start >= 1", "lock start 1\nclause start >= 1");
    fs::write(folder.join("plan.txt"), &locked).unwrap();
    assert_eq!(desk(&folder, &["write", "plan.txt", ".", "7", "9"]).0, 0);
    let out = "wrote new.bin: 50 bytes of 89\nconstant 10\nx1 was x2\nx2 was x3\n";
    let arguments = ["squeeze", "plan.bin", "new.bin"];
    assert_eq!(desk(&folder, &arguments), printed(0, out));
    let named = ["squeeze", "plan.bin", "new.bin", "plan.txt"];
    let out = out
        .replace("was x2", "was ford")
        .replace("was x3", "was bridge");
    assert_eq!(desk(&folder, &named), printed(0, &out));
    let (code, shown, _) = desk(&folder, &["show", "new.bin"]);
    let text = "variables 2\nminimise 300 x1 - 20 x2\nclause x1 + x2 >= 1\n";
    assert!(code == 0 && shown.starts_with(text), "{shown}");

    // Refused: what stands in the new file is not touched.
    let refused = |text: &str, words: &str| {
        fs::write(folder.join("plan.txt"), text).unwrap();
        assert_eq!(desk(&folder, &["write", "plan.txt", ".", "7", "9"]).0, 0);
        let before = fs::read(folder.join("new.bin")).unwrap();
        assert_eq!(desk(&folder, &arguments), said(1, words));
        assert_eq!(fs::read(folder.join("new.bin")).unwrap(), before);
    };
    let lost = TEXT.replace("clause start >= 1", "lock start 0\nclause start >= 1");
    refused(
        &lost,
        "plan.bin is refused: number 72, offset 0: the locks leave a clause with no rule that can \
         be met",
    );
    let all = locked.replace("lock start 1", "lock start 1\nlock ford 1\nlock bridge 0");
    refused(
        &all,
        "plan.bin is refused: number 71, offset 0: the plan has locked every variable",
    );
    let mut file = fs::read(folder.join("plan.bin")).unwrap();
    file.push(0);
    fs::write(folder.join("plan.bin"), &file).unwrap();
    let words = format!(
        "plan.bin is refused: number 7, offset {}: the file goes on after its end",
        file.len() - 1
    );
    assert_eq!(desk(&folder, &arguments), said(1, &words));
    let missing = desk(&folder, &["squeeze", "nothing.bin", "new.bin"]);
    assert_eq!(missing.0, 2);
}
