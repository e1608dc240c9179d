//! Whole scripts of the language of `docs/SCRIPT.md`, played by the safe calls: the reports are
//! those of `gltool`. A script stands in `NAME.script`, and the report that it must have in
//! `NAME.expected`.
//!
//! `rows/` has the worked rows of `tests/scripts`: those of a manager that detects deadlocks at
//! block, and of one that leaves them to a watcher.

mod desk;
mod grammar;

use burlapslate::Detect;
use desk::Desk;
use grammar::Version;
use std::fs;
use std::path::{Path, PathBuf};

/// What is printed for a script.
fn report(detect: Detect, script: &[u8]) -> String {
    let mut lines: Vec<&[u8]> = script.split(|&byte| byte == b'\n').collect();
    if lines.last() == Some(&&b""[..]) {
        lines.pop(); // Behind the last newline stands a line only where it has a byte.
    }
    let mut report = String::new();
    let mut desk = Desk::new(detect, Version::One);
    if lines.first() == Some(&&b"granular 2"[..]) {
        desk = Desk::new(detect, Version::Two);
        lines.remove(0);
        report += "ok\n";
    }
    for line in lines {
        report += &desk.report(line);
    }
    report
}

/// The scripts of a folder of the crate.
fn scripts(folder: &str) -> Vec<PathBuf> {
    let folder = Path::new(env!("CARGO_MANIFEST_DIR")).join(folder);
    let files =
        fs::read_dir(&folder).unwrap_or_else(|error| panic!("{}: {error}", folder.display()));
    let mut scripts: Vec<PathBuf> = files
        .map(|file| file.unwrap().path())
        .filter(|path| path.extension().is_some_and(|end| end == "script"))
        .collect();
    scripts.sort();
    scripts
}

/// Plays the scripts of a folder, which are at least so many.
fn play(folder: &str, detect: Detect, least: usize) {
    let scripts = scripts(folder);
    assert!(
        scripts.len() >= least,
        "{folder} has {} scripts",
        scripts.len()
    );
    for path in scripts {
        let script = fs::read(&path).unwrap();
        let expected = fs::read_to_string(path.with_extension("expected")).unwrap();
        assert_eq!(report(detect, &script), expected, "{}", path.display());
    }
}

#[test]
fn examples() {
    play("../../examples", Detect::AtBlock, 6);
}

#[test]
fn rows_with_detection_at_block() {
    play("tests/rows/at_block", Detect::AtBlock, 40);
}

#[test]
fn rows_with_detection_by_a_watcher() {
    play("tests/rows/by_watcher", Detect::ByWatcher, 1);
}

/// Lines that are bad, whatever stands around them.
#[test]
fn lines_that_are_bad() {
    let long = [b'a'; 257];
    let comment = [b"#".as_slice(), &long[..256]].concat();
    let bad: [&[u8]; 10] = [
        &long,
        &comment,
        b"begin  a",
        b" begin a",
        b"begin a ",
        b"begin a\r",
        b"begin a\x80",
        b"begin aaaaaaaaaaaaaaaaa",
        b"held a i1.00",
        b"insert a r f 18446744073709551616",
    ];
    for line in bad {
        assert_eq!(report(Detect::AtBlock, line), "no 20 BadLine\n", "{line:?}");
    }
    for line in [b"".as_slice(), b"#\xff\0", &comment[..256], b"\n\n"] {
        assert_eq!(report(Detect::AtBlock, line), "", "{line:?}");
    }
}

/// As many transactions as may live begin, and one more.
#[test]
fn too_many_transactions() {
    for (first, most) in [("", 64), ("granular 2\n", 128)] {
        let begins: String = (0..=most)
            .map(|number| format!("begin t{number}\n"))
            .collect();
        let report = report(Detect::AtBlock, format!("{first}{begins}").as_bytes());
        let oks = most + usize::from(!first.is_empty());
        assert_eq!(report, "ok\n".repeat(oks) + "no 11 TooManyTxns\n");
    }
}
