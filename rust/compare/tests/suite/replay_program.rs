//! The program `replay`: what it prints and its exit status.

use std::fs;
use std::path::PathBuf;
use std::process::Command;

use compare::vectors::NEWEST;

use crate::vectors::text;

/// Exit status and standard output.
fn run(arguments: &[&str]) -> (Option<i32>, String) {
    let output = Command::new(env!("CARGO_BIN_EXE_replay"))
        .args(arguments)
        .output()
        .unwrap();
    let printed = String::from_utf8(output.stdout).unwrap();
    (output.status.code(), printed)
}

/// A file in the folder of test output, and its path as an argument.
fn file(name: &str, text: &str) -> String {
    let path = PathBuf::from(env!("CARGO_TARGET_TMPDIR")).join(name);
    fs::write(&path, text).unwrap();
    path.into_os_string().into_string().unwrap()
}

#[test]
fn right_files() {
    let (status, printed) = run(&[NEWEST, NEWEST]);
    assert_eq!(status, Some(0));
    assert_eq!(printed.lines().count(), 2);
    let events = text().lines().filter(|line| !line.starts_with('#')).count();
    assert!(
        printed.contains(&format!(": {events} events, ")),
        "{printed}"
    );
}

#[test]
fn wrong_files() {
    let text = "history h 4 256 1\nformat fill ee -> c0b3d7123bbe3b46\n";
    let wrong = file("level-00.txt", text);
    let (status, printed) = run(&[NEWEST, &wrong]);
    assert_eq!(status, Some(1));
    for by in ["library", "reference"] {
        let line = format!(
            "  {wrong}:2: {by}: format fill ee: FNV of the area: \
             expected c0b3d7123bbe3b46, found c0b3d7123bbe3b45"
        );
        assert!(printed.lines().any(|printed| printed == line), "{printed}");
    }
    let (status, printed) = run(&[&file("level-01.txt", "history h\n")]);
    assert_eq!(status, Some(1));
    assert!(
        printed.contains("level-01.txt:1: line at fault: history h: N: "),
        "{printed}"
    );
}

/// One implementation alone: nothing is said of the other.
#[test]
fn only_one() {
    for (only, other) in [("library", "reference"), ("reference", "library")] {
        let (status, printed) = run(&["--only", only, NEWEST]);
        assert_eq!(status, Some(0));
        assert!(printed.contains(&format!("0 mismatches of the {only}")));
        assert!(!printed.contains(other), "{printed}");
    }
}

#[test]
fn levels() {
    let named = file("vectors.txt", "history h 4 256 2\ncut\n");
    assert_eq!(run(&[&named]).0, Some(2));
    assert_eq!(run(&["--level", "10", &named]).0, Some(1));
    assert_eq!(run(&["--level", "11", &named]).0, Some(0));
}

#[test]
fn wrong_use() {
    for arguments in [
        &[][..],
        &["--level"],
        &["--level", "0"],
        &["--level", "14", NEWEST],
        &["--level", "x", NEWEST],
        &["--only"],
        &["--only", "both", NEWEST],
        &["--only", "reference"],
        &["--frobnicate", NEWEST],
        &["no/such/level-00.txt"],
        &["vectors.txt"],
        &[concat!(env!("CARGO_MANIFEST_DIR"), "/vectors")],
    ] {
        let (status, printed) = run(arguments);
        assert_eq!((status, printed.as_str()), (Some(2), ""), "{arguments:?}");
    }
}
