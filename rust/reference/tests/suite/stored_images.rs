//! The bundle of images and the expected output that are stored beside the program
//! `images`: both are what the binary of that name writes, and every refusal of a
//! recovery is among them.

use std::fs::{self, File};
use std::process::{Command, Stdio};

const BUNDLE: &str = concat!(env!("CARGO_MANIFEST_DIR"), "/../../crates/images/stdin");
const EXPECTED: &str = concat!(env!("CARGO_MANIFEST_DIR"), "/../../crates/images/stdout");

fn written(word: &str, input: Stdio) -> Vec<u8> {
    let output = Command::new(env!("CARGO_BIN_EXE_images"))
        .arg(word)
        .stdin(input)
        .output()
        .unwrap();
    assert!(output.status.success());
    output.stdout
}

#[test]
fn stored_bundle() {
    let stored = fs::read(BUNDLE).unwrap();
    assert!(
        written("bundle", Stdio::null()) == stored,
        "the bundle differs"
    );
}

#[test]
fn stored_output() {
    let expected = written("expected", File::open(BUNDLE).unwrap().into());
    let stored = fs::read_to_string(EXPECTED).unwrap();
    assert_eq!(String::from_utf8(expected).unwrap(), stored);
}

/// Each refusal is met, and only 20 changes the index.
#[test]
fn refusals_met() {
    let stored = fs::read_to_string(EXPECTED).unwrap();
    for cause in [1, 2, 15, 16, 17, 18, 19, 20, 24, 25] {
        let left = if cause == 20 { "zeros" } else { "kept" };
        let told = format!(": refused {cause} ");
        let mut met = stored
            .lines()
            .filter(|line| line.contains(&told))
            .peekable();
        assert!(met.peek().is_some(), "{cause} is not met");
        assert!(met.all(|line| line.ends_with(left)), "index after {cause}");
    }
}
