//! The output stored beside the programs `play` and `vectors` is what the binaries of these names write from the
//! reference.

use std::fs;
use std::process::Command;

fn holds(binary: &str, stored: &str) {
    let output = Command::new(binary).output().unwrap();
    assert!(output.status.success());
    let made = String::from_utf8(output.stdout).unwrap();
    assert_eq!(made, fs::read_to_string(stored).unwrap());
}

#[test]
fn play() {
    holds(
        env!("CARGO_BIN_EXE_play"),
        concat!(env!("CARGO_MANIFEST_DIR"), "/../../crates/play/stdout"),
    );
}

#[test]
fn vectors() {
    holds(
        env!("CARGO_BIN_EXE_vectors"),
        concat!(env!("CARGO_MANIFEST_DIR"), "/../../crates/vectors/stdout"),
    );
}
