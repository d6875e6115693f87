//! What the programs `rig` and `rig_faulty` must write (02, R-14), held to the independent vectors and to an enumeration of
//! its own. That the programs write their stored output is tested where they are run.

use std::fs;
use std::path::{Path, PathBuf};

fn repository(name: &str) -> PathBuf {
    Path::new(env!("CARGO_MANIFEST_DIR"))
        .join("../..")
        .join(name)
}

fn text(name: &str) -> String {
    fs::read_to_string(repository(name)).unwrap_or_else(|e| panic!("{name}: {e}"))
}

/// The histories of a length in the order of the letters, which is kept by extending each history in turn.
fn histories(length: usize) -> Vec<String> {
    let mut found = vec![String::new()];
    for _ in 0..length {
        found = found
            .iter()
            .flat_map(|w| "ABabC".chars().map(move |l| format!("{w}{l}")))
            .filter(|w| legal(w))
            .collect();
    }
    found
}

/// Whether every delete finds its key present: the last letter of the key before it is the write.
fn legal(word: &str) -> bool {
    word.char_indices().all(|(i, l)| {
        let write = l.to_ascii_uppercase();
        !matches!(l, 'a' | 'b')
            || word[..i]
                .chars()
                .rev()
                .find(|&m| m == l || m == write)
                .is_some_and(|m| m == write)
    })
}

/// The text for a length: all histories up to it, a line for each, and the verdict.
fn printed(length: usize, verdict: &str) -> String {
    (0..=length)
        .flat_map(histories)
        .chain([verdict.to_string()])
        .map(|line| line + "\n")
        .collect()
}

fn fnv(bytes: &[u8]) -> u64 {
    bytes.iter().fold(0xcbf2_9ce4_8422_2325, |h, &b| {
        (h ^ u64::from(b)).wrapping_mul(0x100_0000_01b3)
    })
}

#[test]
fn the_vectors_have_every_history() {
    let vectors = text("rust/compare/vectors/rig.txt");
    let mut outputs: Vec<(usize, String)> = Vec::new();
    let mut lengths = 0;
    for line in vectors.lines() {
        let words: Vec<&str> = line.split(' ').collect();
        match words[0] {
            "length" => {
                let n: usize = words[1].parse().unwrap();
                let whole = printed(n, words[4]);
                assert_eq!(
                    histories(n).len().to_string(),
                    words[2],
                    "histories of length {n}"
                );
                assert_eq!(
                    (whole.lines().count() - 1).to_string(),
                    words[3],
                    "histories up to {n}"
                );
                assert_eq!(
                    (words[4], words[5]),
                    ("none", if n < 3 { "none" } else { "AaC" })
                );
                assert_eq!(whole.len().to_string(), words[6], "bytes for {n}");
                assert_eq!(
                    format!("{:016x}", fnv(whole.as_bytes())),
                    words[7],
                    "FNV for {n}"
                );
                lengths += 1;
            }
            "output" => outputs.push((words[1].parse().unwrap(), String::new())),
            "line" => {
                let (_, output) = outputs.last_mut().unwrap();
                *output += if words[1] == "-" { "" } else { words[1] };
                *output += "\n";
            }
            _ => assert!(line.starts_with('#') || words[0] == "nothing", "{line}"),
        }
    }
    assert_eq!((lengths, outputs.len()), (7, 5));
    for (n, output) in outputs {
        assert_eq!(output, printed(n, "none"), "output for {n}");
    }
}

#[test]
fn the_programs_write_it() {
    for (program, verdict) in [("rig", "none"), ("rig_faulty", "AaC")] {
        let input = text(&format!("crates/{program}/stdin"));
        let length: usize = input.parse().unwrap();
        assert_eq!(length, 6);
        assert_eq!(
            text(&format!("crates/{program}/stdout")),
            printed(length, verdict),
            "{program}"
        );
    }
}
