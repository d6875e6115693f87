//! The independent vectors of the newest level, through the static library and through the reference.

use std::fs;
use std::path::Path;

use compare::vectors::level::Level;
use compare::vectors::run::{replay, Report};
use compare::vectors::NEWEST;

/// The level of the newest file.
pub fn level() -> Level {
    Level::of_file(Path::new(NEWEST)).expect("the file's name tells its level")
}

/// The text of the newest file.
pub fn text() -> String {
    fs::read_to_string(NEWEST).expect("the vectors are beside the tests")
}

/// Replays a text of the newest level.
pub fn replay_text(text: &str) -> Report {
    replay("vectors", level(), text.as_bytes()).expect("a text in memory can be read")
}

#[test]
fn newest_level() {
    let text = text();
    let report = replay_text(&text);
    println!("{report}");
    let failures: Vec<String> = report.failures().map(ToString::to_string).collect();
    assert!(report.is_clean(), "{}", failures.join("\n"));
    let events = text.lines().filter(|line| !line.starts_with('#')).count();
    assert_eq!(report.events, events as u64);
    assert!(events > 1000, "{events}");
}
