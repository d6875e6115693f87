//! The worked example of `docs/INSPECT.md`: its images, and its output word for word.

#[path = "../../examples/two_drives/drives.rs"]
mod drives;

use std::ffi::OsString;
use std::path::PathBuf;

use inspect::entries::Reason;
use inspect::image::Image;
use inspect::report::Report;
use inspect::run::run;
use reference::cleaning::clean_by;
use reference::rules::Rules;
use reference::SlotMap;

const DOCUMENT: &str = include_str!("../../../../docs/INSPECT.md");

/// The rule of the faulty firmware.
struct Faulty;

impl Rules for Faulty {
    const TOMBSTONE_GOES_WITH_NEWEST_OBJECT: bool = true;
}

/// Dropped by hand, the tombstone leaves the log that the faulty rule leaves.
#[test]
fn the_second_drive_is_what_the_faulty_rule_makes() {
    let (before, made) = (drives::until_deleted(), drives::until_cleaned_wrongly());
    let mut work = vec![0; 256];
    let (area, index) = (&before.area, &before.index);
    let (started, answer) = clean_by::<Faulty>(before.record, area, index, &mut work, SlotMap(2));
    answer.expect("accepted");
    let reference::Pending::Clean { slot, length, .. } = started.pending else {
        panic!("a cleaning");
    };
    let start = (slot * 256) as usize;
    assert_eq!(
        made.area[start..start + length as usize],
        work[..length as usize]
    );
    assert_eq!(made.record.end, length);
}

#[test]
fn the_old_record_is_back_on_the_second_drive_alone() {
    let [_, first, second] = drives::images().map(|(_, bytes)| {
        let image = Image::from_file(bytes, None).unwrap();
        Report::of(&image)
    });
    let old = |report: &Report| {
        let of_old = report
            .entries
            .iter()
            .filter(|entry| entry.fields.key == drives::OLD);
        of_old.map(|entry| entry.reason).collect::<Vec<_>>()
    };
    assert_eq!(first.lost, []);
    let lost: Vec<_> = second
        .lost
        .iter()
        .map(|one| (one.key, one.was_deleted))
        .collect();
    assert_eq!(lost, [(drives::OLD, true)]);
    assert_eq!(old(&second), [Reason::Present]);
    let first = old(&first);
    assert!(
        matches!(first[..], [Reason::Deleted(_), Reason::Needed(_)]),
        "{first:?}"
    );
}

/// Runs a command of the document and gives what it prints.
fn printed(command: &str, folder: &std::path::Path) -> String {
    let args = command.split(' ').map(|word| {
        if word.ends_with(".image") {
            folder.join(word).into_os_string()
        } else {
            OsString::from(word)
        }
    });
    run(args).output
}

#[test]
fn the_document_shows_what_is_printed() {
    let folder = PathBuf::from(env!("CARGO_TARGET_TMPDIR"));
    for (name, bytes) in drives::images() {
        std::fs::write(folder.join(name), bytes).unwrap();
    }
    let mut shown = 0;
    for block in DOCUMENT.split("```text\n$ inspect ").skip(1) {
        let block = block.split("```").next().unwrap();
        let (command, output) = block.split_once('\n').unwrap();
        assert_eq!(printed(command, &folder), output, "inspect {command}");
        shown += 1;
    }
    assert!(shown >= 4, "{shown}");
}
