//! Arguments, the two files, what is told of a refusal, and the exit status.

use std::ffi::OsString;
use std::fs;
use std::path::PathBuf;

use convert::run::{run, Outcome};
use kurdavel::{format, recover, Edition, Key, Tables};
use reference::testing::images::many_tombstones;

const SIZE: [&str; 4] = ["--slots", "4", "--size", "256"];

/// A path in the folder of test output at which no file is.
fn free(name: &str) -> String {
    let path = PathBuf::from(env!("CARGO_TARGET_TMPDIR")).join(name);
    let _ = fs::remove_file(&path);
    path.into_os_string().into_string().unwrap()
}

fn file(name: &str, bytes: &[u8]) -> String {
    let path = free(name);
    fs::write(&path, bytes).unwrap();
    path
}

fn runs(args: &[&str]) -> Outcome {
    run(args.iter().map(OsString::from))
}

/// The arguments with N and S of the stores here.
fn with_size<'a>(args: &[&'a str]) -> Vec<&'a str> {
    [args, &SIZE].concat()
}

/// Nothing is told but one line of error that has these words.
fn fails(args: &[&str], status: u8, words: &str) {
    let outcome = runs(args);
    assert_eq!(outcome.status, status, "{args:?}: {outcome:?}");
    assert_eq!(outcome.output, "");
    assert_eq!(outcome.error.lines().count(), 1, "{outcome:?}");
    assert!(outcome.error.contains(words), "{args:?}: {outcome:?}");
}

/// A store of an edition with a value of 24 bytes under two keys each.
fn store(edition: Edition) -> Vec<u8> {
    let (mut area, mut index, mut work) = ([0; 1024], [0; 16], [0; 256]);
    format(4, 256, edition, &mut area).unwrap();
    let mut record = recover(4, 256, &[0, 1, 2, 3], &area, &mut index).unwrap();
    for key in [1, 2] {
        let key = Key { table: 1, key };
        record
            .write(&area, &index, &mut work, Tables::ALL, key, &[7; 24])
            .unwrap();
        while record.left() > 0 {
            record.step(&mut area, &mut index, &work).unwrap();
        }
    }
    area.to_vec()
}

#[test]
fn there_and_back() {
    let first = store(Edition::First);
    let (source, there, back) = (file("way.1", &first), free("way.2"), free("way.3"));
    let told = |outcome: Outcome| {
        assert_eq!((outcome.status, outcome.error.as_str()), (0, ""));
        outcome.output
    };
    assert_eq!(
        told(runs(&with_size(&[&source, &there]))),
        "edition 1 to 2: 1 log slot, entries of 2 keys\n"
    );
    assert_eq!(fs::read(&there).unwrap(), store(Edition::Second));
    // Options may stand anywhere.
    let args = ["--size", "256", &there, "--slots", "4", &back];
    assert_eq!(
        told(runs(&args)),
        "edition 2 to 1: 1 log slot, entries of 2 keys\n"
    );
    assert_eq!(fs::read(&back).unwrap(), first);
    assert_eq!(fs::read(&source).unwrap(), first);
}

#[test]
fn wrong_use() {
    let source = file("use.1", &store(Edition::First));
    let (source, target) = (source.as_str(), free("use.2"));
    let target = target.as_str();
    let wrong = |args: &[&str], words| fails(args, 2, words);
    wrong(&[], "IN and OUT are two files, not 0");
    wrong(&with_size(&[source]), "two files, not 1");
    wrong(&with_size(&[source, target, target]), "two files, not 3");
    wrong(&[source, target], "--slots is missing");
    wrong(&[source, target, "--slots", "4"], "--size is missing");
    wrong(&[source, target, "--size"], "--size needs a number");
    wrong(&[source, target, "--slots", "four"], "four is no number");
    wrong(&[source, target, "--slots", "-4"], "-4 is no number");
    wrong(&with_size(&[source, target, "--odd"]), "no option --odd");
    wrong(&with_size(&["no-such-file", target]), "no-such-file: ");
    let folder = env!("CARGO_TARGET_TMPDIR");
    wrong(&with_size(&[folder, target]), folder);
    wrong(
        &with_size(&[source, "no/such/folder/2"]),
        "no/such/folder/2: ",
    );
    wrong(&with_size(&[source, folder, "--force"]), folder);
    assert!(!PathBuf::from(target).exists());
    let help = runs(&["--help"]);
    assert_eq!((help.status, help.error.as_str()), (0, ""));
    assert!(help.output.starts_with("usage: convert IN OUT "));
}

/// A file that is there is kept, unless it is to be overwritten and the conversion is accepted.
#[test]
fn a_file_that_is_there() {
    let source = file("there.1", &store(Edition::First));
    let damaged = file("there.2", &[0; 1024]);
    let target = file("there.3", b"kept");
    fails(&with_size(&[&source, &target]), 2, "is there already");
    fails(&with_size(&[&damaged, &target, "--force"]), 1, "refused 16");
    assert_eq!(fs::read(&target).unwrap(), b"kept");
    assert_eq!(runs(&with_size(&[&source, &target, "--force"])).status, 0);
    assert_eq!(fs::read(&target).unwrap(), store(Edition::Second));
}

#[test]
fn one_file() {
    let area = store(Edition::First);
    let source = file("one.1", &area);
    let folder = env!("CARGO_TARGET_TMPDIR");
    let other_way = format!("{folder}/./one.1");
    for target in [&source, &other_way] {
        for force in [&[][..], &["--force"]] {
            let args = [&[source.as_str(), target], force].concat();
            fails(&with_size(&args), 2, "IN and OUT are one file");
        }
    }
    assert_eq!(fs::read(&source).unwrap(), area);
}

/// A digest of an edition with this number, map and next version.
fn digest(edition: usize, number: u8, map: u8, next: u64) -> Vec<u8> {
    let (kind, width) = [(5, 4), (8, 8)][edition - 1];
    let mut bytes = vec![kind, number, 0, 0, 0, map, 0, 0, 0];
    bytes.extend(&next.to_le_bytes()[..width]);
    bytes
}

/// A tombstone of an edition with this version.
fn tombstone(edition: usize, version: u64) -> Vec<u8> {
    let mut bytes = vec![[4, 13][edition - 1], 1, 0, version as u8, 0, 0, 0];
    bytes.extend(&version.to_le_bytes()[..4 * edition]);
    bytes
}

/// Four slots of 256 bytes that begin so.
fn area(slots: &[Vec<u8>]) -> Vec<u8> {
    let mut area = vec![0; 1024];
    for (slot, bytes) in slots.iter().enumerate() {
        area[slot * 256..][..bytes.len()].copy_from_slice(bytes);
    }
    area
}

/// Each cause with its number and in words; nothing is written.
#[test]
fn refusals() {
    let full: Vec<u8> = (1..=22).flat_map(|version| tombstone(1, version)).collect();
    for (image, words) in [
        (area(&[]), "refused 16: No slot has a digest."),
        (
            area(&[digest(1, 0, 1, 1)]),
            "refused 17: The highest digest number",
        ),
        (
            area(&[digest(2, 1, 1, 0)]),
            "refused 17: The highest digest number",
        ),
        (area(&[digest(1, 1, 15, 1)]), "refused 24: The head's map"),
        (
            area(&[digest(1, 1, 3, 1)]),
            "refused 25: The head's map names a slot that has no digest.",
        ),
        (
            area(&[digest(1, 1, 3, 1), digest(2, 2, 3, 1)]),
            "refused 28: Slots of the log are of both editions.",
        ),
        (
            area(&[[digest(1, 1, 1, 1), vec![99]].concat()]),
            "refused 18: An entry of the log",
        ),
        (
            area(&[[digest(2, 1, 1, 1), tombstone(2, 5), tombstone(2, 5)].concat()]),
            "refused 19: A version stands twice in the log.",
        ),
        (
            area(&[[digest(1, 1, 1, 1), full].concat()]),
            "refused 29: The entries of a slot, rewritten in the other edition, do not fit it.",
        ),
        (
            area(&[[digest(2, 1, 1, 1), tombstone(2, 1 << 32)].concat()]),
            "refused 30: A version or next version in the log is beyond",
        ),
        (
            area(&[digest(2, 1, 1, 1 << 32)]),
            "refused 30: A version or next version in the log is beyond",
        ),
        (vec![5; 1023], "refused 1: N or S is out of its limits"),
        (vec![], "are 1024 bytes, and the image has 0"),
    ] {
        let (source, target) = (file("refused.1", &image), free("refused.2"));
        fails(&with_size(&[&source, &target]), 1, words);
        assert!(!PathBuf::from(target).exists(), "{words}");
    }
    let (source, target) = (file("refused.3", &[0; 1024]), free("refused.4"));
    for [slots, size] in [["2", "512"], ["8", "128"], ["4294967295", "4294967295"]] {
        let args = [&source, &target, "--slots", slots, "--size", size];
        fails(&args, 1, "refused 1: N or S is out of its limits");
    }
}

/// More keys than any index takes are converted all the same.
#[test]
fn too_many_keys() {
    let area = many_tombstones(135);
    let (source, target) = (file("many.1", &area), free("many.2"));
    let outcome = runs(&[&source, &target, "--slots", "32", "--size", "2048"]);
    assert_eq!((outcome.status, outcome.error.as_str()), (0, ""));
    assert!(outcome.output.contains("more keys than"), "{outcome:?}");
    assert_eq!(fs::metadata(&target).unwrap().len(), 65536);
}
