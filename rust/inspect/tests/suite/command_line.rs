//! Arguments, files that are no image, and the exit status.

use std::ffi::OsString;
use std::path::PathBuf;

use inspect::run::{run, Outcome};

fn file(name: &str, bytes: &[u8]) -> PathBuf {
    let path = PathBuf::from(env!("CARGO_TARGET_TMPDIR")).join(name);
    std::fs::write(&path, bytes).unwrap();
    path
}

fn runs(args: &[&str]) -> Outcome {
    run(args.iter().map(OsString::from))
}

/// Refused as wrong use, in one line that has these words.
fn is_wrong(args: &[&str], words: &str) {
    let outcome = runs(args);
    assert_eq!(outcome.status, 2, "{args:?}: {outcome:?}");
    assert_eq!(outcome.output, "");
    assert_eq!(outcome.error.lines().count(), 1, "{outcome:?}");
    assert!(outcome.error.contains(words), "{args:?}: {outcome:?}");
}

/// A fresh store of four slots of 256 bytes.
fn fresh() -> Vec<u8> {
    let mut area = vec![0; 1024];
    reference::format(4, 256, reference::Edition::FIRST, &mut area).unwrap();
    area
}

#[test]
fn wrong_use() {
    let fresh = file("use.area", &fresh());
    let fresh = fresh.to_str().unwrap();
    is_wrong(&[], "no image");
    is_wrong(&["--odd"], "no option --odd");
    is_wrong(&[fresh, "--slots", "4"], "--slots and --size go together");
    is_wrong(&[fresh, "--slots"], "--slots needs a number");
    is_wrong(
        &[fresh, "--slots", "four", "--size", "256"],
        "four is no number",
    );
    is_wrong(
        &[fresh, "--key", "70000", "1"],
        "70000 is no number in its range",
    );
    is_wrong(&[fresh, "--key", "1"], "--key TABLE KEY needs a number");
    is_wrong(&[fresh, "--html"], "--html needs a file");
    is_wrong(&[fresh, fresh, fresh], "more than two images");
    is_wrong(&[fresh, fresh, "--key", "1", "1"], "for one image");
    let page = [
        "--slots",
        "4",
        "--size",
        "256",
        "--html",
        "no/such/folder/page",
    ];
    is_wrong(&[&[fresh], &page[..]].concat(), "no/such/folder/page");
}

#[test]
fn files_that_are_no_image() {
    let fresh = fresh();
    is_wrong(&["no-such-file"], "no-such-file");
    is_wrong(&[env!("CARGO_TARGET_TMPDIR")], env!("CARGO_TARGET_TMPDIR"));
    let given = |name: &str, bytes: &[u8], args: &[&str], words: &str| {
        let path = file(name, bytes);
        is_wrong(&[&[path.to_str().unwrap()], args].concat(), words);
    };
    given("empty", &[], &[], "0 bytes are too few");
    given("short", &[4, 0], &[], "2 bytes are too few");
    given("alone", &fresh, &[], "slots of");
    given(
        "long",
        &[&[4, 0, 1], &fresh[..], &[0]].concat(),
        &[],
        "the area has 1025",
    );
    let size = |slots, bytes| ["--slots", slots, "--size", bytes];
    given(
        "odd",
        &fresh[1..],
        &size("4", "256"),
        "are 1024 bytes, and the area has 1023",
    );
    given("few", &fresh, &size("2", "512"), "there are 4 to 32 slots");
    given("small", &fresh, &size("8", "128"), "of 256 to 2048 bytes");
    given(
        "huge",
        &fresh,
        &size("4294967295", "4294967295"),
        "there are 4 to 32 slots",
    );
}

#[test]
fn exit_status() {
    let fresh = fresh();
    let accepted = file("status.accepted", &fresh);
    let refused = file("status.refused", &vec![0; 1024]);
    let size = ["--slots", "4", "--size", "256"];
    let (accepted, refused) = (accepted.to_str().unwrap(), refused.to_str().unwrap());
    let status = |images: &[&str], more: &[&str]| {
        let outcome = runs(&[images, &size, more].concat());
        assert_eq!(outcome.error, "");
        outcome.status
    };
    for more in [
        &[][..],
        &["--json"],
        &["--key", "1", "2"],
        &["--key", "1", "2", "--json"],
    ] {
        assert_eq!(status(&[accepted], more), 0);
        assert_eq!(status(&[refused], more), 1);
    }
    for more in [&[][..], &["--json"]] {
        assert_eq!(status(&[accepted, accepted], more), 0);
        assert_eq!(status(&[accepted, refused], more), 1);
        assert_eq!(status(&[refused, accepted], more), 1);
    }
    assert_eq!(runs(&["--help"]).status, 0);
}

#[test]
fn leading_bytes_and_options_say_the_same() {
    let fresh = fresh();
    let alone = file("same.area", &fresh);
    let leading = file("same.image", &[&[4, 0, 1], &fresh[..]].concat());
    let size = ["--slots", "4", "--size", "256"];
    let told = runs(&[&[alone.to_str().unwrap()], &size[..]].concat());
    assert_eq!(told, runs(&[leading.to_str().unwrap()]));
    assert!(told
        .output
        .starts_with("accepted: next version 1, digest 1, head slot 0, 0 keys present\n"));
}

/// The page is whole, and needs nothing from elsewhere.
#[test]
fn page_stands_alone() {
    let image = file("page.image", &[&[4, 0, 1], &fresh()[..]].concat());
    let page = file("page.html", &[]);
    let outcome = runs(&[image.to_str().unwrap(), "--html", page.to_str().unwrap()]);
    assert_eq!(outcome.status, 0);
    let html = std::fs::read_to_string(page).unwrap();
    assert!(html.starts_with("<!DOCTYPE html>") && html.ends_with("</html>\n"));
    for word in ["http:", "https:", "src=", "href=", "<script", "@import"] {
        assert!(!html.contains(word), "{word}");
    }
}
