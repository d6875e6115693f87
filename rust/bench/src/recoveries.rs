//! Recovery of full images, whole and in parts, with versions in a row, scattered and chosen against the search for equal
//! versions.

use std::hint::black_box;

use crate::image::{full, At, Entry, SLOT_BYTES};
use crate::report::{Call, Keys, Report};
use crate::store::{proved_key, reference_key, ALL, CELLS, PROVED_ALL, SLOTS};
use crate::timing::compare;
use crate::versions::{in_steps, meeting};

/// Objects and tombstones so mixed that 4,000 keys fill an area of the first edition.
pub fn mixed(at: At) -> Entry {
    if at.count % 12 >= 7 {
        at.tombstone(at.count)
    } else {
        at.object(at.count)
    }
}

/// The cases.
pub fn cases(report: &mut Report) {
    let parts = [
        (SLOTS / 4, "a quarter"),
        (SLOTS / 2, "a half"),
        (SLOTS, "whole"),
    ];
    for (slots, part) in parts {
        let area = full(slots, |at| at.object(at.count % 2000));
        plain(report, &format!("recovery, 8-byte objects, {part}"), area);
    }
    for (slots, part) in parts {
        let area = full(slots, |at| at.tombstone(at.count % 2000));
        plain(report, &format!("recovery, tombstones, {part}"), area);
    }
    for (slots, part) in parts {
        let case = match slots {
            SLOTS => "recovery, 4,000 distinct keys".to_string(),
            _ => format!("recovery, distinct keys, {part}"),
        };
        plain(report, &case, full(slots, mixed));
    }
    scattered(report);
    chosen(report);
    scans(report);
}

/// Versions far apart, as cleanings leave them after a long history.
fn scattered(report: &mut Report) {
    let mut rng = reference::rng::Rng::new(5);
    let versions: Vec<u32> = (0..5000).map(|_| rng.within(1, u32::MAX - 1)).collect();
    let area = full(SLOTS, |at| mixed(at).versioned(versions[at.count as usize]));
    let case = "recovery, 4,000 distinct keys, scattered versions";
    plain(report, case, area);
}

/// Versions that meet in the filter, and in the marks of the suspects too.
fn chosen(report: &mut Report) {
    for (case, versions) in [
        (
            "recovery, tombstones, versions in steps of 2^14",
            in_steps(14),
        ),
        (
            "recovery, tombstones, versions in steps of 2^22",
            in_steps(22),
        ),
        ("recovery, tombstones, versions that meet", meeting()),
    ] {
        let area = full(SLOTS, |at| {
            at.tombstone(at.count % 2000)
                .versioned(versions[at.count as usize])
        });
        plain(report, case, area);
    }
}

/// Times the recovery of an area whose keys nobody chose.
pub fn plain(report: &mut Report, case: &str, area: Vec<u8>) {
    recovery(report, Keys::Plain, case, area);
}

/// Times the recovery of an area.
pub fn recovery(report: &mut Report, keys: Keys, case: &str, area: Vec<u8>) {
    let slots = area.len() / SLOT_BYTES;
    let order: Vec<u8> = (0..slots as u8).collect();
    let mut index = vec![0; CELLS];
    let (n, s) = (slots as u32, SLOT_BYTES as u32);
    let timing = compare(
        &mut index,
        |index| {
            let answer = kurdavel::recover(n, s, &order, black_box(&area), index);
            black_box(answer).expect("the image of a store");
        },
        |index| {
            let answer = reference::recover(n, s, black_box(&area), index, &order);
            black_box(answer).expect("the image of a store");
        },
    );
    report.call(Call::Recovery, keys, case, timing);
}

/// Reads by a scan of the images that recoveries are timed on.
fn scans(report: &mut Report) {
    let versions = meeting();
    for (case, area) in [
        (
            "8-byte objects",
            full(SLOTS, |at| at.object(at.count % 2000)),
        ),
        (
            "tombstones",
            full(SLOTS, |at| at.tombstone(at.count % 2000)),
        ),
        ("4,000 distinct keys", full(SLOTS, mixed)),
        (
            "tombstones, versions that meet",
            full(SLOTS, |at| {
                at.tombstone(at.count % 2000)
                    .versioned(versions[at.count as usize])
            }),
        ),
    ] {
        scan(report, &format!("read by a scan, {case}"), area);
    }
}

/// Times the read of a key in the middle by a scan, which takes no longer than recovery.
pub fn scan(report: &mut Report, case: &str, area: Vec<u8>) {
    let (n, s) = (SLOTS as u32, SLOT_BYTES as u32);
    let timing = compare(
        &mut (),
        |()| {
            let key = proved_key(black_box(1000));
            let area = black_box(&area);
            let _ = black_box(kurdavel::scan_read(n, s, area, PROVED_ALL, key));
        },
        |()| {
            let key = reference_key(black_box(1000));
            let area = black_box(&area);
            let _ = black_box(reference::scan_read(n, s, area, ALL, key));
        },
    );
    report.call(Call::ScanRead, Keys::Plain, case, timing);
}
