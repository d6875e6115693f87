//! The second edition: recovery, reads, writes and cleaning on stores that are laid out as those of the first.

use reference::edition::{Layout, SECOND};
use reference::rng::Rng;
use reference::Edition;

use crate::image::{full_of, At, Entry};
use crate::operations::{cleanings, reads, writes};
use crate::recoveries::{mixed, plain, scan};
use crate::report::Report;
use crate::store::SLOTS;
use crate::versions::meeting;

/// How a case is named in an edition: the first has no word for it.
pub fn named(case: &str, layout: &Layout) -> String {
    match layout.edition {
        Edition::FIRST => case.to_string(),
        Edition(number) => format!("{case}, edition {number}"),
    }
}

fn area(entry: impl Fn(At) -> Entry) -> Vec<u8> {
    full_of(&SECOND, SLOTS, entry)
}

/// The cases.
pub fn cases(report: &mut Report) {
    recoveries(report);
    let case = named("read by a scan, 8-byte objects", &SECOND);
    scan(report, &case, area(|at| at.object(at.count % 2000)));
    reads(report, &SECOND);
    writes(report, &SECOND);
    cleanings(report, &SECOND);
}

/// Recoveries of a whole area, with versions in a row, with versions all over their 64 bits, and with versions that meet.
fn recoveries(report: &mut Report) {
    let mut rng = Rng::new(5);
    let last = SECOND.last_version().0;
    let scattered: Vec<u64> = (0..5000).map(|_| 1 + rng.bits() % last).collect();
    let meeting = meeting();
    for (case, area) in [
        (
            "recovery, 8-byte objects, whole",
            area(|at| at.object(at.count % 2000)),
        ),
        (
            "recovery, tombstones, whole",
            area(|at| at.tombstone(at.count % 2000)),
        ),
        ("recovery, distinct keys, whole", area(mixed)),
        (
            "recovery, distinct keys, scattered versions",
            area(|at| mixed(at).versioned(scattered[at.count as usize])),
        ),
        (
            "recovery, tombstones, versions that meet",
            area(|at| {
                at.tombstone(at.count % 2000)
                    .versioned(meeting[at.count as usize])
            }),
        ),
    ] {
        plain(report, &named(case, &SECOND), area);
    }
}
