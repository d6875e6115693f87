//! Cleanings of slots that are full of tombstones, each the newest entry of its key, in a full store.
//!
//! Whether a tombstone is kept depends on the log outside the victims, where objects of its key may stand: in the slots
//! that are looked at last, or nowhere. The victims are the first slots, and slots are looked at upwards.

use crate::image::{full, At, Entry, OBJECTS, TOMBSTONES};
use crate::report::{Call, Keys, Report};
use crate::store::{Answer, Operation, Store, CELLS, LOG, SLOTS};

/// A version above all that stand in a row.
const NEWEST: u32 = 8000;
/// A key above all of the victims.
const OTHERS: u32 = 10_000;

/// What stands outside the victims.
#[derive(Clone, Copy)]
struct Outside {
    /// The objects of victims' keys, so many, in the last slots.
    objects: usize,
    /// Whether all else is tombstones; otherwise objects, of other keys both.
    tombstones: bool,
}

impl Outside {
    /// The entry at a place outside the victims. The objects of victims' keys fill the last slots; their keys are spread over
    /// the victims.
    fn entry(self, at: At, victims: usize) -> Entry {
        let slots = self.objects.div_ceil(OBJECTS);
        let key = OTHERS + at.count % 1000;
        if at.slot + slots < LOG {
            return match self.tombstones {
                true => at.tombstone(key),
                false => at.object(key),
            };
        }
        let number = (at.slot + slots - LOG) * OBJECTS + at.within;
        if number < self.objects {
            let keys = victims * TOMBSTONES;
            at.object((number * keys / self.objects) as u32)
        } else {
            at.object(key)
        }
    }
}

/// The store in which so many victims are full of tombstones.
fn store(victims: usize, outside: Outside) -> Store {
    let area = full(SLOTS, |at| {
        if at.slot < victims {
            at.tombstone(at.count).versioned(NEWEST + at.count)
        } else {
            outside.entry(at, victims)
        }
    });
    Store::new(area, CELLS)
}

/// The cases.
pub fn cases(report: &mut Report) {
    for (victims, slots) in [(1, "one slot"), (15, "fifteen slots")] {
        for tombstones in [false, true] {
            let gone = Outside {
                objects: 0,
                tombstones,
            };
            let last = Outside {
                objects: TOMBSTONES,
                tombstones,
            };
            let rest = if tombstones { "tombstones" } else { "objects" };
            let case = format!("{slots} of tombstones, objects gone, the rest {rest}");
            cleaning(report, &case, victims, gone, 13);
            let case =
                format!("{slots} of tombstones, 185 objects in the last slots, the rest {rest}");
            cleaning(report, &case, victims, last, 2048);
        }
    }
    refused(report);
    all(report);
}

/// The start of a cleaning that gives a head of so many bytes, and the whole of it.
fn cleaning(report: &mut Report, case: &str, victims: usize, outside: Outside, bytes: u32) {
    let mut store = store(victims, outside);
    let operation = Operation::Clean((1 << victims) - 1);
    start(
        report,
        &format!("start of cleaning {case}"),
        &mut store,
        operation,
        Ok(stores(bytes)),
    );
    report.line(&format!("cleaning {case}"), store.time_whole(operation));
}

/// The stores of a head of so many bytes: all, the first one twice, and a 0 behind them where there is room.
fn stores(bytes: u32) -> u32 {
    bytes + 1 + u32::from(bytes < 2048)
}

fn start(report: &mut Report, case: &str, store: &mut Store, operation: Operation, answer: Answer) {
    let timing = store.time_start(operation, answer);
    report.call(Call::CleanStart, Keys::Plain, case, timing);
}

/// Fifteen slots, of whose keys the rest of the log holds as many objects as fit: more are kept than one slot takes.
fn refused(report: &mut Report) {
    let outside = Outside {
        objects: (LOG - 15) * OBJECTS,
        tombstones: false,
    };
    let case =
        "start of cleaning fifteen slots of tombstones, 1,712 objects outside, refused with 14";
    let operation = Operation::Clean((1 << 15) - 1);
    start(report, case, &mut store(15, outside), operation, Err(14));
}

/// All slots of the log at once.
fn all(report: &mut Report) {
    let mut store = Store::new(full(SLOTS, |at| at.tombstone(at.count % 2000)), CELLS);
    let operation = Operation::Clean((1 << LOG) - 1);
    let case = "start of cleaning all 31 slots, tombstones";
    start(report, case, &mut store, operation, Ok(stores(13)));
}
