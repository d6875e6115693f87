//! Reads, writes, cleanings and deletes without room in a store of objects.

use std::hint::black_box;

use reference::edition::{Layout, FIRST};

use crate::editions::named;
use crate::image::{full, full_of, objects, At, Entry, DIGEST_BYTES, OBJECTS, SLOT_BYTES};
use crate::report::{Call, Keys, Report};
use crate::store::{Operation, Store, ALL, CELLS, LOG, PROVED_ALL, SLOTS};
use crate::timing::compare;

/// The cases.
pub fn cases(report: &mut Report) {
    reads(report, &FIRST);
    writes(report, &FIRST);
    conditional_writes(report);
    cleanings(report, &FIRST);
    full_deletes(report);
    fewest(report);
    next_store(report);
    joins(report);
}

/// Reads of keys all over a full store.
pub fn reads(report: &mut Report, layout: &Layout) {
    let area = full_of(layout, SLOTS, |at| at.object(at.count % 2000));
    let store = Store::new(area, CELLS);
    for (case, table) in [("read of a present key", 1), ("read of an absent key", 2)] {
        let next = |key: &mut u32| std::mem::replace(key, (*key + 7) % 2000);
        let timing = compare(
            &mut (0, 0),
            |(proved, _)| {
                let key = kurdavel::Key {
                    table,
                    key: next(proved),
                };
                let _ = black_box(
                    store
                        .proved
                        .read(&store.area, &store.index, PROVED_ALL, key),
                );
            },
            |(_, reference)| {
                let key = reference::Key {
                    table,
                    key: next(reference),
                };
                let record = black_box(&store.reference);
                let _ = black_box(reference::read(record, &store.area, &store.index, ALL, key));
            },
        );
        report.call(Call::Read, Keys::Plain, &named(case, layout), timing);
    }
}

/// A store with two slots in the log, whose head has room or none.
fn two_slots(layout: &Layout, room: bool) -> Store {
    let mut area = full_of(layout, 3, |at| at.object(at.count % 60));
    area.resize(SLOTS * SLOT_BYTES, 0);
    if room {
        area[SLOT_BYTES + layout.digest_bytes()] = 0;
    }
    Store::new(area, 256)
}

/// A write of 8 bytes with all its steps: into a head with room, and into a new head.
pub fn writes(report: &mut Report, layout: &Layout) {
    for (case, room) in [
        ("write with its steps, appended", true),
        ("write with its steps, new head", false),
    ] {
        let timing = two_slots(layout, room).time_whole(Operation::Write(5, &[9; 8]));
        report.line(&named(case, layout), timing);
    }
}

/// The same over the version that the key has, and its start alone.
fn conditional_writes(report: &mut Report) {
    let mut store = two_slots(&FIRST, true);
    let write = Operation::WriteExpecting(5, store.version(5), &[9; 8]);
    let case = "conditional write with its steps, appended";
    report.line(case, store.time_whole(write));
    let mut store = two_slots(&FIRST, true);
    let write = Operation::WriteExpecting(5, store.version(5), &[9; 8]);
    let timing = store.time_start(write, Ok(20));
    report.line("start of a conditional write", timing);
}

/// Objects of which, in the first two slots, every second one is overwritten later.
fn half_overwritten(layout: &Layout, at: At) -> Entry {
    let (count, first_two) = (at.count, 2 * objects(layout) as u32);
    let overwritten = count < first_two && count % 2 == 1 || count == 300;
    at.object(if overwritten { 0 } else { count + 1 })
}

/// Cleaning with all its steps: one slot that is all kept, and two of which half is.
pub fn cleanings(report: &mut Report, layout: &Layout) {
    for (case, victims) in [
        ("cleaning of one slot", 0b100),
        ("cleaning of two slots", 0b11),
    ] {
        let mut area = full_of(layout, 8, |at| half_overwritten(layout, at));
        area.resize(SLOTS * SLOT_BYTES, 0);
        let timing = Store::new(area, CELLS).time_whole(Operation::Clean(victims));
        report.line(&named(case, layout), timing);
    }
}

/// Deletes in a store full of live objects, which clean the first slot, that of the object. Either the last entry of the
/// log is an older object of the key, and a tombstone stands in the place of the live one; or no other slot has one.
fn full_deletes(report: &mut Report) {
    let key = 50;
    let kept = (DIGEST_BYTES + (OBJECTS - 1) * 19) as u32;
    for (case, older, bytes) in [
        ("a tombstone stands", true, kept + 11),
        ("nothing stands", false, kept),
    ] {
        let last = (LOG * OBJECTS) as u32 - 1;
        let area = full(SLOTS, |at| match older && at.count == last {
            true => at.object(key).versioned(1u32),
            false => at.object(at.count).versioned(at.count + 2),
        });
        let mut store = Store::new(area, CELLS);
        let delete = Operation::Delete(key);
        let timing = store.time_start(delete, Ok(bytes + 2));
        let start = format!("start of a delete in a full store, {case}");
        report.call(Call::FullDeleteStart, Keys::Plain, &start, timing);
        let whole = format!("delete with its steps in a full store, {case}");
        report.line(&whole, store.time_whole(delete));
    }
}

/// The slot with the fewest present bytes of a log of 31 slots, all of them as full.
fn fewest(report: &mut Report) {
    let mut store = Store::new(full(SLOTS, |at| at.object(at.count)), CELLS);
    assert_eq!(store.proved.fewest(), Ok(0));
    let timing = compare(
        &mut store,
        |store| {
            let _ = black_box(black_box(&store.proved).fewest());
        },
        |store| {
            let _ = black_box(reference::fewest(black_box(&store.reference)));
        },
    );
    let case = "slot with the fewest present bytes of 31";
    report.call(Call::Fewest, Keys::Plain, case, timing);
}

/// The next store of a write told, and of a cleaning.
fn next_store(report: &mut Report) {
    for (case, operation) in [
        (
            "the next store of a write told",
            Operation::Write(5, &[9; 8]),
        ),
        ("the next store of a cleaning told", Operation::Clean(1)),
    ] {
        let mut store = two_slots(&FIRST, true);
        let (proved, _) = store.start_proved(operation);
        let (reference, stores) = store.start_reference(operation);
        stores.expect("an accepted start");
        let timing = compare(
            &mut store,
            |store| {
                let _ = black_box(black_box(&proved).next_store(&store.area, &store.work));
            },
            |store| {
                let record = black_box(&reference);
                let _ = black_box(reference::next_store(record, &store.area, &store.work));
            },
        );
        report.call(Call::NextStore, Keys::Plain, case, timing);
    }
}

/// The two slots to join of a full store that has none: of live objects, of tombstones with an object elsewhere, and of both.
/// Beside each stands what starting a cleaning of every slot alone takes together.
fn joins(report: &mut Report) {
    let live = |at: At| at.object(at.count);
    // Every tombstone of the last eleven slots stands for an object of the first twenty.
    let deleted = |at: At| match at.slot < 20 {
        true => at.object(at.count),
        false => at.tombstone(at.count - (20 * OBJECTS) as u32),
    };
    let mixed = |at: At| match at.slot {
        0..8 => at.object(at.count),
        8..12 => at.tombstone(at.count - (8 * OBJECTS) as u32),
        _ => at.object(at.count % 3000 + 3000),
    };
    let stores: [(&str, Vec<u8>); 3] = [
        ("objects", full(SLOTS, live)),
        ("tombstones with an object elsewhere", full(SLOTS, deleted)),
        ("objects and tombstones", full(SLOTS, mixed)),
    ];
    for (case, area) in stores {
        let mut store = Store::new(area, CELLS);
        let told = reference::join(&store.reference, &store.area, &store.index);
        let proved = store.proved.join(&store.area, &store.index);
        assert_eq!(proved.ok(), told.ok());
        let timing = compare(
            &mut store,
            |store| {
                let record = black_box(&store.proved);
                let _ = black_box(record.join(&store.area, &store.index));
            },
            |store| {
                let record = black_box(&store.reference);
                let _ = black_box(reference::join(record, &store.area, &store.index));
            },
        );
        let name = format!("two slots to join, {case}");
        report.call(Call::Join, Keys::Plain, &name, timing);
        let timing = compare(
            &mut store,
            |store| {
                for slot in 0..LOG {
                    let _ = black_box(store.start_proved(Operation::Clean(1 << slot)));
                }
            },
            |store| {
                for slot in 0..LOG {
                    let _ = black_box(store.start_reference(Operation::Clean(1 << slot)));
                }
            },
        );
        let name = format!("starts of cleaning each of 31 slots alone, {case}");
        report.line(&name, timing);
    }
}
