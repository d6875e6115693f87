//! The switch to the second edition, and cleanings in a store that is switched: the victims are of the first edition, and what
//! is kept of them is rewritten.

use std::hint::black_box;

use reference::edition::{FIRST, SECOND};

use crate::image::{lay_out_of, objects, SLOT_BYTES};
use crate::report::{Call, Keys, Report};
use crate::store::{Operation, Store, CELLS, SLOTS};
use crate::timing::compare;

/// A store of the first edition, seven slots of which have as many live objects as a slot of the second takes.
fn store() -> Store {
    let mut area = lay_out_of(&FIRST, 8, |at| {
        (at.within < objects(&SECOND)).then(|| at.object(at.count))
    });
    area.resize(SLOTS * SLOT_BYTES, 0);
    Store::new(area, CELLS)
}

/// The cases.
pub fn cases(report: &mut Report) {
    switch(report);
    cleanings(report);
}

/// A switch of a record that is not switched yet.
fn switch(report: &mut Report) {
    let timing = compare(
        &mut store(),
        |store| {
            let mut record = *black_box(&store.proved);
            let _ = black_box(record.switch());
            black_box(record);
        },
        |store| {
            let _ = black_box(reference::switch(*black_box(&store.reference)));
        },
    );
    report.call(Call::Switch, Keys::Plain, "switch of a store", timing);
}

/// The cleaning of one old slot, all of which is kept: its start, and all of it.
fn cleanings(report: &mut Report) {
    let clean = Operation::Clean(0b100);
    let bytes = SECOND.digest_bytes() + objects(&SECOND) * 23;
    let stores = bytes + 1 + usize::from(bytes < SLOT_BYTES);
    let timing = store().switched().time_start(clean, Ok(stores as u32));
    let case = "start of a cleaning of one old slot, switched";
    report.call(Call::CleanStart, Keys::Plain, case, timing);
    let timing = store().switched().time_whole(clean);
    report.line("cleaning of one old slot, switched", timing);
}
