//! Single calls in a store whose index is full: with plain keys, and with keys whose searches all start at one cell.

use std::hint::black_box;

use crate::image::{full, lay_out, At, Entry, DIGEST_BYTES, OBJECTS};
use crate::recoveries::recovery;
use crate::report::{Call, Keys, Report};
use crate::store::{
    proved_key, reference_key, Operation, Store, ALL, CELLS, LOG, PROVED_ALL, SLOTS,
};
use crate::timing::{compare, Timing};
use crate::versions::meeting;

/// As many keys as the index takes.
const KEYS: usize = CELLS - 1;
/// A value of the longest kind.
const VALUE: [u8; 120] = [9; 120];

/// Keys that fill the index, and how a case names them.
struct Chosen {
    keys: Vec<u32>,
    which: Keys,
    name: &'static str,
}

/// The cell at which the search for a key starts.
fn start_cell(key: u32) -> usize {
    reference_key(key).hash() as usize % CELLS
}

/// The cases.
pub fn cases(report: &mut Report) {
    let plain = Chosen {
        keys: (0..KEYS as u32).collect(),
        which: Keys::Plain,
        name: "full index",
    };
    let one_cell = Chosen {
        keys: (0..)
            .filter(|&key| start_cell(key) == 0)
            .take(KEYS)
            .collect(),
        which: Keys::OneCell,
        name: "full index, keys of one start cell",
    };
    for chosen in [plain, one_cell] {
        chosen.reads(report);
        chosen.writes(report);
        chosen.cleanings(report);
        chosen.recoveries(report);
    }
}

impl Chosen {
    /// A store in which every key has one entry, of which every second is an object, and whose head has room.
    fn one_entry_each(&self) -> Store {
        let area = lay_out(SLOTS, |at| {
            let &key = self.keys.get(at.count as usize)?;
            Some(match at.count % 2 {
                0 => at.object(key),
                _ => at.tombstone(key),
            })
        });
        Store::new(area, CELLS)
    }

    /// The key of an entry of the log: each has one, and then all are of the last key, whose search is long.
    fn key(&self, at: At) -> u32 {
        self.keys[(at.count as usize).min(KEYS - 1)]
    }

    fn tombstone(&self, at: At) -> Entry {
        at.tombstone(self.key(at))
    }

    fn call(&self, report: &mut Report, call: Call, case: &str, timing: Timing) {
        report.call(call, self.which, &format!("{case}, {}", self.name), timing);
    }

    /// The present key that is found last.
    fn last_present(&self, store: &Store) -> u32 {
        hardest(store, self.keys.iter().copied().step_by(2))
    }

    fn reads(&self, report: &mut Report) {
        let mut store = self.one_entry_each();
        let absent = hardest(&store, 100_000_000..100_010_000);
        for (case, key) in [
            (
                "read of the present key found last",
                self.last_present(&store),
            ),
            ("read of the absent key searched longest", absent),
        ] {
            let timing = compare(
                &mut store,
                |store| {
                    let key = proved_key(black_box(key));
                    let _ = black_box(store.proved.read(
                        &store.area,
                        &store.index,
                        PROVED_ALL,
                        key,
                    ));
                },
                |store| {
                    let key = reference_key(black_box(key));
                    let record = black_box(&store.reference);
                    let _ = black_box(reference::read(record, &store.area, &store.index, ALL, key));
                },
            );
            self.call(report, Call::Read, case, timing);
        }
    }

    /// Starts and steps of writes of 120 bytes and the start of a delete, of the key found last.
    fn writes(&self, report: &mut Report) {
        let mut store = self.one_entry_each();
        let key = self.last_present(&store);
        let (write, delete) = (Operation::Write(key, &VALUE), Operation::Delete(key));
        let timing = store.time_start(write, Ok(132));
        self.call(report, Call::WriteStart, "start of a write", timing);
        let conditional = Operation::WriteExpecting(key, store.version(key), &VALUE);
        let timing = store.time_start(conditional, Ok(132));
        let case = "start of a conditional write";
        self.call(report, Call::ConditionalWriteStart, case, timing);
        let timing = store.time_start(delete, Ok(12));
        self.call(report, Call::DeleteStart, "start of a delete", timing);
        let timing = self.one_entry_each().time_steps(write, 66, 64);
        self.call(report, Call::MiddleStep, "a middle step of a write", timing);
        let timing = store.time_steps(write, 1, 1);
        self.call(
            report,
            Call::LastStepOfWrite,
            "last step of a write",
            timing,
        );
    }

    /// The start with all slots as victims, which looks for the key of every entry; and the steps of a cleaning of the last
    /// slot, full of objects that are kept in a log of tombstones, so that the index is rebuilt of as many entries as can be.
    fn cleanings(&self, report: &mut Report) {
        let mut store = Store::new(full(SLOTS, |at| self.tombstone(at)), CELLS);
        let timing = store.time_start(Operation::Clean((1 << LOG) - 1), Ok(15));
        self.call(
            report,
            Call::CleanStart,
            "start of cleaning all 31 slots, tombstones",
            timing,
        );
        let area = full(SLOTS, |at| match at.slot + 1 == LOG {
            true => at.object(self.keys[KEYS - 1 - at.within]),
            false => self.tombstone(at),
        });
        let operation = Operation::Clean(1 << (LOG - 1));
        let timing = Store::new(area.clone(), CELLS).time_steps(operation, 1000, 64);
        self.call(
            report,
            Call::MiddleStep,
            "a middle step of a cleaning",
            timing,
        );
        let timing = Store::new(area.clone(), CELLS).time_steps(operation, 1, 1);
        self.call(
            report,
            Call::LastStepOfCleaning,
            "last step of cleaning one slot",
            timing,
        );
        self.full_delete(report, area);
        self.outside(report);
    }

    /// Start and last step of a delete without room, of an object in the last slot; all others there are kept.
    fn full_delete(&self, report: &mut Report, area: Vec<u8>) {
        let delete = Operation::Delete(self.keys[KEYS - 1]);
        let stores = (DIGEST_BYTES + (OBJECTS - 1) * 19) as u32 + 2;
        let timing = Store::new(area.clone(), CELLS).time_start(delete, Ok(stores));
        let case = "start of a delete in a full store";
        self.call(report, Call::FullDeleteStart, case, timing);
        let timing = Store::new(area, CELLS).time_steps(delete, 1, 1);
        let case = "last step of a delete in a full store";
        self.call(report, Call::LastStepOfCleaning, case, timing);
    }

    /// The start of a cleaning of tombstones that go, where objects stand outside, many of them the last key's. More slots of
    /// tombstones than are victims make the index full before the objects come.
    fn outside(&self, report: &mut Report) {
        for (case, victims, tombstones) in [("one slot", 1, 22), ("fifteen slots", 15, 15)] {
            let area = full(SLOTS, |at| match at.slot < tombstones {
                true => self.tombstone(at),
                false => at.object(self.key(at)),
            });
            let operation = Operation::Clean((1 << victims) - 1);
            let timing = Store::new(area, CELLS).time_start(operation, Ok(15));
            let case =
                format!("start of cleaning {case} of tombstones, the last key's objects outside");
            self.call(report, Call::CleanStart, &case, timing);
        }
    }

    fn recoveries(&self, report: &mut Report) {
        let area = full(SLOTS, |at| self.tombstone(at));
        let case = format!("recovery, tombstones, {}", self.name);
        recovery(report, self.which, &case, area);
        let versions = meeting();
        let area = full(SLOTS, |at| {
            self.tombstone(at).versioned(versions[at.count as usize])
        });
        let case = format!("recovery, tombstones, {}, versions that meet", self.name);
        recovery(report, self.which, &case, area);
    }
}

/// The key whose search looks at most cells.
fn hardest(store: &Store, keys: impl Iterator<Item = u32>) -> u32 {
    keys.max_by_key(|&key| searched(store, key))
        .expect("there are keys")
}

/// How many cells the search for a key looks at.
fn searched(store: &Store, key: u32) -> usize {
    let stored = reference_key(key).stored();
    let ends = |cell: usize| match store.index[cell % CELLS] {
        0 => true,
        mark => store.area[mark as usize..][..6] == stored,
    };
    let first = start_cell(key);
    (0..CELLS).take_while(|&step| !ends(first + step)).count() + 1
}
