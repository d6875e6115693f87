//! A store that a long history of writes, deletes and cleanings has filled with tombstones, made by calls alone.

use reference::edition::FIRST;
use reference::rng::Rng;
use reference::{Edition, Pending, Record, Refusal};

use crate::image::SLOT_BYTES;
use crate::recoveries::recovery;
use crate::report::{Call, Keys, Report};
use crate::store::{start, Operation, Store, CELLS, SLOTS};

/// Keys to choose from: no more than the index takes.
const KEYS: u32 = 4000;
/// Keys that are present when all are deleted.
const PRESENT: usize = 1000;
/// Writes and deletes: so many that the number of tombstones no longer grows but goes up and down.
const OPERATIONS: u32 = 56_000;
/// Bytes of an object.
const OBJECT: u32 = 19;

/// A store with the keys that are present.
struct Drive {
    record: Record,
    area: Vec<u8>,
    index: Vec<u32>,
    work: Vec<u8>,
    present: Vec<u32>,
    /// Whether the present keys are being deleted.
    deleting: bool,
    rng: Rng,
    /// Writes and deletes so far.
    operations: u32,
}

impl Drive {
    fn formatted() -> Drive {
        let (slots, slot_bytes) = (SLOTS as u32, SLOT_BYTES as u32);
        let mut area = vec![0; SLOTS * SLOT_BYTES];
        let mut index = vec![0; CELLS];
        let order: Vec<u8> = (0..SLOTS as u8).collect();
        let formatted = reference::format(slots, slot_bytes, Edition::FIRST, &mut area);
        formatted.expect("the sizes are right");
        let record = reference::recover(slots, slot_bytes, &area, &mut index, &order);
        Drive {
            record: record.expect("a formatted area"),
            area,
            index,
            work: vec![0; SLOT_BYTES],
            present: Vec::new(),
            deleting: false,
            rng: Rng::new(18),
            operations: 0,
        }
    }

    fn start(&mut self, operation: Operation) -> reference::Started {
        let work = &mut self.work;
        start(self.record, &self.area, &self.index, work, operation)
    }

    fn perform(&mut self, operation: Operation) -> Result<(), Refusal> {
        let (mut record, stores) = self.start(operation);
        for _ in 0..stores? {
            reference::step_kept(&mut record, &mut self.area, &mut self.index, &self.work)?;
        }
        self.record = record;
        Ok(())
    }

    /// Writes of any keys until enough are present, then deletes until none is, and so on.
    fn next(&mut self) -> Result<(), Refusal> {
        if self.deleting {
            let number = self.rng.below(self.present.len() as u32) as usize;
            self.perform(Operation::Delete(self.present[number]))?;
            self.present.swap_remove(number);
            self.deleting = !self.present.is_empty();
        } else {
            let key = self.rng.below(KEYS);
            self.perform(Operation::Write(key, &[7; 8]))?;
            if !self.present.contains(&key) {
                self.present.push(key);
            }
            self.deleting = self.present.len() == PRESENT;
        }
        self.operations += 1;
        Ok(())
    }

    /// The head's bytes after a cleaning of a slot.
    fn kept(&mut self, slot: u32) -> u32 {
        match self.start(Operation::Clean(1 << slot)).0.pending {
            Pending::Clean { length, .. } => length,
            _ => panic!("a slot's entries fit a slot"),
        }
    }

    /// Cleans the slot that keeps least, where a tombstone counts as kept even if it goes: so tombstones pile up.
    fn clean(&mut self) {
        let slots: Vec<u32> = self.record.map.slots().collect();
        let victim = slots.into_iter().min_by_key(|&slot| {
            let tombstones = tombstones(&self.area, slot);
            self.kept(slot) + 11 * tombstones
        });
        let victim = victim.expect("a log has slots");
        assert!(self.kept(victim) + OBJECT <= SLOT_BYTES as u32, "no room");
        self.perform(Operation::Clean(1 << victim))
            .expect("a start that was accepted");
    }

    fn run(&mut self) {
        while self.operations < OPERATIONS {
            match self.next() {
                Ok(()) => {}
                Err(Refusal::SlotsFull) => self.clean(),
                Err(refusal) => panic!("refused {refusal:?}"),
            }
        }
    }
}

/// How many tombstones a slot of the log holds.
fn tombstones(area: &[u8], slot: u32) -> u32 {
    let segment = &area[slot as usize * SLOT_BYTES..][..SLOT_BYTES];
    let (mut at, mut count) = (13, 0);
    while let Some(length) = segment.get(at).and_then(|&kind| FIRST.entry_bytes(kind)) {
        count += u32::from(length == 11);
        at += length;
    }
    count
}

/// The cases.
pub fn cases(report: &mut Report) {
    let mut drive = Drive::formatted();
    drive.run();
    let slots = || drive.record.map.slots();
    let in_all: u32 = slots().map(|slot| tombstones(&drive.area, slot)).sum();
    let most = slots().max_by_key(|&slot| tombstones(&drive.area, slot));
    let operation = Operation::Clean(1 << most.expect("a log has slots"));
    let state = format!(
        "after {} writes and deletes, {in_all} tombstones",
        drive.operations
    );
    let mut store = Store::new(drive.area.clone(), CELLS);
    let answer = store.start_reference(operation).1;
    let timing = store.time_start(operation, answer);
    let case = format!("start of cleaning one slot {state}");
    report.call(Call::CleanStart, Keys::Plain, &case, timing);
    report.line(
        &format!("cleaning one slot {state}"),
        store.time_whole(operation),
    );
    recovery(
        report,
        Keys::Plain,
        &format!("recovery {state}"),
        drive.area,
    );
}
