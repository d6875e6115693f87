//! A store with its memory, on which both implementations do the same.

use std::hint::black_box;

use crate::image::{SLOT_BYTES, TABLE};
use crate::timing::{compare, Timing};

/// Slots of the largest area (N).
pub const SLOTS: usize = 32;
/// Slots of the log of a full area.
pub const LOG: usize = SLOTS - 1;
/// Cells of the largest index (M).
pub const CELLS: usize = 4096;

/// The tables of every caller, as the reference takes them and as the proved store does.
pub const ALL: reference::Tables = reference::Tables::ALL;
pub const PROVED_ALL: kurdavel::Tables = kurdavel::Tables::ALL;

/// An operation, with the key in the one table.
#[derive(Clone, Copy)]
pub enum Operation<'a> {
    /// A write of a value.
    Write(u32, &'a [u8]),
    /// A write of a value under a key that has this version.
    WriteExpecting(u32, reference::Version, &'a [u8]),
    /// A delete.
    Delete(u32),
    /// A cleaning of a map of victims.
    Clean(u32),
}

/// How many stores are to come, or the number of a refusal.
pub type Answer = Result<u32, u32>;

/// A key as the proved store takes it.
pub fn proved_key(key: u32) -> kurdavel::Key {
    kurdavel::Key { table: TABLE, key }
}

/// A key as the reference takes it.
pub fn reference_key(key: u32) -> reference::Key {
    reference::Key { table: TABLE, key }
}

/// Starts an operation of the reference.
#[inline(always)]
pub fn start(
    record: reference::Record,
    area: &[u8],
    index: &[u32],
    work: &mut [u8],
    operation: Operation,
) -> reference::Started {
    match operation {
        Operation::Write(key, value) => {
            reference::write(record, area, index, work, ALL, reference_key(key), value)
        }
        Operation::WriteExpecting(key, version, value) => {
            let key = reference_key(key);
            reference::write_expecting(record, area, index, work, ALL, key, version, value)
        }
        Operation::Delete(key) => {
            reference::delete(record, area, index, work, ALL, reference_key(key))
        }
        Operation::Clean(map) => {
            reference::clean(record, area, index, work, reference::SlotMap(map))
        }
    }
}

/// The store, and what sets it back to where it stood.
pub struct Store {
    /// The area.
    pub area: Vec<u8>,
    /// The index.
    pub index: Vec<u32>,
    /// The work buffer.
    pub work: Vec<u8>,
    /// The record of the proved store.
    pub proved: kurdavel::Record,
    /// The record of the reference.
    pub reference: reference::Record,
    /// The index as it stood.
    recovered: Vec<u32>,
}

impl Store {
    /// The store of an area, with an index of so many cells.
    pub fn new(area: Vec<u8>, cells: usize) -> Store {
        let slots = area.len() / SLOT_BYTES;
        let order: Vec<u8> = (0..slots as u8).collect();
        let mut index = vec![0; cells];
        let (n, s) = (slots as u32, SLOT_BYTES as u32);
        let reference = reference::recover(n, s, &area, &mut index, &order).expect("a store");
        let proved = kurdavel::recover(n, s, &order, &area, &mut index).expect("a store");
        Store {
            recovered: index.clone(),
            work: vec![0; SLOT_BYTES],
            area,
            index,
            proved,
            reference,
        }
    }

    /// The store once it is switched.
    pub fn switched(mut self) -> Store {
        self.proved.switch().expect("nothing is pending");
        let (reference, answer) = reference::switch(self.reference);
        answer.expect("nothing is pending");
        Store { reference, ..self }
    }

    /// The version of a present key.
    pub fn version(&self, key: u32) -> reference::Version {
        let (area, index) = (&self.area, &self.index);
        let found = reference::read(&self.reference, area, index, ALL, reference_key(key));
        found.expect("a present key").version
    }

    /// Starts an operation of the proved store, whose own record stays.
    #[inline(always)]
    pub fn start_proved(&mut self, operation: Operation) -> (kurdavel::Record, Answer) {
        let mut record = self.proved;
        let (area, index, work) = (&self.area, &self.index, &mut self.work);
        let answer = match operation {
            Operation::Write(key, value) => {
                record.write(area, index, work, PROVED_ALL, proved_key(key), value)
            }
            Operation::WriteExpecting(key, version, value) => {
                let (key, expected) = (proved_key(key), kurdavel::Version(version.0));
                record.write_expecting(area, index, work, PROVED_ALL, key, expected, value)
            }
            Operation::Delete(key) => record.delete(area, index, work, PROVED_ALL, proved_key(key)),
            Operation::Clean(map) => record.clean(area, index, work, kurdavel::SlotMap(map)),
        };
        (record, answer.map_err(kurdavel::Refusal::number))
    }

    /// The same of the reference.
    #[inline(always)]
    pub fn start_reference(&mut self, operation: Operation) -> (reference::Record, Answer) {
        let work = &mut self.work;
        let (record, answer) = start(self.reference, &self.area, &self.index, work, operation);
        (record, answer.map_err(reference::Refusal::number))
    }

    #[inline(always)]
    fn step_proved(&mut self, record: &mut kurdavel::Record) {
        let answer = record.step(&mut self.area, &mut self.index, &self.work);
        black_box(answer).expect("a step of a started operation");
    }

    #[inline(always)]
    fn step_reference(&mut self, record: &mut reference::Record) {
        let answer = reference::step_kept(record, &mut self.area, &mut self.index, &self.work);
        black_box(answer).expect("a step of a started operation");
    }

    /// An operation of the proved store with all its steps, and back.
    fn run_proved(&mut self, undo: usize, operation: Operation) {
        let (mut record, stores) = self.start_proved(operation);
        for _ in 0..stores.expect("an accepted start") {
            self.step_proved(&mut record);
        }
        self.set_back(undo);
    }

    /// The same of the reference.
    fn run_reference(&mut self, undo: usize, operation: Operation) {
        let (mut record, stores) = self.start_reference(operation);
        for _ in 0..stores.expect("an accepted start") {
            self.step_reference(&mut record);
        }
        self.set_back(undo);
    }

    /// The byte that made the operation count goes, and the index is as it was: the store is the one before.
    fn set_back(&mut self, undo: usize) {
        self.area[undo] = 0;
        self.index.copy_from_slice(&self.recovered);
    }

    /// The place of the byte that makes an operation count.
    fn undo(&mut self, operation: Operation) -> usize {
        let record = self.start_reference(operation).0;
        match record.pending {
            reference::Pending::None => panic!("a refused start"),
            reference::Pending::Append { .. } => {
                record.head as usize * SLOT_BYTES + record.end as usize
            }
            reference::Pending::NewHead { slot, .. }
            | reference::Pending::Clean { slot, .. }
            | reference::Pending::Forget { slot, .. } => slot as usize * SLOT_BYTES,
        }
    }

    /// Times the start alone. It changes the work buffer at the most, so that it can be repeated.
    pub fn time_start(&mut self, operation: Operation, expected: Answer) -> Timing {
        assert_eq!(self.start_proved(operation).1, expected);
        assert_eq!(self.start_reference(operation).1, expected);
        compare(
            self,
            |store| {
                let _ = black_box(store.start_proved(black_box(operation)));
            },
            |store| {
                let _ = black_box(store.start_reference(black_box(operation)));
            },
        )
    }

    /// Times the operation with all its steps.
    pub fn time_whole(&mut self, operation: Operation) -> Timing {
        let undo = self.undo(operation);
        compare(
            self,
            |store| store.run_proved(undo, operation),
            |store| store.run_reference(undo, operation),
        )
    }

    /// Times so many steps, one after the other, the first of them with so many stores left, counting its own; gives the time of
    /// one. Made again they store the same bytes, and make of the index what they made of it before, so that they can be
    /// repeated with a copy of the record. The key of a write is one that has entries.
    pub fn time_steps(mut self, operation: Operation, left: u32, count: u32) -> Timing {
        let (mut proved, stores) = self.start_proved(operation);
        let work = self.work.clone();
        let (mut reference, same) = self.start_reference(operation);
        assert!(stores == same && work == self.work);
        for _ in left..stores.expect("an accepted start") {
            self.step_proved(&mut proved);
            self.step_reference(&mut reference);
        }
        assert_eq!((proved.left(), reference.pending.left()), (left, left));
        let timing = compare(
            &mut self,
            |store| {
                let mut record = proved;
                for _ in 0..count {
                    store.step_proved(&mut record);
                }
            },
            |store| {
                let mut record = reference;
                for _ in 0..count {
                    store.step_reference(&mut record);
                }
            },
        );
        timing.each(count)
    }
}
