//! The few calls that all short histories are made of.

use crate::book::Operation;
use crate::{Key, Record, SlotMap};

/// One key.
pub const A: Key = Key { table: 0, key: 0 };

/// Another.
pub const B: Key = Key {
    table: u16::MAX,
    key: u32::MAX,
};

/// Orders that put each slot of four first and last once.
pub const ORDERS: [[u8; 4]; 4] = [[0, 1, 2, 3], [3, 2, 1, 0], [1, 3, 0, 2], [2, 0, 3, 1]];

/// An operation whose details depend on the store that it meets.
#[derive(Clone, Copy, PartialEq, Eq, Debug)]
pub enum Choice {
    /// A write of so many bytes.
    Write(Key, usize),
    /// A delete.
    Delete(Key),
    /// A cleaning of every slot in the log.
    CleanAll,
    /// A cleaning of the head.
    CleanHead,
}

impl Choice {
    /// The choice as an operation on a store with this record. Values with unlike tags are unlike.
    pub fn operation(self, record: Record, tag: u8) -> Operation {
        match self {
            Choice::Write(key, bytes) => {
                Operation::Write(key, (0..bytes as u8).map(|i| i.wrapping_add(tag)).collect())
            }
            Choice::Delete(key) => Operation::Delete(key),
            Choice::CleanAll => Operation::Clean(record.map),
            Choice::CleanHead => Operation::Clean(SlotMap(1 << record.head)),
        }
    }
}

/// Writes of so many bytes under two keys, their deletes, and a cleaning of the log.
pub fn two_keys(bytes: [usize; 2]) -> Vec<Choice> {
    vec![
        Choice::Write(A, bytes[0]),
        Choice::Write(B, bytes[1]),
        Choice::Delete(A),
        Choice::Delete(B),
        Choice::CleanAll,
    ]
}
