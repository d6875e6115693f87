//! Random calls for a history: most are accepted, and each refusal comes up.

use crate::book::Operation;
use crate::rng::Rng;
use crate::{Key, Record, SlotMap, Tables, Version};

/// A key, often one whose numbers are at their limits.
pub fn any_key(rng: &mut Rng) -> Key {
    match rng.below(3) {
        0 => Key {
            table: *rng.pick(&[0, 1, u16::MAX]),
            key: *rng.pick(&[0, 1, u32::MAX]),
        },
        _ => Key {
            table: rng.bits() as u16,
            key: rng.bits() as u32,
        },
    }
}

/// An operation on a store with this record; one in `clean_rarity` is a cleaning.
pub fn operation(rng: &mut Rng, keys: &[Key], record: Record, clean_rarity: u32) -> Operation {
    let key = *rng.pick(keys);
    if rng.one_in(clean_rarity) {
        let map = record.map.0;
        return Operation::Clean(SlotMap(match rng.below(8) {
            0 => map,
            1 => rng.bits() as u32,
            2 => 0,
            3 => map & rng.bits() as u32,
            4 => 1 << record.head,
            _ => 1 << rng.below(record.slots),
        }));
    }
    if rng.one_in(3) {
        return Operation::Delete(key);
    }
    let bytes = match rng.below(20) {
        0 => rng.below(135) as usize,
        _ => *rng.pick(&[8, 24, 56, 120]),
    };
    let mut value = vec![0; bytes];
    rng.fill(&mut value);
    Operation::Write(key, value)
}

/// What a start is given besides its operation. The book is not told of it.
#[derive(Clone, Copy, PartialEq, Eq, Debug)]
pub struct Given {
    /// The tables that the caller may use.
    pub tables: Tables,
    /// The version that a write expects its key to have, if it expects one.
    pub expected: Option<Version>,
    /// How many bytes of the work buffer are lent.
    pub work_bytes: usize,
}

impl Given {
    /// All tables, no expectation, and so much of the work buffer.
    pub fn plain(work_bytes: usize) -> Given {
        Given {
            tables: Tables::ALL,
            expected: None,
            work_bytes,
        }
    }

    /// Anything for an operation on a store with this record, whose keys have the versions told.
    pub fn random(
        rng: &mut Rng,
        operation: &Operation,
        record: Record,
        version: impl Fn(Key) -> Version,
        whole: usize,
    ) -> Given {
        Given {
            tables: match operation {
                Operation::Write(key, _) | Operation::Delete(key) => tables(rng, key.table),
                Operation::Clean(_) => Tables::ALL,
            },
            expected: match operation {
                Operation::Write(key, _) => expected(rng, version(*key), record.next),
                Operation::Delete(_) | Operation::Clean(_) => None,
            },
            work_bytes: lent(rng, record.slot_bytes, whole),
        }
    }
}

/// A range of tables, which mostly holds a table: all, it alone, from it on, up to it, or around it. Others end just below
/// it or begin just above it, and some are empty.
pub fn tables(rng: &mut Rng, table: u16) -> Tables {
    let some = rng.bits() as u16;
    let (first, last) = match rng.below(20) {
        0..=7 => (0, u16::MAX),
        8 | 9 => (table, table),
        10 | 11 => (table, table.max(some)),
        12 | 13 => (table.min(some), table),
        14..=16 => (table.min(some), table.max(rng.bits() as u16)),
        17 => (some.min(table), table.wrapping_sub(1)),
        18 => (table.wrapping_add(1), some.max(table)),
        _ => (some, rng.bits() as u16),
    };
    Tables { first, last }
}

/// What a write expects of a key with this version: nothing, the version itself, absence, or
/// another number, such as that of an older entry or of the next one, or one that differs in its
/// high half alone.
fn expected(rng: &mut Rng, version: Version, next: Version) -> Option<Version> {
    match rng.below(12) {
        0..=5 => None,
        6..=8 => Some(version),
        9 => Some(Version::NONE),
        10 => Some(Version(next.0.wrapping_sub(rng.below(4).into()))),
        _ => Some(Version(match rng.below(4) {
            0 => version.0.wrapping_add(1),
            1 => version.0.wrapping_sub(1),
            2 => (u32::MAX - rng.below(2)).into(),
            _ => version.0 ^ rng.bits() << 32,
        })),
    }
}

/// How much of a work buffer to lend: sometimes too little, sometimes just enough.
fn lent(rng: &mut Rng, slot_bytes: u32, whole: usize) -> usize {
    match rng.below(30) {
        0 => rng.below(slot_bytes) as usize,
        1 => slot_bytes as usize,
        _ => whole,
    }
}

/// How many steps to make where so many stores are left: one, all but the last, or any number up to one too many.
pub fn steps(rng: &mut Rng, left: u32) -> u32 {
    match rng.below(3) {
        0 => 1,
        1 => left.max(2) - 1,
        _ => rng.below(left + 2),
    }
}
