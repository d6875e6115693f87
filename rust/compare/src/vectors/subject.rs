//! What a replay asks of an implementation of the store.

use std::fmt;

use crate::guarded::Guarded;

use super::event::{Field, Geometry, Key, Range, Record};

/// Why a call gave no answer of its kind.
#[derive(Clone, PartialEq, Eq, Debug)]
pub enum No {
    /// It was refused with this number.
    Refused(u32),
    /// The implementation has no call for this yet.
    Missing(&'static str),
}

/// The answer of a call.
pub type Answer<T> = Result<T, No>;

/// What is lent to a call, each buffer between margins that the call may not touch.
#[derive(Clone, Debug)]
pub struct Memory {
    /// The area.
    pub area: Guarded<u8>,
    /// The index.
    pub index: Guarded<u32>,
    /// The work buffer.
    pub work: Guarded<u8>,
}

/// A key, and the range of tables that the caller gives with it, where the level has ranges.
#[derive(Clone, Copy, Debug)]
pub struct Asked {
    /// The key.
    pub key: Key,
    /// The range.
    pub range: Option<Range>,
}

/// The arguments of a write.
#[derive(Clone, Copy, Debug)]
pub struct Writing<'a> {
    /// The key.
    pub asked: Asked,
    /// The value.
    pub value: &'a [u8],
    /// The version that the key must have, if one is given.
    pub expected: Option<u64>,
}

/// A start on a store.
#[derive(Clone, Copy, Debug)]
pub enum Start<'a> {
    /// Write a value.
    Write(Writing<'a>),
    /// Delete a key.
    Delete(Asked),
    /// Clean these slots.
    Clean(u32),
}

/// What an accepted step tells: stores left, or the version once there are none.
#[derive(Clone, Copy, PartialEq, Eq, Debug)]
pub enum Progress {
    /// Stores left.
    More(u32),
    /// The version.
    Done(u64),
}

/// An implementation of the store. Calls that change the record change it in place; a refused one leaves it.
pub trait Subject {
    /// The record, as the implementation has it.
    type Record: Clone + PartialEq + fmt::Debug;

    /// How reports name the implementation.
    const NAME: &'static str;

    /// Makes an area an empty store.
    fn format(geometry: Geometry, area: &mut [u8]) -> Answer<()>;

    /// Reads the log of the area into the index.
    fn recover(geometry: Geometry, order: &[u8], memory: &mut Memory) -> Answer<Self::Record>;

    /// Starts an operation; tells the stores to come.
    fn start(record: &mut Self::Record, memory: &mut Memory, start: Start) -> Answer<u32>;

    /// Makes one store.
    fn step(record: &mut Self::Record, memory: &mut Memory) -> Answer<Progress>;

    /// Place and byte of the store that the next step makes.
    fn next_store(record: &Self::Record, memory: &Memory) -> Answer<(usize, u8)>;

    /// Version and kind of a key.
    fn read(record: &Self::Record, memory: &Memory, asked: Asked) -> Answer<(u64, u32)>;

    /// Place and length of a key's value in the area.
    fn read_value(record: &Self::Record, memory: &Memory, asked: Asked) -> Answer<(usize, usize)>;

    /// The slot of the log with the fewest present bytes.
    fn fewest(record: &Self::Record) -> Answer<u32>;

    /// Switches the store.
    fn switch(record: &mut Self::Record) -> Answer<()>;

    /// The lowest two slots whose kept entries fit one new head.
    fn join(record: &Self::Record, memory: &Memory) -> Answer<(u32, u32)>;

    /// Version and kind of a key, by a scan of the area.
    fn scan_read(geometry: Geometry, area: &[u8], asked: Asked) -> Answer<(u64, u32)>;

    /// Place and length of a key's value, by a scan of the area.
    fn scan_read_value(geometry: Geometry, area: &[u8], asked: Asked) -> Answer<(usize, usize)>;

    /// The value with its position as a count.
    fn from_float(value: &[u8]) -> Answer<[u8; 8]>;

    /// The value with its position as a float.
    fn to_float(value: &[u8]) -> Answer<[u8; 8]>;

    /// An area in the other edition.
    fn convert(geometry: Geometry, source: &[u8], target: &mut [u8]) -> Answer<()>;

    /// What a record says; none if it is not one that any call gives.
    fn says(record: &Self::Record) -> Option<Record>;

    /// The record with another value in a field. Stores left given to a record without an operation make one pending.
    fn forged(record: &Self::Record, field: Field, value: u64) -> Answer<Self::Record>;
}

/// The present bytes of the slots below N, and of any above that are not 0, which no record owes.
pub fn present_of(slots: u32, bytes: &[u32; 32]) -> Vec<u32> {
    let above = bytes.iter().rposition(|&bytes| bytes != 0);
    let count = above.map_or(0, |last| last + 1).max(slots as usize);
    bytes[..count.min(bytes.len())].to_vec()
}

/// Place and length of a part of a buffer.
pub fn part_of(buffer: &[u8], part: &[u8]) -> (usize, usize) {
    let place = (part.as_ptr() as usize).wrapping_sub(buffer.as_ptr() as usize);
    (place, part.len())
}

/// The tables that the caller may use: all where the level has no ranges.
pub fn range_of(asked: Asked) -> Range {
    asked.range.unwrap_or(Range {
        first: 0,
        last: u16::MAX,
    })
}
