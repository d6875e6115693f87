//! The calls over plain slices and numbers, for a firmware that keeps its record as words.
//!
//! Each answers 0 or the number of a refusal, as `include/kurdavel.h` says, and is safe with any arguments: the library
//! is proved to stay within what it is lent, to change only what it is lent to change, and to end.
//!
//! A refused call leaves the numbers that it would tell as they were, but [`read`], [`read_value`], [`scan_read`],
//! [`scan_read_value`], [`next_store`], [`fewest`] and [`join`] make them 0, and [`from_float`] and [`to_float`] all eight
//! bytes.
//!
//! `first` and `last` are the tables that the caller may use, both included.
//!
//! This is the only module with `unsafe` code. What the library asks of its pointers is, in every call here, what Rust
//! already knows of the references that they come from: valid for the length that goes with them, not null, aligned,
//! and unlike every other one that the call may write through.

#![allow(unsafe_code)]

use crate::library::*;

/// Makes an area an empty store of an edition. An edition other than 1 and 2 is refused with 1.
///
/// ```
/// use kurdavel::slices;
/// let mut area = [0xff; 1024];
/// assert_eq!(slices::format(4, 256, 3, &mut area), 1);
/// assert_eq!(area, [0xff; 1024]);
/// assert_eq!(slices::format(4, 256, 2, &mut area), 0);
/// ```
#[inline]
pub fn format(slots: u32, slot_bytes: u32, edition: u32, area: &mut [u8]) -> u32 {
    // SAFETY: the pointer and length are those of one exclusive slice.
    unsafe { kurdavel_format(slots, slot_bytes, edition, area.as_mut_ptr(), area.len()) }
}

/// Reads the log of an area, in the order given, and makes its record and index.
///
/// A record of too few words is answered with 4 before anything else is looked at. That cause is this interface's:
/// recovery itself takes no record, and otherwise begins with 1.
///
/// ```
/// use kurdavel::{slices, WORDS};
/// let (area, mut index) = ([0; 1024], [0; 16]);
/// let mut words = [0; WORDS];
/// assert_eq!(slices::recover(3, 256, &[], &area, &mut index, &mut words[1..]), 4);
/// assert_eq!(slices::recover(3, 256, &[], &area, &mut index, &mut words), 1);
/// ```
#[inline]
pub fn recover(
    slots: u32,
    slot_bytes: u32,
    order: &[u8],
    area: &[u8],
    index: &mut [u32],
    record: &mut [u32],
) -> u32 {
    // SAFETY: each pointer and length are those of one slice; the two written to are exclusive.
    unsafe {
        kurdavel_recover(
            slots,
            slot_bytes,
            order.as_ptr(),
            order.len(),
            area.as_ptr(),
            area.len(),
            index.as_mut_ptr(),
            index.len(),
            record.as_mut_ptr(),
            record.len(),
        )
    }
}

/// Tells version and kind of a key's object; both are 0 where the call is refused.
#[inline]
#[allow(clippy::too_many_arguments)]
pub fn read(
    record: &[u32],
    area: &[u8],
    index: &[u32],
    first: u16,
    last: u16,
    table: u16,
    key: u32,
    version: &mut u64,
    kind: &mut u32,
) -> u32 {
    // SAFETY: each pointer and length are those of one slice; `version` and `kind` are exclusive.
    unsafe {
        kurdavel_read(
            record.as_ptr(),
            record.len(),
            area.as_ptr(),
            area.len(),
            index.as_ptr(),
            index.len(),
            first,
            last,
            table,
            key,
            version,
            kind,
        )
    }
}

/// Tells place and length of the value of a key's object; both are 0 where the call is refused.
#[inline]
#[allow(clippy::too_many_arguments)]
pub fn read_value(
    record: &[u32],
    area: &[u8],
    index: &[u32],
    first: u16,
    last: u16,
    table: u16,
    key: u32,
    place: &mut u32,
    bytes: &mut u32,
) -> u32 {
    // SAFETY: each pointer and length are those of one slice; `place` and `bytes` are exclusive.
    unsafe {
        kurdavel_read_value(
            record.as_ptr(),
            record.len(),
            area.as_ptr(),
            area.len(),
            index.as_ptr(),
            index.len(),
            first,
            last,
            table,
            key,
            place,
            bytes,
        )
    }
}

/// Starts to write a value under a key; tells the stores to come.
#[inline]
#[allow(clippy::too_many_arguments)]
pub fn write(
    record: &mut [u32],
    area: &[u8],
    index: &[u32],
    work: &mut [u8],
    first: u16,
    last: u16,
    table: u16,
    key: u32,
    value: &[u8],
    stores: &mut u32,
) -> u32 {
    // SAFETY: each pointer and length are those of one slice; `record`, `work` and `stores` are exclusive.
    unsafe {
        kurdavel_write(
            record.as_mut_ptr(),
            record.len(),
            area.as_ptr(),
            area.len(),
            index.as_ptr(),
            index.len(),
            work.as_mut_ptr(),
            work.len(),
            first,
            last,
            table,
            key,
            value.as_ptr(),
            value.len(),
            stores,
        )
    }
}

/// Starts to write a value under a key that has the expected version, 0 if it is absent; tells the stores to come.
#[inline]
#[allow(clippy::too_many_arguments)]
pub fn write_expecting(
    record: &mut [u32],
    area: &[u8],
    index: &[u32],
    work: &mut [u8],
    first: u16,
    last: u16,
    table: u16,
    key: u32,
    expected: u64,
    value: &[u8],
    stores: &mut u32,
) -> u32 {
    // SAFETY: each pointer and length are those of one slice; `record`, `work` and `stores` are exclusive.
    unsafe {
        kurdavel_write_expecting(
            record.as_mut_ptr(),
            record.len(),
            area.as_ptr(),
            area.len(),
            index.as_ptr(),
            index.len(),
            work.as_mut_ptr(),
            work.len(),
            first,
            last,
            table,
            key,
            expected,
            value.as_ptr(),
            value.len(),
            stores,
        )
    }
}

/// Starts to delete a key; tells the stores to come.
#[inline]
#[allow(clippy::too_many_arguments)]
pub fn delete(
    record: &mut [u32],
    area: &[u8],
    index: &[u32],
    work: &mut [u8],
    first: u16,
    last: u16,
    table: u16,
    key: u32,
    stores: &mut u32,
) -> u32 {
    // SAFETY: each pointer and length are those of one slice; `record`, `work` and `stores` are exclusive.
    unsafe {
        kurdavel_delete(
            record.as_mut_ptr(),
            record.len(),
            area.as_ptr(),
            area.len(),
            index.as_ptr(),
            index.len(),
            work.as_mut_ptr(),
            work.len(),
            first,
            last,
            table,
            key,
            stores,
        )
    }
}

/// Starts to clean the slots of a map; tells the stores to come.
#[inline]
pub fn clean(
    record: &mut [u32],
    area: &[u8],
    index: &[u32],
    work: &mut [u8],
    victims: u32,
    stores: &mut u32,
) -> u32 {
    // SAFETY: each pointer and length are those of one slice; `record`, `work` and `stores` are exclusive.
    unsafe {
        kurdavel_clean(
            record.as_mut_ptr(),
            record.len(),
            area.as_ptr(),
            area.len(),
            index.as_ptr(),
            index.len(),
            work.as_mut_ptr(),
            work.len(),
            victims,
            stores,
        )
    }
}

/// Makes one store of the pending operation; tells the stores left, and the version after the last. The record is kept
/// in place: the call updates its words.
#[inline]
pub fn step(
    record: &mut [u32],
    area: &mut [u8],
    index: &mut [u32],
    work: &[u8],
    left: &mut u32,
    version: &mut u64,
) -> u32 {
    // SAFETY: each pointer and length are those of one slice; all but `work` are exclusive.
    unsafe {
        kurdavel_step(
            record.as_mut_ptr(),
            record.len(),
            area.as_mut_ptr(),
            area.len(),
            index.as_mut_ptr(),
            index.len(),
            work.as_ptr(),
            work.len(),
            left,
            version,
        )
    }
}

/// Tells place and byte of the store that the next step makes; both are 0 where the call is refused.
#[inline]
pub fn next_store(
    record: &[u32],
    area: &[u8],
    work: &[u8],
    place: &mut u32,
    byte: &mut u32,
) -> u32 {
    // SAFETY: each pointer and length are those of one slice; `place` and `byte` are exclusive.
    unsafe {
        kurdavel_next_store(
            record.as_ptr(),
            record.len(),
            area.as_ptr(),
            area.len(),
            work.as_ptr(),
            work.len(),
            place,
            byte,
        )
    }
}

/// Tells the slot of the log with the fewest bytes of present objects, the lowest of several; 0 where the call is refused.
#[inline]
pub fn fewest(record: &[u32], slot: &mut u32) -> u32 {
    // SAFETY: the pointer and length are those of one slice; `slot` is exclusive.
    unsafe { kurdavel_fewest(record.as_ptr(), record.len(), slot) }
}

/// Switches a store to the second edition. The record is kept in place: the call updates its words.
///
/// ```
/// use kurdavel::{slices, WORDS};
/// let (mut area, mut index, mut words) = ([0; 1024], [0; 16], [0; WORDS]);
/// assert_eq!(slices::switch(&mut words), 4);
/// slices::format(4, 256, 1, &mut area);
/// slices::recover(4, 256, &[0, 1, 2, 3], &area, &mut index, &mut words);
/// assert_eq!(slices::switch(&mut words[..WORDS - 1]), 4);
/// assert_eq!(slices::switch(&mut words), 0);
/// assert_eq!(words[10..12], [1, 1]);
/// ```
#[inline]
pub fn switch(record: &mut [u32]) -> u32 {
    // SAFETY: the pointer and length are those of one exclusive slice.
    unsafe { kurdavel_switch(record.as_mut_ptr(), record.len()) }
}

/// Tells the lowest two slots of the log whose kept entries fit one new head; both are 0 where the call is refused.
#[inline]
pub fn join(record: &[u32], area: &[u8], index: &[u32], first: &mut u32, second: &mut u32) -> u32 {
    // SAFETY: each pointer and length are those of one slice; `first` and `second` are exclusive.
    unsafe {
        kurdavel_join(
            record.as_ptr(),
            record.len(),
            area.as_ptr(),
            area.len(),
            index.as_ptr(),
            index.len(),
            first,
            second,
        )
    }
}

/// Tells version and kind of a key's object by a scan of the log; both are 0 where the call is refused.
#[inline]
#[allow(clippy::too_many_arguments)]
pub fn scan_read(
    slots: u32,
    slot_bytes: u32,
    area: &[u8],
    first: u16,
    last: u16,
    table: u16,
    key: u32,
    version: &mut u64,
    kind: &mut u32,
) -> u32 {
    // SAFETY: the pointer and length are those of one slice; `version` and `kind` are exclusive.
    unsafe {
        kurdavel_scan_read(
            slots,
            slot_bytes,
            area.as_ptr(),
            area.len(),
            first,
            last,
            table,
            key,
            version,
            kind,
        )
    }
}

/// Tells place and length of the value of a key's object by a scan of the log; both are 0 where the call is refused.
#[inline]
#[allow(clippy::too_many_arguments)]
pub fn scan_read_value(
    slots: u32,
    slot_bytes: u32,
    area: &[u8],
    first: u16,
    last: u16,
    table: u16,
    key: u32,
    place: &mut u32,
    bytes: &mut u32,
) -> u32 {
    // SAFETY: the pointer and length are those of one slice; `place` and `bytes` are exclusive.
    unsafe {
        kurdavel_scan_read_value(
            slots,
            slot_bytes,
            area.as_ptr(),
            area.len(),
            first,
            last,
            table,
            key,
            place,
            bytes,
        )
    }
}

/// Rewrites the log of an area in the other edition into a second area, which is 0 everywhere else; the second area stays as
/// it was where the call is refused.
///
/// ```
/// use kurdavel::slices;
/// let (mut area, mut converted) = ([0; 1024], [0xff; 1024]);
/// assert_eq!(slices::format(4, 256, 1, &mut area), 0);
/// assert_eq!(slices::convert(4, 256, &area, &mut converted[1..]), 1);
/// assert_eq!(converted, [0xff; 1024]);
/// assert_eq!(slices::convert(4, 256, &area, &mut converted), 0);
/// assert_eq!(converted[..18], [8, 1, 0, 0, 0, 1, 0, 0, 0, 1, 0, 0, 0, 0, 0, 0, 0, 0]);
/// ```
#[inline]
pub fn convert(slots: u32, slot_bytes: u32, source: &[u8], target: &mut [u8]) -> u32 {
    // SAFETY: each pointer and length are those of one slice; `target` is exclusive.
    unsafe {
        kurdavel_convert(
            slots,
            slot_bytes,
            source.as_ptr(),
            source.len(),
            target.as_mut_ptr(),
            target.len(),
        )
    }
}

/// Converts a value whose first four bytes are a position as a float into one that has it as a count; all 0 where the call
/// is refused.
#[inline]
pub fn from_float(value: &[u8], converted: &mut [u8; 8]) -> u32 {
    // SAFETY: the pointer and length are those of one slice; `converted` is exclusive and has eight bytes.
    unsafe { kurdavel_from_float(value.as_ptr(), value.len(), converted.as_mut_ptr()) }
}

/// The way back; all 0 where the call is refused.
#[inline]
pub fn to_float(value: &[u8], converted: &mut [u8; 8]) -> u32 {
    // SAFETY: the pointer and length are those of one slice; `converted` is exclusive and has eight bytes.
    unsafe { kurdavel_to_float(value.as_ptr(), value.len(), converted.as_mut_ptr()) }
}
