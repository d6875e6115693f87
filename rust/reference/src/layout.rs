//! Sizes of the lent memory and how the area divides into slots (01, "Memory the
//! caller lends").

use std::ops::RangeInclusive;

/// How many slots an area may have (N).
pub const SLOTS: RangeInclusive<u32> = 4..=32;
/// The most slots: a record has a number for each of them.
pub const MOST_SLOTS: usize = 32;
/// How many bytes a slot may have (S).
pub const SLOT_BYTES: RangeInclusive<u32> = 256..=2048;
/// How many cells an index may have (M).
pub const CELLS: RangeInclusive<u32> = 16..=4096;
/// The longest area.
pub const MAX_AREA_BYTES: usize = 32 * 2048;

/// Whether N and S are within their limits and the area is exactly N × S long.
#[inline]
pub fn geometry_holds(slots: u32, slot_bytes: u32, area_bytes: usize) -> bool {
    SLOTS.contains(&slots)
        && SLOT_BYTES.contains(&slot_bytes)
        && area_bytes == (slots * slot_bytes) as usize
}

/// Whether an index of this length is within the limits of M.
#[inline]
pub fn index_holds(cells: usize) -> bool {
    cells >= *CELLS.start() as usize && cells <= *CELLS.end() as usize
}

/// The S bytes of one slot. A slot that the area does not have is empty.
#[inline]
pub fn segment(area: &[u8], slot_bytes: u32, slot: u32) -> &[u8] {
    let length = slot_bytes as usize;
    let start = slot as usize * length;
    area.get(start..start + length).unwrap_or(&[])
}
