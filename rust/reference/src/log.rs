//! Walking the entries of the log (01, "The log and its map"; 02, R-13), each slot in its own
//! edition.
//!
//! The walks are macros: what they do with an entry is written out for each edition, and compiled
//! with its numbers.

use crate::edition::Fixed;
use crate::refusal::Refusal;
use crate::segment::{read_entry, Entry, Fields};

/// Visits the objects and tombstones of one segment of an edition by ascending offset, each with its
/// place in the area if the segment starts there, and gives the offset at which they end. Damage
/// stops the walk with the given refusal.
#[inline(always)]
pub(crate) fn walk_entries<E: Fixed>(
    segment: &[u8],
    start: usize,
    damage: Refusal,
    mut visit: impl FnMut(usize, Fields) -> Result<(), Refusal>,
) -> Result<usize, Refusal> {
    let mut offset = E::LAYOUT.digest_bytes();
    loop {
        match read_entry(&E::LAYOUT, segment, offset) {
            Entry::Object(fields) | Entry::Tombstone(fields) => {
                visit(start + offset, fields)?;
                offset += fields.length;
            }
            Entry::End => return Ok(offset),
            Entry::Damage => return Err(damage),
        }
    }
}

/// The same of a segment of either edition. One without a digest, which no log has, is damage. The
/// visitor must not mean a type of its own by `OfSlot`, the edition that it is compiled for.
macro_rules! walk_segment {
    ($segment:expr, $start:expr, $damage:expr, $visit:expr) => {
        match $crate::edition::Edition::of_segment($segment) {
            None => Err($damage),
            Some(edition) => $crate::edition::by_edition!(edition, OfSlot => {
                $crate::log::walk_entries::<OfSlot>($segment, $start, $damage, $visit)
            }),
        }
    };
}
pub(crate) use walk_segment;

/// Visits the entries of several slots in the order given, each with its place in the area.
macro_rules! walk {
    ($area:expr, $slot_bytes:expr, $slots:expr, $damage:expr, $visit:expr) => {{
        let mut walked: Result<(), Refusal> = Ok(());
        for slot in $slots {
            let bytes = $crate::layout::segment($area, $slot_bytes, slot);
            let start = (slot * $slot_bytes) as usize;
            let stop = $crate::log::walk_segment!(bytes, start, $damage, $visit);
            if let Err(refusal) = stop {
                walked = Err(refusal);
                break;
            }
        }
        walked
    }};
}
pub(crate) use walk;
