//! Versions chosen against the search for equal versions at recovery, as crates/drive_log has it in filter.rt, table.rt and marks.rt.
//!
//! The search has a filter with a bit for each version modulo 2^14. A version whose bit is set already is a suspect and
//! goes to a table. When the table is full, one walk over the log looks at all suspects, and the table is emptied. In that
//! walk an entry is searched for among the suspects if its mark is set: a bit that the highest 11 bits of a product with an
//! odd number name, that of the sum of its version's two halves. The high one is 0 here. A change of the filter's size or of
//! the product needs one here.

use crate::image::TOMBSTONES;
use crate::store::LOG;

/// As many versions as a full area has entries at the most, and one for the entry that no longer fits.
const VERSIONS: usize = LOG * TOMBSTONES + 1;

/// Versions in steps of a power of two. After the last that fits 32 bits they go on one above the first.
pub fn in_steps(power: u32) -> Vec<u32> {
    (1..)
        .flat_map(|first| row(power, first))
        .take(VERSIONS)
        .collect()
}

/// Versions of which all but a few find their bit set, and all of which have the same mark. No versions need more work: each
/// is a suspect, and each walk searches for every entry.
pub fn meeting() -> Vec<u32> {
    (1..)
        .flat_map(|first| row(14, first))
        .filter(|&version| mark(version) == 0)
        .take(VERSIONS)
        .collect()
}

/// The versions from `first` on in steps of a power of two.
fn row(power: u32, first: u32) -> impl Iterator<Item = u32> {
    (0..1u32 << (32 - power)).map(move |step| (step << power) + first)
}

/// The mark of a suspect.
fn mark(version: u32) -> u32 {
    version.wrapping_mul(2_654_435_761) >> 21
}
