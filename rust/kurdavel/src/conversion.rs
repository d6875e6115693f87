//! A whole area from one edition to the other.

use crate::refusal::Refusal;
use crate::slices;

/// Rewrites the log of an area in the other edition into a second area of the same geometry: an area of the first edition
/// becomes one of the second, and one of the second becomes one of the first. Log slots, order of entries, versions, values
/// and the fields of the digests are the same; every other byte is 0.
///
/// An area that recovery refuses is refused with the same cause, but not for its number of keys. So is one whose entries have
/// no room in the other edition, or whose versions it does not have. The second area stays as it was then.
///
/// The second area is not to be that of a store in use, nor its work buffer: like a format, a conversion is no operation
/// whose cut a recovery makes up for.
///
/// ```
/// use kurdavel::{convert, recover, scan_read, scan_read_value, Edition, Key, Refusal, Tables};
/// let (mut first, mut second, mut back) = ([0; 1024], [0xff; 1024], [0xff; 1024]);
/// kurdavel::format(4, 256, Edition::First, &mut first)?;
/// # let (mut index, mut work) = ([0; 16], [0; 256]);
/// let key = Key { table: 1, key: 2 };
/// let mut record = recover(4, 256, &[0, 1, 2, 3], &first, &mut index)?;
/// record.write(&first, &index, &mut work, Tables::ALL, key, &[7; 24])?;
/// while record.left() > 0 {
///     record.step(&mut first, &mut index, &work)?;
/// }
///
/// // Up: the kind is another, and all else is told as before.
/// convert(4, 256, &first, &mut second)?;
/// let found = scan_read(4, 256, &second, Tables::ALL, key)?;
/// assert_eq!((found.version.0, found.kind), (1, 10));
/// assert_eq!(scan_read_value(4, 256, &second, Tables::ALL, key), &[7; 24]);
///
/// // Down again: the same log.
/// convert(4, 256, &second, &mut back)?;
/// assert_eq!(back, first);
///
/// // The first edition has no next version above 32 bits.
/// second[13] = 1;
/// assert_eq!(convert(4, 256, &second, &mut back), Err(Refusal::VersionTooWide));
/// assert_eq!(back, first);
/// # Ok::<(), Refusal>(())
/// ```
#[inline]
pub fn convert(
    slots: u32,
    slot_bytes: u32,
    source: &[u8],
    target: &mut [u8],
) -> Result<(), Refusal> {
    Refusal::unless_accepted(slices::convert(slots, slot_bytes, source, target))
}
