//! Read and the value read (01, "Read"; 02, R-2).

use crate::counters::Version;
use crate::edition::{by_edition, Fixed};
use crate::index::{object_at, search};
use crate::record::Record;
use crate::refusal::Refusal;
use crate::segment::{Fields, Key};
use crate::tables::Tables;

/// What a read tells of a present key besides its value.
#[derive(Clone, Copy, PartialEq, Eq, Debug)]
pub struct Found {
    /// The version.
    pub version: Version,
    /// The kind of the object.
    pub kind: u8,
}

/// Tells version and kind of a key's object, or refuses with 4, 22 or 8.
pub fn read(
    record: &Record,
    area: &[u8],
    index: &[u32],
    tables: Tables,
    key: Key,
) -> Result<Found, Refusal> {
    let found = by_edition!(record.edition, E => find::<E>(record, area, index, tables, key));
    let (_, fields) = found?;
    Ok(Found {
        version: fields.version,
        kind: fields.kind,
    })
}

/// The value of a key's object as a part of the area: an empty one, at the area's start,
/// where [`read`] is refused.
pub fn read_value<'a>(
    record: &Record,
    area: &'a [u8],
    index: &[u32],
    tables: Tables,
    key: Key,
) -> &'a [u8] {
    match by_edition!(record.edition, E => find::<E>(record, area, index, tables, key)) {
        Ok((place, fields)) => &area[place + fields.value..place + fields.length],
        Err(_) => &area[..0],
    }
}

/// The object that a key's cell leads to.
#[inline(always)]
fn find<E: Fixed>(
    record: &Record,
    area: &[u8],
    index: &[u32],
    tables: Tables,
    key: Key,
) -> Result<(usize, Fields), Refusal> {
    record.check::<E>(area, index)?;
    tables.check(key)?;
    object_at(area, search(area, index, key))?.ok_or(Refusal::Absent)
}
