//! Format, and the starts of write and delete (01, "Operations, store by store"; 02, R-1, R-2,
//!
//!
//! Calls are compiled for two editions: `H`, that of the head, whose limits the record keeps and
//! whose entries an append lays down, and `E`, that of the next new head.

use crate::cleaning::forget;
use crate::counters::{DigestNumber, Version};
use crate::edition::{by_editions, Edition, Fixed, END};
use crate::index::{object_at, search, Search};
use crate::layout::geometry_holds;
use crate::record::{Pending, Record};
use crate::refusal::Refusal;
use crate::rules::{AsWritten, Rules};
use crate::segment::{lay_entry, Digest, Key};
use crate::slot_map::SlotMap;
use crate::step::{append_stores, new_head_stores};
use crate::tables::Tables;

/// The answer of a start: the record, changed only if the start was accepted, and how
/// many stores are to come or the refusal.
pub type Started = (Record, Result<u32, Refusal>);

/// Lays down an empty store of an edition: no slot has a digest but slot 0, which holds nothing
/// else.
pub fn format(
    slots: u32,
    slot_bytes: u32,
    edition: Edition,
    area: &mut [u8],
) -> Result<(), Refusal> {
    if !geometry_holds(slots, slot_bytes, area.len()) {
        return Err(Refusal::Geometry);
    }
    let layout = edition.layout().ok_or(Refusal::Geometry)?;
    for segment in area.chunks_exact_mut(slot_bytes as usize) {
        segment[0] = END;
    }
    let digest = Digest {
        layout,
        number: DigestNumber::FIRST,
        map: SlotMap::EMPTY.with(0),
        next: Version(1),
    };
    let end = digest.lay(area);
    area[end] = END;
    Ok(())
}

/// Starts to write a value under a key.
pub fn write(
    record: Record,
    area: &[u8],
    index: &[u32],
    work: &mut [u8],
    tables: Tables,
    key: Key,
    value: &[u8],
) -> Started {
    write_by::<AsWritten>(record, area, index, work, tables, key, None, value)
}

/// Starts to write a value under a key that has the expected version: [`Version::NONE`] if
/// it is absent. The operation is the same as that of [`write()`].
#[allow(clippy::too_many_arguments)]
pub fn write_expecting(
    record: Record,
    area: &[u8],
    index: &[u32],
    work: &mut [u8],
    tables: Tables,
    key: Key,
    expected: Version,
    value: &[u8],
) -> Started {
    write_by::<AsWritten>(
        record,
        area,
        index,
        work,
        tables,
        key,
        Some(expected),
        value,
    )
}

/// [`write()`], or [`write_expecting`] where a version is expected, by chosen rules.
#[allow(clippy::too_many_arguments)]
pub fn write_by<R: Rules>(
    record: Record,
    area: &[u8],
    index: &[u32],
    work: &mut [u8],
    tables: Tables,
    key: Key,
    expected: Option<Version>,
    value: &[u8],
) -> Started {
    let pending = by_editions!(record, H, E => {
        check_write::<H, E, R>(&record, area, index, work, tables, key, expected, value)
            .map(|room| lay::<H, E, R>(&record, work, room, key, value))
    });
    hand_back(record, pending)
}

/// Starts to delete a key.
pub fn delete(
    record: Record,
    area: &[u8],
    index: &[u32],
    work: &mut [u8],
    tables: Tables,
    key: Key,
) -> Started {
    delete_by::<AsWritten>(record, area, index, work, tables, key)
}

/// [`delete`] by chosen rules.
pub fn delete_by<R: Rules>(
    record: Record,
    area: &[u8],
    index: &[u32],
    work: &mut [u8],
    tables: Tables,
    key: Key,
) -> Started {
    let pending = by_editions!(
        record,
        H, E => start_delete::<H, E, R>(&record, area, index, work, tables, key)
    );
    hand_back(record, pending)
}

/// A delete with its checks. Where a write would meet 12, the slot with the live object is cleaned.
fn start_delete<H: Fixed, E: Fixed, R: Rules>(
    record: &Record,
    area: &[u8],
    index: &[u32],
    work: &mut [u8],
    tables: Tables,
    key: Key,
) -> Result<Pending, Refusal> {
    let live = check_delete::<H, E>(record, area, index, work, tables, key)?;
    match find_room::<H, R>(record, 0) {
        Ok(room) => Ok(lay::<H, E, R>(record, work, room, key, &[])),
        Err(Refusal::SlotsFull) => forget::<E, R>(record, area, index, work, live),
        Err(refusal) => Err(refusal),
    }
}

/// Puts the pending operation into the record, or hands back the refusal.
pub(crate) fn hand_back(record: Record, pending: Result<Pending, Refusal>) -> Started {
    match pending {
        Ok(pending) => (Record { pending, ..record }, Ok(pending.left())),
        Err(refusal) => (record, Err(refusal)),
    }
}

/// Where an entry will go.
enum Room {
    /// At the end of the head.
    Head,
    /// Into a new head in this slot.
    NewHead(u32),
}

/// The checks of a write in 02's order; gives the object's room. The key is looked for only where
/// the answer depends on it.
#[allow(clippy::too_many_arguments)]
fn check_write<H: Fixed, E: Fixed, R: Rules>(
    record: &Record,
    area: &[u8],
    index: &[u32],
    work: &[u8],
    tables: Tables,
    key: Key,
    expected: Option<Version>,
    value: &[u8],
) -> Result<Room, Refusal> {
    record.check_start_on::<H>(area, index, work, tables, key)?;
    if E::LAYOUT.object_kind(value.len()).is_none() {
        return Err(Refusal::ValueLength);
    }
    let full = record.keys == record.cells - 1;
    let found = (full || expected.is_some()).then(|| search(area, index, key));
    if let (Some(expected), Some(found)) = (expected, found) {
        check_expected(area, found, expected)?;
    }
    if record.has_no_version::<E>() {
        return Err(Refusal::VersionsSpent);
    }
    match found {
        Some(Search::Free { .. }) if full => return Err(Refusal::KeysFull),
        Some(Search::Broken) => return Err(Refusal::Record),
        _ => {}
    }
    find_room::<H, R>(record, value.len())
}

/// Refuses with 21 unless the key that was looked for has the expected version.
fn check_expected(area: &[u8], found: Search, expected: Version) -> Result<(), Refusal> {
    let object = object_at(area, found)?;
    let version = object.map_or(Version::NONE, |(_, fields)| fields.version);
    if version == expected {
        Ok(())
    } else {
        Err(Refusal::OtherVersion)
    }
}

/// The checks of a delete in 02's order, but for 12 and 10; gives the place of the live object.
fn check_delete<H: Fixed, E: Fixed>(
    record: &Record,
    area: &[u8],
    index: &[u32],
    work: &[u8],
    tables: Tables,
    key: Key,
) -> Result<usize, Refusal> {
    record.check_start_on::<H>(area, index, work, tables, key)?;
    let object = object_at(area, search(area, index, key))?;
    let (live, _) = object.ok_or(Refusal::Absent)?;
    if record.has_no_version::<E>() {
        return Err(Refusal::VersionsSpent);
    }
    Ok(live)
}

/// Room for an entry with so many value bytes: the head if it fits there and the head's edition has
/// its version, else a new head, which 12 and 10 may refuse. A new head for an entry leaves a slot
/// free for cleaning.
fn find_room<H: Fixed, R: Rules>(record: &Record, value_bytes: usize) -> Result<Room, Refusal> {
    let end = record.end as usize + H::LAYOUT.tombstone_bytes() + value_bytes;
    let has_version = R::APPEND_PAST_VERSIONS || !record.has_no_version::<H>();
    if end <= record.slot_bytes as usize && has_version {
        return Ok(Room::Head);
    }
    if record.free_slots() < 2 {
        return Err(Refusal::SlotsFull);
    }
    record.new_head_slot().map(Room::NewHead)
}

/// Fills the work buffer with the entry, after a digest if there is a new head.
fn lay<H: Fixed, E: Fixed, R: Rules>(
    record: &Record,
    work: &mut [u8],
    room: Room,
    key: Key,
    value: &[u8],
) -> Pending {
    match room {
        Room::Head => {
            let length = lay_next::<H>(record, work, 0, key, value);
            Pending::Append {
                length,
                left: append_stores::<R>(record, length),
            }
        }
        Room::NewHead(slot) => {
            let start = lay_digest::<E>(record, work, slot, SlotMap::EMPTY, record.next);
            let length = lay_next::<E>(record, work, start, key, value);
            Pending::NewHead {
                slot,
                length,
                left: new_head_stores::<R>(record, length),
            }
        }
    }
}

/// Lays an entry with the next version into the work buffer and gives where it ends.
#[inline]
fn lay_next<L: Fixed>(
    record: &Record,
    work: &mut [u8],
    start: usize,
    key: Key,
    value: &[u8],
) -> u32 {
    let layout = &L::LAYOUT;
    let kind = layout.entry_kind(value.len());
    let end = start + layout.tombstone_bytes() + value.len();
    lay_entry(layout, &mut work[start..end], kind, key, record.next, value);
    end as u32
}

/// Lays the digest of a new head with this next version into the work buffer and gives its
/// length. The record has a digest number to spare.
pub(crate) fn lay_digest<E: Fixed>(
    record: &Record,
    work: &mut [u8],
    slot: u32,
    victims: SlotMap,
    next: Version,
) -> usize {
    let digest = Digest {
        layout: &E::LAYOUT,
        number: DigestNumber(record.digest.0 + 1),
        map: record.map.without(victims).with(slot),
        next,
    };
    digest.lay(work)
}
