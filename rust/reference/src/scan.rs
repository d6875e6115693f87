//! A read that scans the log and uses no index (02, R-9).

use crate::layout::geometry_holds;
use crate::read::Found;
use crate::recovery::{checked_head, survey, Visit};
use crate::refusal::Refusal;
use crate::rules::AsWritten;
use crate::segment::{Fields, Key};
use crate::slot_map::SlotMap;
use crate::tables::Tables;

/// Tells version and kind of a key's object by the area alone. Refuses with 1, 16, 17, 24, 25, 28,
/// 18 and 19 as recovery does, then with 22 and 8.
pub fn scan_read(
    slots: u32,
    slot_bytes: u32,
    area: &[u8],
    tables: Tables,
    key: Key,
) -> Result<Found, Refusal> {
    let (_, fields) = scan(slots, slot_bytes, area, tables, key)?;
    Ok(Found {
        version: fields.version,
        kind: fields.kind,
    })
}

/// The value of a key's object as a part of the area: an empty one, at the area's start, where
/// [`scan_read`] is refused.
pub fn scan_read_value(
    slots: u32,
    slot_bytes: u32,
    area: &[u8],
    tables: Tables,
    key: Key,
) -> &[u8] {
    match scan(slots, slot_bytes, area, tables, key) {
        Ok((place, fields)) => &area[place + fields.value..place + fields.length],
        Err(_) => &area[..0],
    }
}

/// Place and fields of the key's newest entry, which is an object.
fn scan(
    slots: u32,
    slot_bytes: u32,
    area: &[u8],
    tables: Tables,
    key: Key,
) -> Result<(usize, Fields), Refusal> {
    if !geometry_holds(slots, slot_bytes, area.len()) {
        return Err(Refusal::Geometry);
    }
    let (head, digest) = checked_head::<AsWritten>(slots, slot_bytes, area)?;
    let newest = newest(slot_bytes, area, head, digest.map, key)?;
    tables.check(key)?;
    newest
        .filter(|(_, fields)| !fields.is_tombstone())
        .ok_or(Refusal::Absent)
}

/// Place and fields of the key's newest entry, if it has one in the log; or 18 or 19.
fn newest(
    slot_bytes: u32,
    area: &[u8],
    head: u32,
    map: SlotMap,
    key: Key,
) -> Result<Option<(usize, Fields)>, Refusal> {
    let mut newest = Newest { key, found: None };
    survey(slot_bytes, area, map.slots(), head, &mut newest)?;
    Ok(newest.found)
}

/// The newest entry of a key among those visited so far.
struct Newest {
    key: Key,
    found: Option<(usize, Fields)>,
}

impl Visit for Newest {
    #[inline(always)]
    fn visit(&mut self, place: usize, fields: &Fields) {
        let known = self.found;
        let newer = known.is_none_or(|(_, known)| known.version < fields.version);
        if fields.key == self.key && newer {
            self.found = Some((place, *fields));
        }
    }
}
