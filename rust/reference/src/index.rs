//! The index (01, "Index"): cells that lead to each key's newest entry.

use std::collections::{HashMap, HashSet};

use crate::counters::Version;
use crate::edition::{Layout, VERSION};
use crate::layout::{geometry_holds, index_holds, segment};
use crate::log::{walk, walk_segment};
use crate::refusal::Refusal;
use crate::segment::{read_entry, Entry, Fields, Key};
use crate::slot_map::SlotMap;

/// Where the search for a key ended.
#[derive(Clone, Copy, PartialEq, Eq, Debug)]
pub(crate) enum Search {
    /// At the key's cell, which leads to a place in the area.
    Found { cell: usize, place: usize },
    /// At a cell that is 0: the key has no entry.
    Free { cell: usize },
    /// Nowhere: a cell leads out of the area, or no cell is 0.
    Broken,
}

/// The cell at which the search for a key starts.
#[inline]
fn home(key: Key, cells: usize) -> usize {
    let hash = key.hash() as usize;
    if cells.is_power_of_two() {
        hash & (cells - 1)
    } else {
        (hash as u32 % cells as u32) as usize
    }
}

/// The bytes up to the version of the entry that a cell other than 0 leads to.
#[inline]
fn entry_of(area: &[u8], mark: u32) -> Option<&[u8; VERSION]> {
    area.get(mark as usize - 1..)?.first_chunk()
}

/// Looks for a key's cell. The index has at least one cell.
#[inline]
pub(crate) fn search(area: &[u8], index: &[u32], key: Key) -> Search {
    let mut cell = home(key, index.len());
    for _ in 0..index.len() {
        let mark = index[cell];
        if mark == 0 {
            return Search::Free { cell };
        }
        match entry_of(area, mark) {
            None => return Search::Broken,
            Some(entry) if Key::of_entry(entry) == key => {
                let place = mark as usize - 1;
                return Search::Found { cell, place };
            }
            Some(_) => {}
        }
        cell += 1;
        if cell == index.len() {
            cell = 0;
        }
    }
    Search::Broken
}

/// Place and fields of the object that a search came to, of either edition; none if the key is
/// absent. Refuses with 4 what no log leads to.
#[inline]
pub(crate) fn object_at(area: &[u8], found: Search) -> Result<Option<(usize, Fields)>, Refusal> {
    match found {
        Search::Found { place, .. } => {
            match read_entry(Layout::of_entry(area[place]), area, place) {
                Entry::Object(fields) => Ok(Some((place, fields))),
                Entry::Tombstone(_) => Ok(None),
                Entry::End | Entry::Damage => Err(Refusal::Record),
            }
        }
        Search::Free { .. } => Ok(None),
        Search::Broken => Err(Refusal::Record),
    }
}

/// What an entry meets in the index.
#[derive(Clone, Copy, PartialEq, Eq, Debug)]
pub(crate) enum Entered {
    /// Its key is new.
    New,
    /// It is newer than the one at this place, which its key's cell led to so far.
    Displacing(usize),
    /// The cell leads to a newer one, and stays.
    Older,
}

/// Leads the key's cell to an entry that is newer than all others of the key. Refuses with 4 if
/// the index is broken.
#[inline]
pub(crate) fn point_to(
    area: &[u8],
    index: &mut [u32],
    key: Key,
    place: usize,
) -> Result<Entered, Refusal> {
    let (cell, entered) = match search(area, index, key) {
        Search::Found { cell, place } => (cell, Entered::Displacing(place)),
        Search::Free { cell } => (cell, Entered::New),
        Search::Broken => return Err(Refusal::Record),
    };
    index[cell] = place as u32 + 1;
    Ok(entered)
}

/// Fills the index from the entries of the given slots and counts the keys; tells `entered` of
/// each entry, by its slot and place. Refuses with 20 if there are more than M - 1 keys; the
/// index is then all 0.
pub(crate) fn rebuild(
    area: &[u8],
    slot_bytes: u32,
    slots: impl Iterator<Item = u32>,
    index: &mut [u32],
    damage: Refusal,
    mut entered: impl FnMut(u32, usize, Entered),
) -> Result<u32, Refusal> {
    index.fill(0);
    let mut keys = 0;
    let mut slots = slots;
    let built = slots.try_for_each(|slot| {
        let start = (slot * slot_bytes) as usize;
        let bytes = segment(area, slot_bytes, slot);
        walk_segment!(bytes, start, damage, |place, fields| {
            let met = enter(area, index, place, fields, keys)?;
            keys += u32::from(met == Entered::New);
            entered(slot, place, met);
            Ok(())
        })
        .map(|_| ())
    });
    if built.is_err() {
        index.fill(0);
    }
    built.map(|()| keys)
}

/// Brings one entry into an index that holds `keys` keys.
#[inline]
fn enter(
    area: &[u8],
    index: &mut [u32],
    place: usize,
    fields: Fields,
    keys: u32,
) -> Result<Entered, Refusal> {
    match search(area, index, fields.key) {
        Search::Found { cell, place: known } => {
            let layout = Layout::of_entry(area[known]);
            let version = area.get(known + VERSION..);
            let version = version.and_then(|bytes| layout.version_in(bytes));
            if version >= Some(fields.version) {
                return Ok(Entered::Older);
            }
            index[cell] = place as u32 + 1;
            Ok(Entered::Displacing(known))
        }
        Search::Free { .. } if keys as usize + 1 == index.len() => Err(Refusal::TooManyKeys),
        Search::Free { cell } => {
            index[cell] = place as u32 + 1;
            Ok(Entered::New)
        }
        Search::Broken => Err(Refusal::Record),
    }
}

/// Whether an index keeps 01's rule for the log of these slots, in any layout that the
/// rule allows.
///
/// Every cell other than 0 leads to the highest-version entry of a key, every key of
/// the log has one cell, and no 0 lies between the start of its search and that cell.
/// An area or index of a wrong size, or a damaged log, keeps no rule.
pub fn rule_holds(slots: u32, slot_bytes: u32, map: SlotMap, area: &[u8], index: &[u32]) -> bool {
    if !geometry_holds(slots, slot_bytes, area.len()) || !index_holds(index.len()) {
        return false;
    }
    let Some(newest) = newest_entries(slot_bytes, map, area) else {
        return false;
    };
    let keys: HashMap<u32, Key> = newest
        .iter()
        .map(|(&key, &(_, place))| (place as u32 + 1, key))
        .collect();
    let mut met = HashSet::new();
    let cells_lead_to_keys = index
        .iter()
        .enumerate()
        .filter(|&(_, &mark)| mark != 0)
        .all(|(cell, mark)| {
            keys.get(mark)
                .is_some_and(|&key| met.insert(key) && is_reached(index, key, cell))
        });
    cells_lead_to_keys && met.len() == keys.len()
}

/// Version and place of the newest entry of each key, or none if the log is damaged.
fn newest_entries(
    slot_bytes: u32,
    map: SlotMap,
    area: &[u8],
) -> Option<HashMap<Key, (Version, usize)>> {
    let mut newest: HashMap<Key, (Version, usize)> = HashMap::new();
    let walked = walk!(
        area,
        slot_bytes,
        map.slots(),
        Refusal::Entry,
        |place, fields| {
            let entry = (fields.version, place);
            let best = newest.entry(fields.key).or_insert(entry);
            *best = entry.max(*best);
            Ok(())
        }
    );
    walked.ok().map(|()| newest)
}

/// Whether the search for a key comes to a cell before it meets a 0.
fn is_reached(index: &[u32], key: Key, cell: usize) -> bool {
    let start = key.hash() as usize % index.len();
    let mut path = index.iter().cycle().skip(start);
    let steps = (cell + index.len() - start) % index.len();
    path.by_ref().take(steps).all(|&mark| mark != 0)
}
