//! The start of a cleaning (01, "Operations, store by store"), and of a delete that is done as
//! one (02, R-4). What is kept is rewritten in the edition of the new head (02, R-13).

use crate::counters::Version;
use crate::edition::{by_editions, Fixed, FIRST};
use crate::index::{search, Search};
use crate::layout::MAX_AREA_BYTES;
use crate::operations::{hand_back, lay_digest, Started};
use crate::record::{Pending, Record};
use crate::refusal::Refusal;
use crate::rules::{AsWritten, Rules};
use crate::segment::{lay_entry, lay_rewritten, Key};
use crate::slot_map::SlotMap;
use crate::step::new_head_stores;

/// Walks slots of the log; damage is a byte that no log holds.
macro_rules! walk_slots {
    ($record:expr, $area:expr, $slots:expr, $visit:expr) => {
        $crate::log::walk!(
            $area,
            $record.slot_bytes,
            $slots.slots(),
            Refusal::Record,
            $visit
        )
    };
}
pub(crate) use walk_slots;

/// Starts to move what is needed of the victims to a new head.
pub fn clean(
    record: Record,
    area: &[u8],
    index: &[u32],
    work: &mut [u8],
    victims: SlotMap,
) -> Started {
    clean_by::<AsWritten>(record, area, index, work, victims)
}

/// [`clean`] by chosen rules.
pub fn clean_by<R: Rules>(
    record: Record,
    area: &[u8],
    index: &[u32],
    work: &mut [u8],
    victims: SlotMap,
) -> Started {
    let pending =
        by_editions!(record, H, E => start::<H, E, R>(&record, area, index, work, victims));
    hand_back(record, pending)
}

/// The checks in 01's order, then digest and kept entries into the work buffer.
fn start<H: Fixed, E: Fixed, R: Rules>(
    record: &Record,
    area: &[u8],
    index: &[u32],
    work: &mut [u8],
    victims: SlotMap,
) -> Result<Pending, Refusal> {
    record.check::<H>(area, index)?;
    record.check_idle(work)?;
    if victims == SlotMap::EMPTY || !victims.is_within(record.map) {
        return Err(Refusal::Victims);
    }
    let mut choice = Choice::of_victims::<E, R>(record, area, index, victims, None)?;
    choice.keep_needed_tombstones::<E>(record, area, index, victims)?;
    if R::TOMBSTONE_GOES_WITH_NEWEST_OBJECT {
        choice.drop_by_newest_object::<E>(record, area, victims)?;
    }
    if !choice.fits::<E>(record) {
        return Err(Refusal::KeptLength);
    }
    let slot = record.new_head_slot()?;
    lay_digest::<E>(record, work, slot, victims, record.next);
    let length = copy_kept::<E, R>(record, area, work, victims, &choice)?;
    Ok(Pending::Clean {
        slot,
        length,
        victims,
        left: new_head_stores::<R>(record, length),
    })
}

/// Starts a delete of the key whose live object stands at a place, as a cleaning of the slot
/// that holds it. Refuses with 12 and 10. Nothing is longer in a new head of the victim's edition
/// than it was in the victim, so 12 comes up only where the victim is rewritten. A place outside
/// the log is one that no index leads to.
pub(crate) fn forget<E: Fixed, R: Rules>(
    record: &Record,
    area: &[u8],
    index: &[u32],
    work: &mut [u8],
    live: usize,
) -> Result<Pending, Refusal> {
    if R::DIGESTS_SPENT_BEFORE_ROOM {
        record.new_head_slot()?;
    }
    let victim = live as u32 / record.slot_bytes;
    if !record.map.has(victim) {
        return Err(Refusal::Record);
    }
    let victims = SlotMap::EMPTY.with(victim);
    let mut choice = Choice::of_victims::<E, R>(record, area, index, victims, Some(live))?;
    if !R::NO_TOMBSTONE_OF_FORGOTTEN {
        choice.keep_needed_tombstones::<E>(record, area, index, victims)?;
    }
    if !choice.fits::<E>(record) {
        return Err(match R::FULL_DELETE_MEETS_14 {
            true => Refusal::KeptLength,
            false => Refusal::SlotsFull,
        });
    }
    let slot = record.new_head_slot()?;
    let taken = u64::from(!R::FORGOTTEN_VERSION_NOT_IN_DIGEST);
    let next = Version(record.next.0 + taken);
    lay_digest::<E>(record, work, slot, victims, next);
    let length = copy_kept::<E, R>(record, area, work, victims, &choice)?;
    Ok(Pending::Forget {
        slot,
        length,
        victims,
        left: new_head_stores::<R>(record, length),
    })
}

/// Copies the kept entries by ascending slot and offset behind the digest, a new tombstone in
/// the place of the object to be forgotten; gives the length of all.
fn copy_kept<E: Fixed, R: Rules>(
    record: &Record,
    area: &[u8],
    work: &mut [u8],
    victims: SlotMap,
    choice: &Choice,
) -> Result<u32, Refusal> {
    let layout = &E::LAYOUT;
    let mut at = layout.digest_bytes();
    walk_slots!(record, area, victims, |place, fields| {
        if !choice.kept.has(place) {
            return Ok(());
        }
        if choice.forgotten == Some(place) {
            let end = at + layout.tombstone_bytes();
            let (tombstone, out) = (layout.tombstone, &mut work[at..end]);
            lay_entry(layout, out, tombstone, fields.key, record.next, &[]);
            at = end;
        } else if R::OLD_BYTES_COPIED || fields.value == layout.tombstone_bytes() {
            let end = at + fields.length;
            work[at..end].copy_from_slice(&area[place..place + fields.length]);
            at = end;
        } else {
            at += lay_rewritten(layout, &mut work[at..], fields, &area[place..]);
        }
        Ok(())
    })?;
    Ok(at as u32)
}

/// The place of the newest entry of a key that has one.
#[inline]
pub(crate) fn newest(area: &[u8], index: &[u32], key: Key) -> Result<usize, Refusal> {
    match search(area, index, key) {
        Search::Found { place, .. } => Ok(place),
        Search::Free { .. } | Search::Broken => Err(Refusal::Record),
    }
}

/// Which entries of the victims are kept.
struct Choice {
    /// Entries to keep.
    kept: EntrySet,
    /// Their length together in the new head.
    bytes: usize,
    /// The object in whose place a tombstone stands, if it is needed.
    forgotten: Option<usize>,
    /// Tombstones that are the newest entry of their key, the one to come among them, and their
    /// keys.
    tombstones: EntrySet,
    tombstone_keys: KeyFilter,
}

impl Choice {
    /// Keeps the objects that are their key's newest entry and notes such tombstones. The object
    /// to be forgotten counts as one.
    fn of_victims<E: Fixed, R: Rules>(
        record: &Record,
        area: &[u8],
        index: &[u32],
        victims: SlotMap,
        forgotten: Option<usize>,
    ) -> Result<Choice, Refusal> {
        let mut choice = Choice {
            kept: EntrySet::new(),
            bytes: 0,
            forgotten,
            tombstones: EntrySet::new(),
            tombstone_keys: KeyFilter::new(),
        };
        walk_slots!(record, area, victims, |place, fields| {
            if newest(area, index, fields.key)? != place {
                return Ok(());
            }
            if fields.is_tombstone() || forgotten == Some(place) {
                choice.tombstones.add(place);
                choice.tombstone_keys.add(fields.key);
            } else {
                choice.kept.add(place);
                choice.bytes += match R::OLD_BYTES_COPIED {
                    true => fields.length,
                    false => fields.bytes_in(&E::LAYOUT),
                };
            }
            Ok(())
        })?;
        Ok(choice)
    }

    /// Keeps the noted tombstones whose key has an object in a slot that stays.
    fn keep_needed_tombstones<E: Fixed>(
        &mut self,
        record: &Record,
        area: &[u8],
        index: &[u32],
        victims: SlotMap,
    ) -> Result<(), Refusal> {
        if self.tombstone_keys.is_empty() {
            return Ok(());
        }
        walk_slots!(record, area, record.map.without(victims), |_, fields| {
            if fields.is_tombstone() || !self.tombstone_keys.may_have(fields.key) {
                return Ok(());
            }
            let place = newest(area, index, fields.key)?;
            if self.tombstones.has(place) && !self.kept.has(place) {
                self.kept.add(place);
                self.bytes += E::LAYOUT.tombstone_bytes();
            }
            Ok(())
        })
    }

    /// Whether the kept entries fit behind the digest of a new head.
    fn fits<E: Fixed>(&self, record: &Record) -> bool {
        E::LAYOUT.digest_bytes() + self.bytes <= record.slot_bytes as usize
    }

    /// A rule that 01 calls wrong, for tests: drops the kept tombstones of keys whose
    /// newest object is in a victim.
    fn drop_by_newest_object<E: Fixed>(
        &mut self,
        record: &Record,
        area: &[u8],
        victims: SlotMap,
    ) -> Result<(), Refusal> {
        walk_slots!(record, area, victims, |place, tombstone| {
            if !tombstone.is_tombstone() || !self.kept.has(place) {
                return Ok(());
            }
            let mut newest = (Version(0), 0);
            walk_slots!(record, area, record.map, |place, fields| {
                if !fields.is_tombstone() && fields.key == tombstone.key {
                    newest = newest.max((fields.version, place));
                }
                Ok(())
            })?;
            if victims.has(newest.1 as u32 / record.slot_bytes) {
                self.kept.remove(place);
                self.bytes -= tombstone.bytes_in(&E::LAYOUT);
            }
            Ok(())
        })
    }
}

/// The length of the shortest entry. No two entries start within it, so the place divided by it
/// tells them apart.
pub(crate) const SHORTEST: usize = FIRST.tombstone_bytes();

/// A set of entries of the log, one bit each.
struct EntrySet([u32; EntrySet::WORDS]);

impl EntrySet {
    const WORDS: usize = MAX_AREA_BYTES / SHORTEST / 32 + 1;

    fn new() -> EntrySet {
        EntrySet([0; EntrySet::WORDS])
    }

    #[inline]
    fn bit(place: usize) -> (usize, u32) {
        let number = place / SHORTEST;
        (number / 32, 1 << (number % 32))
    }

    #[inline]
    fn has(&self, place: usize) -> bool {
        let (word, mask) = EntrySet::bit(place);
        self.0[word] & mask != 0
    }

    #[inline]
    fn add(&mut self, place: usize) {
        let (word, mask) = EntrySet::bit(place);
        self.0[word] |= mask;
    }

    fn remove(&mut self, place: usize) {
        let (word, mask) = EntrySet::bit(place);
        self.0[word] &= !mask;
    }
}

/// A set of keys that may claim a key it was not given, but never misses one.
struct KeyFilter {
    bits: [u32; 128],
    empty: bool,
}

impl KeyFilter {
    fn new() -> KeyFilter {
        KeyFilter {
            bits: [0; 128],
            empty: true,
        }
    }

    fn is_empty(&self) -> bool {
        self.empty
    }

    #[inline]
    fn bit(key: Key) -> (usize, u32) {
        let mixed = (key.key ^ u32::from(key.table).rotate_left(16)).wrapping_mul(0x9E37_79B1);
        let number = mixed >> 20;
        ((number / 32) as usize, 1 << (number % 32))
    }

    #[inline]
    fn add(&mut self, key: Key) {
        let (word, mask) = KeyFilter::bit(key);
        self.bits[word] |= mask;
        self.empty = false;
    }

    #[inline]
    fn may_have(&self, key: Key) -> bool {
        let (word, mask) = KeyFilter::bit(key);
        self.bits[word] & mask != 0
    }
}
