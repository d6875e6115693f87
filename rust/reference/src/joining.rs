//! Which two slots to join (02, R-7), by the sizes that entries have in the new head (02, R-13).
//!
//! What a cleaning of two slots keeps is what each of them keeps alone, less the tombstones of one
//! whose only objects elsewhere are in the other. So two walks of the log are enough for all pairs.

use crate::cleaning::{newest, walk_slots, SHORTEST};
use crate::edition::{by_editions, object_bytes, Fixed};
use crate::layout::{MAX_AREA_BYTES, MOST_SLOTS};
use crate::record::Record;
use crate::refusal::Refusal;
use crate::slot_map::SlotMap;

/// The lowest two slots of the log, the first of them deciding first, whose kept entries fit one
/// new head when exactly these two are cleaned. Refuses with 4, 5 and 23.
pub fn join(record: &Record, area: &[u8], index: &[u32]) -> Result<(u32, u32), Refusal> {
    by_editions!(record, H, E => pair::<H, E>(record, area, index))
}

fn pair<H: Fixed, E: Fixed>(
    record: &Record,
    area: &[u8],
    index: &[u32],
) -> Result<(u32, u32), Refusal> {
    record.check::<H>(area, index)?;
    record.check_none_pending()?;
    let kept = Kept::of::<E>(record, area, index)?;
    let digest = E::LAYOUT.digest_bytes() as u32;
    for first in record.map.slots() {
        for second in record.map.slots().filter(|&second| second > first) {
            if digest + kept.by_both(first, second) <= record.slot_bytes {
                return Ok((first, second));
            }
        }
    }
    Err(Refusal::NoPair)
}

/// Where the objects of a deleted key are, besides the slot of its newest tombstone: nowhere, in
/// one slot, as the slot's number and 1, or in several.
#[derive(Clone, Copy, PartialEq, Eq)]
struct Elsewhere(u8);

impl Elsewhere {
    const NOWHERE: Elsewhere = Elsewhere(0);
    const IN_SEVERAL: Elsewhere = Elsewhere(u8::MAX);

    #[inline]
    fn and(self, slot: u32) -> Elsewhere {
        let one = Elsewhere(slot as u8 + 1);
        if self == Elsewhere::NOWHERE || self == one {
            one
        } else {
            Elsewhere::IN_SEVERAL
        }
    }

    #[inline]
    fn in_one(self) -> Option<usize> {
        let one = self != Elsewhere::NOWHERE && self != Elsewhere::IN_SEVERAL;
        one.then(|| usize::from(self.0) - 1)
    }
}

/// The same for each newest tombstone of the log.
struct Tombstones([Elsewhere; Tombstones::PLACES]);

impl Tombstones {
    const PLACES: usize = MAX_AREA_BYTES / SHORTEST + 1;
}

/// Bytes that cleanings keep.
struct Kept {
    /// Of each slot, cleaned alone.
    alone: [u32; MOST_SLOTS],
    /// By how much less two slots keep together, the lower slot first.
    less: [[u16; MOST_SLOTS]; MOST_SLOTS],
}

impl Kept {
    fn of<E: Fixed>(record: &Record, area: &[u8], index: &[u32]) -> Result<Kept, Refusal> {
        let mut kept = Kept {
            alone: [0; MOST_SLOTS],
            less: [[0; MOST_SLOTS]; MOST_SLOTS],
        };
        let mut tombstones = Tombstones([Elsewhere::NOWHERE; Tombstones::PLACES]);
        for slot in record.map.slots() {
            kept.count_objects::<E>(record, area, index, slot, &mut tombstones)?;
        }
        for slot in record.map.slots() {
            kept.count_tombstones::<E>(record, area, slot, &tombstones)?;
        }
        Ok(kept)
    }

    /// Counts the objects of a slot that are their key's newest entry. Any other may be what a
    /// newest tombstone in another slot stands for.
    fn count_objects<E: Fixed>(
        &mut self,
        record: &Record,
        area: &[u8],
        index: &[u32],
        slot: u32,
        tombstones: &mut Tombstones,
    ) -> Result<(), Refusal> {
        let own = (slot * record.slot_bytes) as usize..((slot + 1) * record.slot_bytes) as usize;
        walk_slots!(record, area, SlotMap::EMPTY.with(slot), |place, fields| {
            if fields.is_tombstone() {
                return Ok(());
            }
            let newest = newest(area, index, fields.key)?;
            if newest == place {
                self.alone[slot as usize] += fields.bytes_in(&E::LAYOUT) as u32;
            } else if object_bytes(area[newest]) == 0 && !own.contains(&newest) {
                let known = &mut tombstones.0[newest / SHORTEST];
                *known = known.and(slot);
            }
            Ok(())
        })
    }

    /// Counts the tombstones of a slot that have an object elsewhere, which are newest ones.
    fn count_tombstones<E: Fixed>(
        &mut self,
        record: &Record,
        area: &[u8],
        slot: u32,
        tombstones: &Tombstones,
    ) -> Result<(), Refusal> {
        let own = slot as usize;
        let length = E::LAYOUT.tombstone_bytes();
        walk_slots!(record, area, SlotMap::EMPTY.with(slot), |place, fields| {
            if !fields.is_tombstone() {
                return Ok(());
            }
            let elsewhere = tombstones.0[place / SHORTEST];
            if elsewhere != Elsewhere::NOWHERE {
                self.alone[own] += length as u32;
            }
            if let Some(other) = elsewhere.in_one() {
                self.less[own.min(other)][own.max(other)] += length as u16;
            }
            Ok(())
        })
    }

    /// What a cleaning of two slots keeps.
    fn by_both(&self, lower: u32, higher: u32) -> u32 {
        let (lower, higher) = (lower as usize, higher as usize);
        self.alone[lower] + self.alone[higher] - u32::from(self.less[lower][higher])
    }
}
