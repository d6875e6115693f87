//! How full each slot is with objects that count (02, R-5). An object counts as many bytes as it
//! takes in its own slot.

use crate::edition::{object_bytes, Layout};
use crate::layout::{segment, MOST_SLOTS};
use crate::log::walk_segment;
use crate::record::Record;
use crate::refusal::Refusal;
use crate::rules::Rules;
use crate::slot_map::SlotMap;

/// The slot of the log with the fewest present bytes by the record's own numbers, the lowest of
/// those that have as few. An operation may be under way; the numbers are those before it.
pub fn fewest(record: &Record) -> Result<u32, Refusal> {
    if !record.is_in_range() {
        return Err(Refusal::Record);
    }
    let present = |slot: &u32| record.present_bytes[*slot as usize];
    record
        .map
        .slots()
        .min_by_key(present)
        .ok_or(Refusal::Record)
}

/// The present bytes of each slot, kept up as newest entries come and go.
pub(crate) struct Counts<'a> {
    slot_bytes: u32,
    bytes: &'a mut [u32; MOST_SLOTS],
}

impl<'a> Counts<'a> {
    /// The numbers of slots of so many bytes.
    pub(crate) fn new(slot_bytes: u32, bytes: &'a mut [u32; MOST_SLOTS]) -> Counts<'a> {
        Counts { slot_bytes, bytes }
    }

    /// The numbers of a record.
    #[inline]
    pub(crate) fn of(record: &'a mut Record) -> Counts<'a> {
        Counts::new(record.slot_bytes, &mut record.present_bytes)
    }

    /// An entry of a slot, of this kind, has become its key's newest: an object counts.
    #[inline]
    pub(crate) fn add<R: Rules>(&mut self, slot: u32, kind: u8) {
        let length = match R::TOMBSTONES_COUNTED {
            true => Layout::of_entry(kind).entry_bytes(kind).unwrap_or(0) as u32,
            false => object_bytes(kind),
        };
        self.change(slot, |bytes| bytes.saturating_add(length));
    }

    /// The entry at a place of the area is no longer its key's newest: it counts no more.
    #[inline]
    pub(crate) fn displace<R: Rules>(&mut self, area: &[u8], place: usize) {
        if R::OVERWRITTEN_STILL_COUNTED {
            return;
        }
        let slot = place as u32 / self.slot_bytes;
        let length = object_bytes(area[place]);
        self.change(slot, |bytes| bytes.saturating_sub(length));
    }

    /// Victims have left the log, and of the objects in the new head all count.
    pub(crate) fn clean(
        &mut self,
        area: &[u8],
        victims: SlotMap,
        head: u32,
    ) -> Result<(), Refusal> {
        for victim in victims.slots() {
            self.change(victim, |_| 0);
        }
        let mut kept = 0;
        let bytes = segment(area, self.slot_bytes, head);
        walk_segment!(bytes, 0, Refusal::Record, |_, fields| {
            if !fields.is_tombstone() {
                kept += fields.length as u32;
            }
            Ok(())
        })?;
        self.change(head, |_| kept);
        Ok(())
    }

    /// Changes the number of one slot. A record that no recovery gave may have any numbers, and
    /// none of them goes below 0 or round.
    #[inline]
    fn change(&mut self, slot: u32, to: impl FnOnce(u32) -> u32) {
        if let Some(bytes) = self.bytes.get_mut(slot as usize) {
            *bytes = to(*bytes);
        }
    }
}
