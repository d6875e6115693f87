//! The store record and when it is out of range (01, "Memory the caller lends" and
//! "Refused calls"; 02, R-5, R-11 and R-13).

use crate::counters::{DigestNumber, Version};
use crate::edition::{by_edition, Edition, Fixed, FIRST};
use crate::layout::{geometry_holds, CELLS, MOST_SLOTS, SLOTS, SLOT_BYTES};
use crate::refusal::Refusal;
use crate::segment::Key;
use crate::slot_map::SlotMap;
use crate::tables::Tables;

/// An operation that was started and whose stores are not all made. The stores left come
/// first in every variant, so that they lie at one place whatever the operation is.
#[derive(Clone, Copy, PartialEq, Eq, Hash, Debug)]
pub enum Pending {
    /// No operation.
    None,
    /// A write or delete whose entry goes to the end of the head.
    Append {
        /// Stores left.
        left: u32,
        /// Length of the entry, which is what the work buffer holds.
        length: u32,
    },
    /// A write or delete whose entry goes to a new head.
    NewHead {
        /// Stores left.
        left: u32,
        /// Length of digest and entry together, which the work buffer holds.
        length: u32,
        /// Slot of the new head.
        slot: u32,
    },
    /// A cleaning.
    Clean {
        /// Stores left.
        left: u32,
        /// Length of digest and kept entries, which the work buffer holds.
        length: u32,
        /// Slot of the new head.
        slot: u32,
        /// The slots to leave the log.
        victims: SlotMap,
    },
    /// A delete that found no room for its tombstone: the slot with the live object is cleaned.
    Forget {
        /// Stores left.
        left: u32,
        /// Length of digest and kept entries, which the work buffer holds.
        length: u32,
        /// Slot of the new head.
        slot: u32,
        /// The slot to leave the log, as a map.
        victims: SlotMap,
    },
}

impl Pending {
    /// The stores left; 0 if there is no operation.
    #[inline]
    pub fn left(self) -> u32 {
        match self {
            Pending::None => 0,
            Pending::Append { left, .. }
            | Pending::NewHead { left, .. }
            | Pending::Clean { left, .. }
            | Pending::Forget { left, .. } => left,
        }
    }

    /// Changes the stores left of an operation.
    #[inline]
    pub fn set_left(&mut self, stores: u32) {
        match self {
            Pending::None => {}
            Pending::Append { left, .. }
            | Pending::NewHead { left, .. }
            | Pending::Clean { left, .. }
            | Pending::Forget { left, .. } => *left = stores,
        }
    }
}

/// What the calls know of the store besides its area and index. In memory the fields lie in this
/// order: the present bytes, of which every test of range reads all, last and on their own.
#[derive(Clone, Copy, PartialEq, Eq, Hash, Debug)]
#[repr(C)]
pub struct Record {
    /// Number of slots (N).
    pub slots: u32,
    /// Bytes in a slot (S).
    pub slot_bytes: u32,
    /// Cells of the index (M).
    pub cells: u32,
    /// Slot of the head.
    pub head: u32,
    /// Offset in the head at which its entries end.
    pub end: u32,
    /// Number of the head's digest.
    pub digest: DigestNumber,
    /// The slots of the log.
    pub map: SlotMap,
    /// The edition of the head.
    pub edition: Edition,
    /// Whether the store was switched since its recovery. A head of the second edition needs no
    /// switch: a new head is of the second edition after it too.
    pub switched: bool,
    /// The version that the next write or delete takes.
    pub next: Version,
    /// How many keys have an entry in the log, tombstones included.
    pub keys: u32,
    /// The operation under way.
    pub pending: Pending,
    /// For each slot the bytes of its present objects: whole entries that give present keys
    /// their values. 0 outside the log.
    pub present_bytes: [u32; MOST_SLOTS],
}

impl Record {
    /// Whether every field lies where 01 wants it; otherwise a call answers 4.
    #[inline]
    pub fn is_in_range(&self) -> bool {
        by_edition!(self.edition, E => self.is_in_range_of::<E>())
    }

    /// Whether they do, and the head is of this edition.
    #[inline]
    fn is_in_range_of<E: Fixed>(&self) -> bool {
        let layout = &E::LAYOUT;
        self.edition == layout.edition
            && SLOTS.contains(&self.slots)
            && SLOT_BYTES.contains(&self.slot_bytes)
            && CELLS.contains(&self.cells)
            && self.map.is_within(SlotMap::below(self.slots))
            && self.map.has(self.head)
            && self.map != SlotMap::below(self.slots)
            && self.end >= layout.digest_bytes() as u32
            && self.end <= self.slot_bytes
            && self.digest.0 != 0
            && layout.has_next(self.next)
            && self.keys < self.cells
            && self.is_pending_in_range()
            && self.are_present_bytes_in_range()
    }

    #[inline]
    fn is_pending_in_range(&self) -> bool {
        let left = self.pending.left();
        matches!(self.pending, Pending::None) || (left != 0 && left <= self.slot_bytes + 1)
    }

    /// No slot has room for more than S less the shorter digest, which a slot may have under a head
    /// of either edition; all 32 numbers are held to it.
    #[inline]
    fn are_present_bytes_in_range(&self) -> bool {
        let most = self.slot_bytes - FIRST.digest_bytes() as u32;
        self.present_bytes
            .iter()
            .fold(true, |all, &bytes| all & (bytes <= most))
    }

    /// Refuses with 4 unless the record is in range and the lent lengths are its own.
    #[inline]
    pub(crate) fn check<E: Fixed>(&self, area: &[u8], index: &[u32]) -> Result<(), Refusal> {
        self.check_area::<E>(area)?;
        if index.len() != self.cells as usize {
            return Err(Refusal::Record);
        }
        Ok(())
    }

    /// The same where no index is lent.
    #[inline]
    pub(crate) fn check_area<E: Fixed>(&self, area: &[u8]) -> Result<(), Refusal> {
        let fits =
            self.is_in_range_of::<E>() && geometry_holds(self.slots, self.slot_bytes, area.len());
        if fits {
            Ok(())
        } else {
            Err(Refusal::Record)
        }
    }

    /// The checks that every start on a key begins with: 4, 22, 3 and 5.
    #[inline]
    pub(crate) fn check_start_on<E: Fixed>(
        &self,
        area: &[u8],
        index: &[u32],
        work: &[u8],
        tables: Tables,
        key: Key,
    ) -> Result<(), Refusal> {
        self.check::<E>(area, index)?;
        tables.check(key)?;
        self.check_idle(work)
    }

    /// Refuses with 3 unless the work buffer has room for a slot.
    #[inline]
    pub(crate) fn check_work(&self, work: &[u8]) -> Result<(), Refusal> {
        if work.len() < self.slot_bytes as usize {
            return Err(Refusal::WorkLength);
        }
        Ok(())
    }

    /// Refuses with 3 and 5: a start needs room in the work buffer, and nothing pending.
    #[inline]
    pub(crate) fn check_idle(&self, work: &[u8]) -> Result<(), Refusal> {
        self.check_work(work)?;
        self.check_none_pending()
    }

    /// Refuses with 5 while an operation is under way.
    #[inline]
    pub(crate) fn check_none_pending(&self) -> Result<(), Refusal> {
        if !matches!(self.pending, Pending::None) {
            return Err(Refusal::Pending);
        }
        Ok(())
    }

    /// The next version once the one that is next now is given to an entry of this edition; 4 if
    /// none is left to give, which no start overlooks.
    #[inline]
    pub(crate) fn next_after<E: Fixed>(&self) -> Result<Version, Refusal> {
        if self.has_no_version::<E>() {
            return Err(Refusal::Record);
        }
        Ok(Version(self.next.0 + 1))
    }

    /// Whether no version is left to give to an entry of this edition.
    #[inline]
    pub(crate) fn has_no_version<E: Fixed>(&self) -> bool {
        self.next == E::LAYOUT.spent()
    }

    /// How many slots are outside the log.
    #[inline]
    pub(crate) fn free_slots(&self) -> u32 {
        self.slots - self.map.count()
    }

    /// The slot that a new head would take, or 10 if no digest number is left for it.
    #[inline]
    pub(crate) fn new_head_slot(&self) -> Result<u32, Refusal> {
        if self.digest == DigestNumber::LAST {
            return Err(Refusal::DigestsSpent);
        }
        self.map
            .first_free_after(self.head, self.slots)
            .ok_or(Refusal::Record)
    }
}
