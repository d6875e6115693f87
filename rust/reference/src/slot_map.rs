//! The slot map (01, "Bytes of a segment" and "The log and its map"): slot i is in it if
//! bit i, from the lowest, is set.

/// A set of slots below 32.
#[derive(Clone, Copy, PartialEq, Eq, Hash, Debug)]
pub struct SlotMap(pub u32);

impl SlotMap {
    /// The map of no slot.
    pub const EMPTY: SlotMap = SlotMap(0);

    /// The map of all slots below `slots`, which is at most 32.
    #[inline]
    pub fn below(slots: u32) -> SlotMap {
        SlotMap(u32::MAX.checked_shr(32 - slots.min(32)).unwrap_or(0))
    }

    /// Whether a slot is in the map.
    #[inline]
    pub fn has(self, slot: u32) -> bool {
        self.0.checked_shr(slot).unwrap_or(0) & 1 == 1
    }

    /// The map with a slot below 32 added.
    #[inline]
    pub fn with(self, slot: u32) -> SlotMap {
        SlotMap(self.0 | 1u32.checked_shl(slot).unwrap_or(0))
    }

    /// The map less the slots of another.
    #[inline]
    pub fn without(self, other: SlotMap) -> SlotMap {
        SlotMap(self.0 & !other.0)
    }

    /// Whether every slot of this map is in the other.
    #[inline]
    pub fn is_within(self, other: SlotMap) -> bool {
        self.0 & !other.0 == 0
    }

    /// How many slots the map has.
    #[inline]
    pub fn count(self) -> u32 {
        self.0.count_ones()
    }

    /// The slots of the map, ascending.
    #[inline]
    pub fn slots(self) -> Slots {
        Slots(self.0)
    }

    /// The first slot below `slots` that is not in the map, looked for upwards from
    /// the one after `head` and then from 0.
    #[inline]
    pub fn first_free_after(self, head: u32, slots: u32) -> Option<u32> {
        let free = SlotMap::below(slots).without(self);
        let above = free.without(SlotMap::below(head.saturating_add(1)));
        let found = if above == SlotMap::EMPTY { free } else { above };
        (found != SlotMap::EMPTY).then_some(found.0.trailing_zeros())
    }
}

/// The slots of a map, ascending.
#[derive(Clone, Debug)]
pub struct Slots(u32);

impl Iterator for Slots {
    type Item = u32;

    #[inline]
    fn next(&mut self) -> Option<u32> {
        if self.0 == 0 {
            return None;
        }
        let slot = self.0.trailing_zeros();
        self.0 &= self.0 - 1;
        Some(slot)
    }
}

#[cfg(test)]
mod tests {
    use super::SlotMap;

    #[test]
    fn first_free_goes_round_and_never_takes_a_used_slot() {
        assert_eq!(SlotMap(0b0001).first_free_after(0, 4), Some(1));
        assert_eq!(SlotMap(0b1000).first_free_after(3, 4), Some(0));
        assert_eq!(SlotMap(0b1101).first_free_after(2, 4), Some(1));
        assert_eq!(SlotMap(0b1111).first_free_after(2, 4), None);
        assert_eq!(SlotMap(1 << 31).first_free_after(31, 32), Some(0));
        assert_eq!(SlotMap(!(1 << 31)).first_free_after(5, 32), Some(31));
    }

    #[test]
    fn slots_of_a_map_ascend() {
        let slots: Vec<u32> = SlotMap(0x8000_0011).slots().collect();
        assert_eq!(slots, [0, 4, 31]);
        assert_eq!(SlotMap::below(32).count(), 32);
        assert_eq!(SlotMap::below(0), SlotMap::EMPTY);
    }
}
