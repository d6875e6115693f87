//! The numbers of the store, each with a type of its own, so that none is passed where another is meant.

/// The version of an entry, or the next one to be given.
#[derive(Clone, Copy, PartialEq, Eq, PartialOrd, Ord, Hash, Debug)]
pub struct Version(pub u64);

impl Version {
    /// What an absent key has, for a write that expects absence; also what the last step of a cleaning tells.
    pub const NONE: Version = Version(0);
}

/// The edition of the bytes in an area, which the format decides and the area tells from then on.
#[derive(Clone, Copy, PartialEq, Eq, PartialOrd, Ord, Hash, Debug)]
#[repr(u32)]
pub enum Edition {
    /// Versions of 4 bytes: up to 4,294,967,294 are given out.
    First = 1,
    /// Versions of 8 bytes: up to 18,446,744,073,709,551,614 are given out. An entry takes 4 bytes more than in the first
    /// edition, and so does the digest that begins a slot.
    Second = 2,
}

impl Edition {
    /// Both editions.
    pub const ALL: [Edition; 2] = [Edition::First, Edition::Second];

    /// Its number, as the library takes it.
    ///
    /// ```
    /// use kurdavel::Edition;
    /// assert_eq!(Edition::Second.number(), 2);
    /// assert_eq!(Edition::from_number(2), Some(Edition::Second));
    /// assert_eq!(Edition::from_number(3), None);
    /// ```
    pub const fn number(self) -> u32 {
        self as u32
    }

    /// The edition with this number, if there is one.
    pub const fn from_number(number: u32) -> Option<Edition> {
        match number {
            1 => Some(Edition::First),
            2 => Some(Edition::Second),
            _ => None,
        }
    }
}

/// The number of a digest.
#[derive(Clone, Copy, PartialEq, Eq, PartialOrd, Ord, Hash, Debug)]
pub struct DigestNumber(pub u32);

/// A set of slots: slot i is in it if bit i, from the lowest, is set.
#[derive(Clone, Copy, PartialEq, Eq, Hash, Debug)]
pub struct SlotMap(pub u32);

impl SlotMap {
    /// The map of one slot below 32.
    ///
    /// ```
    /// use kurdavel::SlotMap;
    /// assert_eq!(SlotMap::of(3), SlotMap(8));
    /// ```
    pub const fn of(slot: u32) -> SlotMap {
        SlotMap(1 << slot)
    }

    /// Whether a slot is in the map.
    pub const fn has(self, slot: u32) -> bool {
        slot < 32 && self.0 >> slot & 1 == 1
    }
}

/// The tables that a caller may use, from the first to the last, both included; none if the first is above the last.
#[derive(Clone, Copy, PartialEq, Eq, Hash, Debug)]
pub struct Tables {
    /// The lowest table.
    pub first: u16,
    /// The highest table.
    pub last: u16,
}

impl Tables {
    /// Every table.
    pub const ALL: Tables = Tables {
        first: 0,
        last: u16::MAX,
    };

    /// Whether a table is among them.
    ///
    /// ```
    /// use kurdavel::Tables;
    /// let media = Tables { first: 100, last: 199 };
    /// assert!(media.has(100) && media.has(199) && !media.has(200));
    /// assert!(!Tables { first: 2, last: 1 }.has(1));
    /// ```
    pub const fn has(self, table: u16) -> bool {
        self.first <= table && table <= self.last
    }
}

/// A table and a key in it, which together name a value.
#[derive(Clone, Copy, PartialEq, Eq, PartialOrd, Ord, Hash, Debug)]
pub struct Key {
    /// The table.
    pub table: u16,
    /// The key within the table.
    pub key: u32,
}
