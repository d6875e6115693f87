//! The store record as words, and what they say.

use crate::values::{DigestNumber, Edition, SlotMap, Version};

/// How many words a record takes.
pub const WORDS: usize = 49;

/// The words of the next version, its low and its high half.
const NEXT: usize = 7;
const NEXT_HIGH: usize = 8;
/// The words of the pending operation: what it is, its slot, its victims, its length and the stores left.
const PENDING: usize = 12;
const LEFT: usize = 16;
/// The first of the words that count present bytes, one for each slot that there may be.
const PRESENT: usize = 17;

/// An operation that was started and whose stores are not all made.
#[derive(Clone, Copy, PartialEq, Eq, Hash, Debug)]
pub enum Pending {
    /// No operation.
    Idle,
    /// A write or delete whose entry goes to the end of the head.
    Append {
        /// Bytes of the work buffer that are the operation's.
        length: u32,
        /// Stores left.
        left: u32,
    },
    /// A write or delete whose entry goes to a new head.
    NewHead {
        /// Slot of the new head.
        slot: u32,
        /// Bytes of the work buffer that are the operation's.
        length: u32,
        /// Stores left.
        left: u32,
    },
    /// A cleaning.
    Clean {
        /// Slot of the new head.
        slot: u32,
        /// The slots that leave the log.
        victims: SlotMap,
        /// Bytes of the work buffer that are the operation's.
        length: u32,
        /// Stores left.
        left: u32,
    },
    /// A delete that found no room: the slot of its object is cleaned.
    Forget {
        /// Slot of the new head.
        slot: u32,
        /// The slot that leaves the log, as a map.
        victims: SlotMap,
        /// Bytes of the work buffer that are the operation's.
        length: u32,
        /// Stores left.
        left: u32,
    },
}

impl Pending {
    /// Stores left; 0 if there is no operation.
    pub const fn left(self) -> u32 {
        match self {
            Pending::Idle => 0,
            Pending::Append { left, .. }
            | Pending::NewHead { left, .. }
            | Pending::Clean { left, .. }
            | Pending::Forget { left, .. } => left,
        }
    }

    const fn words(self) -> [u32; 5] {
        match self {
            Pending::Idle => [0; 5],
            Pending::Append { length, left } => [1, 0, 0, length, left],
            Pending::NewHead { slot, length, left } => [2, slot, 0, length, left],
            Pending::Clean {
                slot,
                victims,
                length,
                left,
            } => [3, slot, victims.0, length, left],
            Pending::Forget {
                slot,
                victims,
                length,
                left,
            } => [4, slot, victims.0, length, left],
        }
    }

    const fn of_words(words: [u32; 5]) -> Option<Pending> {
        Some(match words {
            [0, 0, 0, 0, 0] => Pending::Idle,
            [1, 0, 0, length, left] => Pending::Append { length, left },
            [2, slot, 0, length, left] => Pending::NewHead { slot, length, left },
            [3, slot, victims, length, left] => Pending::Clean {
                slot,
                victims: SlotMap(victims),
                length,
                left,
            },
            [4, slot, victims, length, left] => Pending::Forget {
                slot,
                victims: SlotMap(victims),
                length,
                left,
            },
            _ => return None,
        })
    }
}

/// What a record says.
#[derive(Clone, Copy, PartialEq, Eq, Hash, Debug)]
pub struct Fields {
    /// Number of slots (N).
    pub slots: u32,
    /// Bytes in a slot (S).
    pub slot_bytes: u32,
    /// Cells of the index (M).
    pub cells: u32,
    /// Slot of the head.
    pub head: u32,
    /// Offset in the head at which its entries end.
    pub end: u32,
    /// Number of the head's digest.
    pub digest: DigestNumber,
    /// The slots of the log.
    pub map: SlotMap,
    /// The version that the next write or delete takes.
    pub next: Version,
    /// How many keys have entries in the log, deleted ones too.
    pub keys: u32,
    /// The edition of the head.
    pub edition: Edition,
    /// Whether a head of the first edition was switched since the recovery. A new head is of the second edition if it was, or if
    /// the head is.
    pub switched: bool,
    /// The operation under way.
    pub pending: Pending,
    /// For each slot the bytes of its present objects: whole entries that give present keys their values. 0 outside the
    /// log.
    pub present_bytes: [u32; 32],
}

/// What the calls know of a store besides its area and index, as the words that cross to the library.
///
/// A record comes from [`recover`](crate::recover), and each accepted call changes it. Any words can be made a record
/// again, as those of a firmware that kept them; a call refuses words that are none with
/// [`BadRecord`](crate::Refusal::BadRecord).
#[derive(Clone, Copy, PartialEq, Eq, Hash, Debug)]
pub struct Record {
    pub(crate) words: [u32; WORDS],
}

impl Record {
    /// The record with these words.
    #[inline]
    pub const fn from_words(words: [u32; WORDS]) -> Record {
        Record { words }
    }

    /// The words of the record.
    #[inline]
    pub const fn words(&self) -> &[u32; WORDS] {
        &self.words
    }

    /// The record that says this.
    ///
    /// ```
    /// use kurdavel::{DigestNumber, Edition, Fields, Pending, Record, SlotMap, Version};
    /// let fields = Fields {
    ///     slots: 4,
    ///     slot_bytes: 256,
    ///     cells: 16,
    ///     head: 0,
    ///     end: 13,
    ///     digest: DigestNumber(1),
    ///     map: SlotMap(1),
    ///     next: Version(1),
    ///     keys: 0,
    ///     edition: Edition::First,
    ///     switched: true,
    ///     pending: Pending::Append { length: 19, left: 20 },
    ///     present_bytes: [0; 32],
    /// };
    /// let record = Record::of(fields);
    /// assert_eq!(record.words()[..12], [4, 256, 16, 0, 13, 1, 1, 1, 0, 0, 1, 1]);
    /// assert_eq!(record.words()[12..17], [1, 0, 0, 19, 20]);
    /// assert_eq!(record.fields(), Some(fields));
    /// ```
    pub fn of(fields: Fields) -> Record {
        let mut words = [0; WORDS];
        words[..PENDING].copy_from_slice(&[
            fields.slots,
            fields.slot_bytes,
            fields.cells,
            fields.head,
            fields.end,
            fields.digest.0,
            fields.map.0,
            fields.next.0 as u32,
            (fields.next.0 >> 32) as u32,
            fields.keys,
            fields.edition.number(),
            fields.switched.into(),
        ]);
        words[PENDING..PRESENT].copy_from_slice(&fields.pending.words());
        words[PRESENT..].copy_from_slice(&fields.present_bytes);
        Record { words }
    }

    /// What the record says; nothing if its words are no record's.
    pub fn fields(&self) -> Option<Fields> {
        let [slots, slot_bytes, cells, head, end, digest, map, _, _, keys, edition, switched @ (0 | 1), pending @ ..] =
            self.words
        else {
            return None;
        };
        let (pending, present) = pending.split_at(PRESENT - PENDING);
        Some(Fields {
            slots,
            slot_bytes,
            cells,
            head,
            end,
            digest: DigestNumber(digest),
            map: SlotMap(map),
            next: self.next(),
            keys,
            edition: Edition::from_number(edition)?,
            switched: switched == 1,
            pending: Pending::of_words(pending.try_into().ok()?)?,
            present_bytes: present.try_into().ok()?,
        })
    }

    /// The version that the next write or delete takes.
    pub const fn next(&self) -> Version {
        Version(self.words[NEXT] as u64 | (self.words[NEXT_HIGH] as u64) << 32)
    }

    /// The slots of the log.
    pub const fn map(&self) -> SlotMap {
        SlotMap(self.words[6])
    }

    /// Stores left of the operation under way; 0 if there is none.
    pub const fn left(&self) -> u32 {
        self.words[LEFT]
    }
}
