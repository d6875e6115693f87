//! The history that `play` plays: the cases of 01, then a longer list with cuts, and a full store that is emptied.

use reference::{Key, SlotMap};

/// The keys, by their numbers in the history.
pub const KEYS: [Key; 4] = [
    Key { table: 7, key: 9 },
    Key { table: 7, key: 10 },
    Key { table: 0, key: 0 },
    Key {
        table: u16::MAX,
        key: u32::MAX,
    },
];

/// A value: its length, its first byte, and what each byte adds to the one before it.
#[derive(Clone, Copy)]
pub struct Value(pub usize, pub u8, pub u8);

impl Value {
    /// The bytes of the value.
    pub fn bytes(self) -> Vec<u8> {
        let Value(length, first, rise) = self;
        std::iter::successors(Some(first), |byte| Some(byte.wrapping_add(rise)))
            .take(length)
            .collect()
    }
}

/// One line of the history. A key is given by its number.
#[derive(Clone, Copy)]
pub enum Event {
    /// A heading: the number of a case.
    Case(u32),
    /// A format of old bytes, and a recovery.
    Format,
    /// The store of case 8, laid by hand, and a recovery.
    Spread,
    /// A write.
    Write(usize, Value),
    /// A delete.
    Delete(usize),
    /// A cleaning of these slots.
    Clean(SlotMap),
    /// The question which two slots to join, and the cleaning of these.
    Join,
    /// The power fails after so many stores of the next operation.
    Fails(u32),
    /// A cut and a recovery.
    Recover,
}

use Event::{Case, Delete, Fails, Format, Join, Recover, Spread};

const fn write(key: usize, length: usize, first: u8, rise: u8) -> Event {
    Event::Write(key, Value(length, first, rise))
}

const fn clean(slots: u32) -> Event {
    Event::Clean(SlotMap(slots))
}

/// The events in order.
pub const HISTORY: &[Event] = &[
    Format,
    Case(2),
    write(0, 8, 0x11, 0),
    Case(4),
    Delete(0),
    Case(5),
    clean(0b1),
    Recover,
    Case(6),
    Format,
    write(0, 56, 1, 1),
    write(1, 56, 2, 1),
    write(0, 8, 3, 1),
    write(1, 8, 4, 1),
    write(2, 8, 5, 1),
    write(3, 8, 6, 1),
    Delete(0),
    Delete(1),
    Delete(2),
    Recover,
    Case(7),
    Format,
    write(0, 7, 0x11, 0),
    write(0, 8, 0x11, 0),
    Case(8),
    Spread,
    clean(0b10),
    Spread,
    clean(0b11),
    // Keys that are overwritten and deleted, and an entry too long for the head.
    Format,
    Delete(0),
    write(0, 56, 0x20, 1),
    write(1, 24, 0x60, 3),
    write(0, 8, 0x80, 1),
    write(2, 56, 0x90, 1),
    write(3, 56, 0xd0, 1),
    Delete(0),
    // A tombstone that is kept: slot 0 has objects of its key.
    clean(0b10),
    Fails(40),
    write(0, 56, 0x10, 2),
    Delete(1),
    // Tombstones that go with the last objects of their keys.
    Fails(148),
    clean(0b101),
    clean(0b101),
    // A new head below the old one; then one slot is free, and no further head can be begun.
    write(0, 56, 0x30, 1),
    Fails(81),
    write(1, 56, 0x40, 1),
    write(1, 56, 0x50, 1),
    write(0, 56, 0x60, 1),
    write(1, 56, 0x70, 1),
    write(2, 56, 0x80, 1),
    write(0, 56, 0x90, 1),
    write(1, 56, 0xa0, 1),
    write(3, 56, 0xb0, 1),
    // Victims of which too much is kept, one outside the log, and one of which nothing is kept.
    clean(0b1011),
    clean(0b100),
    clean(0b1),
    write(3, 56, 0xc0, 1),
    Recover,
    // A store filled until writes are refused for want of room. Each key is deleted by a cleaning of the slot with its live
    // object, the head each time, and the head filled again in between. A tombstone stands for each key but the last, which
    // has no object elsewhere. Then nothing is left, and a write is accepted again.
    Format,
    write(0, 56, 0x01, 1),
    write(1, 56, 0x02, 1),
    write(2, 56, 0x03, 1),
    write(0, 56, 0x04, 1),
    write(1, 56, 0x05, 1),
    write(2, 56, 0x06, 1),
    write(3, 56, 0x07, 1),
    write(0, 56, 0x08, 1),
    write(1, 56, 0x09, 1),
    write(2, 8, 0x0a, 1),
    write(3, 8, 0x0b, 1),
    write(3, 8, 0x0c, 1),
    Delete(0),
    write(1, 56, 0x0d, 1),
    write(2, 8, 0x0e, 1),
    write(3, 8, 0x0f, 1),
    write(2, 8, 0x10, 1),
    write(1, 8, 0x11, 1),
    Fails(60),
    Delete(1),
    Delete(1),
    write(2, 24, 0x12, 1),
    write(3, 24, 0x13, 1),
    write(2, 24, 0x14, 1),
    write(3, 24, 0x15, 1),
    write(2, 24, 0x16, 1),
    write(3, 8, 0x17, 1),
    Delete(2),
    write(3, 56, 0x18, 1),
    write(3, 56, 0x19, 1),
    write(3, 8, 0x1a, 1),
    write(3, 8, 0x1b, 1),
    write(3, 8, 0x1c, 1),
    Delete(3),
    Recover,
    write(0, 8, 0x1d, 1),
    Recover,
    // All slots that a log may have are in use, and keys are overwritten for long: a write that meets 12 is made again when
    // two slots are joined.
    Format,
    write(0, 56, 0x20, 1),
    write(1, 120, 0x21, 1),
    write(2, 24, 0x22, 1),
    write(3, 56, 0x23, 1),
    write(0, 56, 0x24, 1),
    write(1, 120, 0x25, 1),
    write(2, 24, 0x26, 1),
    write(3, 56, 0x27, 1),
    write(0, 56, 0x28, 1),
    Join,
    write(0, 56, 0x28, 1),
    write(1, 120, 0x29, 1),
    write(2, 24, 0x2a, 1),
    write(3, 56, 0x2b, 1),
    write(0, 56, 0x2c, 1),
    Join,
    write(0, 56, 0x2c, 1),
    write(1, 120, 0x2d, 1),
    write(2, 24, 0x2e, 1),
    write(3, 56, 0x2f, 1),
    Join,
    write(3, 56, 0x2f, 1),
    write(0, 56, 0x30, 1),
    write(1, 120, 0x31, 1),
    write(2, 24, 0x32, 1),
    write(3, 56, 0x33, 1),
    write(0, 56, 0x34, 1),
    Join,
    write(0, 56, 0x34, 1),
    write(1, 120, 0x35, 1),
    write(2, 24, 0x36, 1),
    write(3, 56, 0x37, 1),
    write(0, 56, 0x38, 1),
    Join,
    write(0, 56, 0x38, 1),
    write(1, 120, 0x39, 1),
    write(2, 24, 0x3a, 1),
    write(3, 56, 0x3b, 1),
    Join,
    write(3, 56, 0x3b, 1),
    write(0, 56, 0x3c, 1),
    write(1, 120, 0x3d, 1),
    Join,
    write(1, 120, 0x3d, 1),
    write(2, 24, 0x3e, 1),
    write(3, 56, 0x3f, 1),
    write(0, 56, 0x40, 1),
    Join,
    write(0, 56, 0x40, 1),
    write(1, 120, 0x41, 1),
    write(2, 24, 0x42, 1),
    write(3, 56, 0x43, 1),
    Join,
    write(3, 56, 0x43, 1),
    write(0, 56, 0x44, 1),
    write(1, 120, 0x45, 1),
    Join,
    write(1, 120, 0x45, 1),
    write(2, 24, 0x46, 1),
    write(3, 56, 0x47, 1),
    Recover,
];
