//! Areas of the largest size, laid out as a history of writes, deletes and cleanings could leave them: in the first edition,
//! but where a layout is given.

use reference::edition::{Layout, FIRST, MAP, NEXT, NUMBER, VERSION};

/// Bytes in a slot (S).
pub const SLOT_BYTES: usize = 2048;
/// The table of all keys.
pub const TABLE: u16 = 1;
/// Bytes of a value.
const VALUE: usize = 8;
/// 8-byte objects that fill a slot.
pub const OBJECTS: usize = objects(&FIRST);
/// Tombstones that fill a slot.
pub const TOMBSTONES: usize = 185;

/// Bytes of a digest.
pub const DIGEST_BYTES: usize = FIRST.digest_bytes();

/// 8-byte objects that fill a slot of an edition.
pub const fn objects(layout: &Layout) -> usize {
    (SLOT_BYTES - layout.digest_bytes()) / (layout.tombstone_bytes() + VALUE)
}

/// An entry to lay out.
#[derive(Clone, Copy)]
pub struct Entry {
    /// The key within the table.
    pub key: u32,
    /// Whether it is a tombstone; otherwise an object of 8 bytes.
    pub tombstone: bool,
    /// The version.
    pub version: u64,
}

impl Entry {
    fn length(self, layout: &Layout) -> usize {
        if self.tombstone {
            layout.tombstone_bytes()
        } else {
            layout.tombstone_bytes() + VALUE
        }
    }
}

/// Where an entry goes.
#[derive(Clone, Copy)]
pub struct At {
    /// Its slot.
    pub slot: usize,
    /// How many entries stand before it in its slot.
    pub within: usize,
    /// How many entries stand before it in the log.
    pub count: u32,
}

impl At {
    /// An object whose version is the next in a row.
    pub fn object(self, key: u32) -> Entry {
        Entry {
            key,
            tombstone: false,
            version: u64::from(self.count) + 1,
        }
    }

    /// A tombstone whose version is the next in a row.
    pub fn tombstone(self, key: u32) -> Entry {
        Entry {
            tombstone: true,
            ..self.object(key)
        }
    }
}

impl Entry {
    /// The entry with a version of its own.
    pub fn versioned(self, version: impl Into<u64>) -> Entry {
        Entry {
            version: version.into(),
            ..self
        }
    }
}

/// An area of `slots` slots, of which all but the last are the log and full.
pub fn full(slots: usize, entry: impl Fn(At) -> Entry) -> Vec<u8> {
    full_of(&FIRST, slots, entry)
}

/// The same in an edition.
pub fn full_of(layout: &Layout, slots: usize, entry: impl Fn(At) -> Entry) -> Vec<u8> {
    lay_out_of(layout, slots, |at| Some(entry(at)))
}

/// The same, where a slot's entries end before it is full if there are no more.
pub fn lay_out(slots: usize, entry: impl Fn(At) -> Option<Entry>) -> Vec<u8> {
    lay_out_of(&FIRST, slots, entry)
}

/// The same in an edition.
pub fn lay_out_of(layout: &Layout, slots: usize, entry: impl Fn(At) -> Option<Entry>) -> Vec<u8> {
    let mut area = vec![0; slots * SLOT_BYTES];
    let mut count: u32 = 0;
    let map = (1u32 << (slots - 1)) - 1;
    for slot in 0..slots - 1 {
        let segment = &mut area[slot * SLOT_BYTES..][..SLOT_BYTES];
        segment[0] = layout.digest;
        segment[NUMBER..MAP].copy_from_slice(&(slot as u32 + 1).to_le_bytes());
        segment[MAP..NEXT].copy_from_slice(&map.to_le_bytes());
        lay_version(layout, segment, NEXT, u64::from(count) + 1);
        count += fill(layout, segment, |within| {
            entry(At {
                slot,
                within,
                count: count + within as u32,
            })
        });
    }
    area
}

/// Lays entries behind the digest while there are any and the next one fits; gives how many.
fn fill(layout: &Layout, segment: &mut [u8], entry: impl Fn(usize) -> Option<Entry>) -> u32 {
    let mut at = layout.digest_bytes();
    let mut within = 0;
    while let Some(next) = entry(within).filter(|next| at + next.length(layout) <= SLOT_BYTES) {
        at = lay(layout, segment, at, next);
        within += 1;
    }
    within as u32
}

fn lay(layout: &Layout, segment: &mut [u8], at: usize, entry: Entry) -> usize {
    segment[at] = if entry.tombstone {
        layout.tombstone
    } else {
        layout.objects[0]
    };
    segment[at + 1..at + 3].copy_from_slice(&TABLE.to_le_bytes());
    segment[at + 3..at + 7].copy_from_slice(&entry.key.to_le_bytes());
    lay_version(layout, segment, at + VERSION, entry.version);
    let end = at + entry.length(layout);
    segment[at + layout.tombstone_bytes()..end].fill(0xC3);
    end
}

/// Lays a version into as many bytes as the edition has for it.
fn lay_version(layout: &Layout, segment: &mut [u8], at: usize, version: u64) {
    let bytes = &version.to_le_bytes()[..layout.version_bytes];
    segment[at..at + bytes.len()].copy_from_slice(bytes);
}
