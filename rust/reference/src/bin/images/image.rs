//! Areas laid byte by byte, as 01 has a segment.

use reference::Key;

/// The key of 01's cases.
pub const KEY: Key = Key { table: 7, key: 9 };
/// Another key of its table.
pub const OTHER: Key = Key { table: 7, key: 10 };

/// Fills what nothing was stored in. Read as entries, a run of it is tombstones that
/// share a version, so that a reader who passes an end is found out.
pub const JUNK: u8 = 4;

/// An area with its N and S.
#[derive(Clone)]
pub struct Image {
    pub slots: u8,
    pub slot_bytes: u16,
    pub area: Vec<u8>,
}

/// The fields of a digest.
#[derive(Clone, Copy)]
pub struct Digest {
    pub number: u32,
    pub map: u32,
    pub next: u32,
}

impl Image {
    /// An area that nothing was stored in.
    pub fn junk(slots: u8, slot_bytes: u16) -> Image {
        let area = vec![JUNK; usize::from(slots) * usize::from(slot_bytes)];
        Image {
            slots,
            slot_bytes,
            area,
        }
    }

    /// The area with other bytes from a place of a slot on.
    pub fn bytes(mut self, slot: usize, offset: usize, bytes: &[u8]) -> Image {
        let start = slot * usize::from(self.slot_bytes) + offset;
        self.area[start..start + bytes.len()].copy_from_slice(bytes);
        self
    }

    /// The area with a digest in a slot, entries, and a kind 0 if there is room for it.
    pub fn slot(self, slot: usize, digest: Digest, entries: &[Vec<u8>]) -> Image {
        let mut bytes = vec![5];
        bytes.extend(digest.number.to_le_bytes());
        bytes.extend(digest.map.to_le_bytes());
        bytes.extend(digest.next.to_le_bytes());
        bytes.extend(entries.concat());
        if bytes.len() < self.slot_bytes.into() {
            bytes.push(0);
        }
        self.bytes(slot, 0, &bytes)
    }
}

/// The bytes of an entry whose value, if its kind has one, goes by the version.
pub fn entry(kind: u8, key: Key, version: u32) -> Vec<u8> {
    let mut bytes = vec![kind];
    bytes.extend(key.stored());
    bytes.extend(version.to_le_bytes());
    bytes.extend((11..entry_length(kind)).map(|i| (version as u8).wrapping_mul(16) ^ i as u8));
    bytes
}

/// An object of kind 1.
pub fn object(key: Key, version: u32) -> Vec<u8> {
    entry(1, key, version)
}

pub fn tombstone(key: Key, version: u32) -> Vec<u8> {
    entry(4, key, version)
}

/// The total length of an entry; the bytes of a kind that is none are as a tombstone's.
pub fn entry_length(kind: u8) -> usize {
    match kind {
        1 => 19,
        2 => 35,
        3 => 67,
        7 => 131,
        _ => 11,
    }
}

/// A key of table 1.
pub fn key(key: u32) -> Key {
    Key { table: 1, key }
}

/// Entries of different keys and versions, from version 100 on, that take up so many
/// bytes.
pub fn filling(bytes: usize) -> Vec<Vec<u8>> {
    let kinds = kinds_filling(bytes).expect("a length that entries can have");
    (100..)
        .zip(kinds)
        .map(|(version, kind)| entry(kind, key(version), version))
        .collect()
}

fn kinds_filling(bytes: usize) -> Option<Vec<u8>> {
    if bytes == 0 {
        return Some(Vec::new());
    }
    [3, 2, 1, 4].into_iter().find_map(|kind| {
        let mut kinds = kinds_filling(bytes.checked_sub(entry_length(kind))?)?;
        kinds.push(kind);
        Some(kinds)
    })
}
