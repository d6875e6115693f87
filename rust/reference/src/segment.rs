//! The bytes of one segment (01, "Bytes of a segment"; 02, R-3 and R-11): its digest and its entries.
//!
//! Nothing here knows more than a single segment.

use crate::counters::{DigestNumber, Version};
use crate::edition::{Edition, Layout, END, MAP, NEXT, NUMBER, VERSION};
use crate::fnv::fnv1a;
use crate::slot_map::SlotMap;

/// A table and a key in it; 01 calls the two together a key.
#[derive(Clone, Copy, PartialEq, Eq, PartialOrd, Ord, Hash, Debug)]
pub struct Key {
    /// The table.
    pub table: u16,
    /// The key within the table.
    pub key: u32,
}

impl Key {
    /// The six bytes as an entry stores them.
    #[inline]
    pub fn stored(self) -> [u8; 6] {
        let [t0, t1] = self.table.to_le_bytes();
        let [k0, k1, k2, k3] = self.key.to_le_bytes();
        [t0, t1, k0, k1, k2, k3]
    }

    /// FNV-1a of the stored bytes.
    #[inline]
    pub fn hash(self) -> u32 {
        fnv1a(&self.stored())
    }

    /// The key of an entry, from the bytes before its version.
    #[inline]
    pub(crate) fn of_entry(entry: &[u8; VERSION]) -> Key {
        let [_, t0, t1, k0, k1, k2, k3] = *entry;
        Key {
            table: u16::from_le_bytes([t0, t1]),
            key: u32::from_le_bytes([k0, k1, k2, k3]),
        }
    }
}

/// The fields of an object or tombstone, and its length.
#[derive(Clone, Copy, PartialEq, Eq, Debug)]
pub struct Fields {
    /// The kind byte.
    pub kind: u8,
    /// Table and key.
    pub key: Key,
    /// The version.
    pub version: Version,
    /// Offset of the value in the entry.
    pub value: usize,
    /// Total length in bytes.
    pub length: usize,
}

impl Fields {
    /// Whether it is a tombstone, which has no value.
    #[inline]
    pub fn is_tombstone(&self) -> bool {
        self.value == self.length
    }

    /// Its length in this layout.
    #[inline]
    pub(crate) fn bytes_in(&self, layout: &Layout) -> usize {
        layout.tombstone_bytes() + self.length - self.value
    }
}

/// What the reader of an entry finds.
#[derive(Clone, Copy, PartialEq, Eq, Debug)]
pub enum Entry {
    /// An object.
    Object(Fields),
    /// A tombstone.
    Tombstone(Fields),
    /// No more entries: a kind 0, or the end of the segment.
    End,
    /// A kind that the edition does not have, an entry past the segment, or a version no entry
    /// may have.
    Damage,
}

/// Reads the entry at an offset of a segment. An offset past its end is damage.
#[inline(always)]
pub fn read_entry(layout: &Layout, segment: &[u8], offset: usize) -> Entry {
    let Some(rest) = segment.get(offset..) else {
        return Entry::Damage;
    };
    let kind = match rest.first() {
        None | Some(&END) => return Entry::End,
        Some(&kind) => kind,
    };
    let (Some(length), Some((key, version))) = (layout.entry_bytes(kind), leading(layout, rest))
    else {
        return Entry::Damage;
    };
    if length > rest.len() || !layout.has_version(version) {
        return Entry::Damage;
    }
    let fields = Fields {
        kind,
        key,
        version,
        value: layout.tombstone_bytes(),
        length,
    };
    if kind == layout.tombstone {
        Entry::Tombstone(fields)
    } else {
        Entry::Object(fields)
    }
}

/// Key and version of an entry; none if there are too few bytes for them.
#[inline(always)]
fn leading(layout: &Layout, entry: &[u8]) -> Option<(Key, Version)> {
    let version = layout.version_in(entry.get(VERSION..)?)?;
    Some((Key::of_entry(entry.first_chunk()?), version))
}

/// Lays an object or a tombstone (whose value is empty) into `out`, which has exactly
/// the entry's length.
#[inline]
pub(crate) fn lay_entry(
    layout: &Layout,
    out: &mut [u8],
    kind: u8,
    key: Key,
    version: Version,
    value: &[u8],
) {
    let (leading, rest) = out.split_at_mut(layout.tombstone_bytes());
    leading[0] = kind;
    leading[1..VERSION].copy_from_slice(&key.stored());
    layout.lay_version(version, &mut leading[VERSION..]);
    rest.copy_from_slice(value);
}

/// Lays an entry with these fields, whose bytes begin `bytes`, into `out` in a layout that has its
/// version, and gives its length there.
#[inline(always)]
pub(crate) fn lay_rewritten(
    layout: &Layout,
    out: &mut [u8],
    fields: Fields,
    bytes: &[u8],
) -> usize {
    let length = fields.bytes_in(layout);
    let value = &bytes[fields.value..fields.length];
    let kind = layout.entry_kind(value.len());
    lay_entry(
        layout,
        &mut out[..length],
        kind,
        fields.key,
        fields.version,
        value,
    );
    length
}

/// The fields of a digest.
#[derive(Clone, Copy, PartialEq, Eq, Debug)]
pub struct Digest {
    /// The layout of its segment.
    pub layout: &'static Layout,
    /// Its number; the highest is the head's.
    pub number: DigestNumber,
    /// The slots of the log.
    pub map: SlotMap,
    /// The next version when the digest was made.
    pub next: Version,
}

impl Digest {
    /// The digest of a segment, if its first byte says that it has one.
    #[inline]
    pub fn read(segment: &[u8]) -> Option<Digest> {
        let layout = Edition::of_segment(segment)?.layout()?;
        let number = |at: usize| Some(u32::from_le_bytes(*segment.get(at..)?.first_chunk()?));
        Some(Digest {
            layout,
            number: DigestNumber(number(NUMBER)?),
            map: SlotMap(number(MAP)?),
            next: layout.version_in(segment.get(NEXT..)?)?,
        })
    }

    /// Lays the bytes of the digest at the start of `out`, which has room for them, and gives
    /// their length.
    #[inline]
    pub fn lay(self, out: &mut [u8]) -> usize {
        let length = self.layout.digest_bytes();
        let out = &mut out[..length];
        out[0] = self.layout.digest;
        out[NUMBER..MAP].copy_from_slice(&self.number.0.to_le_bytes());
        out[MAP..NEXT].copy_from_slice(&self.map.0.to_le_bytes());
        self.layout.lay_version(self.next, &mut out[NEXT..]);
        length
    }
}
