//! The two editions of the log (01, "Bytes of a segment"; 02, R-3 and R-11): their kinds, sizes and
//! limits, as data.
//!
//! No kind but 0 is of both editions, so that the digest's tells that of a segment, and an entry's
//! own that of an entry.

use crate::counters::Version;

/// An edition, as a caller or a record names it.
#[derive(Clone, Copy, PartialEq, Eq, PartialOrd, Ord, Hash, Debug)]
pub struct Edition(pub u32);

impl Edition {
    /// The edition with versions of 4 bytes.
    pub const FIRST: Edition = Edition(1);
    /// The edition with versions of 8 bytes.
    pub const SECOND: Edition = Edition(2);
    /// Both of them.
    pub const ALL: [Edition; 2] = [Edition::FIRST, Edition::SECOND];

    /// Its layout; none if there is no such edition.
    #[inline]
    pub const fn layout(self) -> Option<&'static Layout> {
        match self {
            Edition::FIRST => Some(&FIRST),
            Edition::SECOND => Some(&SECOND),
            _ => None,
        }
    }

    /// The edition of a segment, if its first byte is a digest's.
    #[inline]
    pub fn of_segment(segment: &[u8]) -> Option<Edition> {
        let kind = *segment.first()?;
        if kind == FIRST.digest {
            Some(Edition::FIRST)
        } else if kind == SECOND.digest {
            Some(Edition::SECOND)
        } else {
            None
        }
    }
}

/// The lengths that a value may have.
pub const VALUES: [usize; 4] = [8, 24, 56, 120];

/// Kind byte after the last entry, in either edition.
pub const END: u8 = 0;

/// Offset of the digest number in a digest.
pub const NUMBER: usize = 1;
/// Offset of the slot map in a digest.
pub const MAP: usize = 5;
/// Offset of the next version in a digest, which it ends.
pub const NEXT: usize = 9;
/// Offset of the version in an entry; kind, table and key come before it.
pub const VERSION: usize = 7;

/// Kinds and sizes of one edition.
#[derive(PartialEq, Eq, Debug)]
pub struct Layout {
    /// The edition.
    pub edition: Edition,
    /// Kind byte of a digest, found at offset 0 only.
    pub digest: u8,
    /// Kind byte of a tombstone.
    pub tombstone: u8,
    /// Kind bytes of objects with values of the lengths of [`VALUES`].
    pub objects: [u8; 4],
    /// Length of a version.
    pub version_bytes: usize,
}

/// The layout of 01, with the fourth object of 02, R-3.
pub const FIRST: Layout = Layout {
    edition: Edition::FIRST,
    digest: 5,
    tombstone: 4,
    objects: [1, 2, 3, 7],
    version_bytes: 4,
};

/// The layout of 02, R-11.
pub const SECOND: Layout = Layout {
    edition: Edition::SECOND,
    digest: 8,
    tombstone: 13,
    objects: [9, 10, 11, 12],
    version_bytes: 8,
};

/// A layout that code is compiled for.
pub(crate) trait Fixed {
    const LAYOUT: Layout;
    /// The one that there is besides.
    type Other: Fixed;
}

/// The first edition.
pub(crate) struct First;

impl Fixed for First {
    const LAYOUT: Layout = FIRST;
    type Other = Second;
}

/// The second edition.
pub(crate) struct Second;

impl Fixed for Second {
    const LAYOUT: Layout = SECOND;
    type Other = First;
}

/// Compiles a call for both layouts and runs the one of this edition. Only a record that is out of
/// range has another, and is refused as one of the first.
macro_rules! by_edition {
    ($edition:expr, $fixed:ident => $call:expr) => {
        if $edition == $crate::edition::Edition::SECOND {
            type $fixed = $crate::edition::Second;
            $call
        } else {
            type $fixed = $crate::edition::First;
            $call
        }
    };
}
pub(crate) use by_edition;

/// Compiles a call for the editions of the head and of the next new head, and runs the one of this
/// record. Once a store is switched, every new head is of the second edition.
macro_rules! by_editions {
    ($record:expr, $head:ident, $new:ident => $call:expr) => {
        if $record.edition == $crate::edition::Edition::SECOND {
            type $head = $crate::edition::Second;
            type $new = $crate::edition::Second;
            $call
        } else if $record.switched {
            type $head = $crate::edition::First;
            type $new = $crate::edition::Second;
            $call
        } else {
            type $head = $crate::edition::First;
            type $new = $crate::edition::First;
            $call
        }
    };
}
pub(crate) use by_editions;

/// The total length of an object of each kind, of either edition; 0 where no object has the kind.
const OBJECT_BYTES: [u8; 256] = {
    let mut bytes = [0; 256];
    let mut number = 0;
    while number < VALUES.len() {
        let mut edition = 0;
        while edition < Edition::ALL.len() {
            let layout = [&FIRST, &SECOND][edition];
            let length = layout.tombstone_bytes() + VALUES[number];
            bytes[layout.objects[number] as usize] = length as u8;
            edition += 1;
        }
        number += 1;
    }
    bytes
};

/// The total length of an object of this kind in the edition that has it; 0 if neither has.
#[inline]
pub(crate) fn object_bytes(kind: u8) -> u32 {
    u32::from(OBJECT_BYTES[kind as usize])
}

impl Layout {
    /// The layout of the edition that has entries of this kind; the first one's if neither has.
    #[inline]
    pub fn of_entry(kind: u8) -> &'static Layout {
        if SECOND.entry_bytes(kind).is_some() {
            &SECOND
        } else {
            &FIRST
        }
    }

    /// Length of a digest, and so the offset of the first entry.
    #[inline]
    pub const fn digest_bytes(&self) -> usize {
        NEXT + self.version_bytes
    }

    /// Length of a tombstone, and of an object before its value.
    #[inline]
    pub const fn tombstone_bytes(&self) -> usize {
        VERSION + self.version_bytes
    }

    /// The kind of an entry with a value of this length, which an entry may have; a tombstone has
    /// none.
    #[inline]
    pub(crate) fn entry_kind(&self, value_bytes: usize) -> u8 {
        self.object_kind(value_bytes).unwrap_or(self.tombstone)
    }

    /// The kind of an object with a value of this length, if there is one.
    #[inline]
    pub fn object_kind(&self, value_bytes: usize) -> Option<u8> {
        let number = VALUES.iter().position(|&bytes| bytes == value_bytes)?;
        Some(self.objects[number])
    }

    /// The total length of an object of this kind, if an object may have it.
    #[inline]
    pub fn object_bytes(&self, kind: u8) -> Option<usize> {
        // Written out, since the walks of the log spend their time here.
        let value = match kind {
            _ if kind == self.objects[0] => VALUES[0],
            _ if kind == self.objects[1] => VALUES[1],
            _ if kind == self.objects[2] => VALUES[2],
            _ if kind == self.objects[3] => VALUES[3],
            _ => return None,
        };
        Some(self.tombstone_bytes() + value)
    }

    /// The total length of an entry of this kind, if an entry may have it.
    #[inline]
    pub fn entry_bytes(&self, kind: u8) -> Option<usize> {
        if kind == self.tombstone {
            Some(self.tombstone_bytes())
        } else {
            self.object_bytes(kind)
        }
    }

    /// The highest version that an entry can have.
    #[inline]
    pub const fn last_version(&self) -> Version {
        Version(self.spent().0 - 1)
    }

    /// A next version at which no further entry can be written: one above the last version.
    #[inline]
    pub const fn spent(&self) -> Version {
        Version(u64::MAX >> (64 - 8 * self.version_bytes))
    }

    /// Whether an entry may have this version.
    #[inline]
    pub const fn has_version(&self, version: Version) -> bool {
        version.0.wrapping_sub(1) < self.last_version().0
    }

    /// Whether a next version may be this one.
    #[inline]
    pub const fn has_next(&self, next: Version) -> bool {
        next.0.wrapping_sub(1) < self.spent().0
    }

    /// The version that bytes begin with; none if they are too few.
    #[inline]
    pub(crate) fn version_in(&self, bytes: &[u8]) -> Option<Version> {
        Some(Version(match self.version_bytes {
            4 => u32::from_le_bytes(*bytes.first_chunk()?).into(),
            _ => u64::from_le_bytes(*bytes.first_chunk()?),
        }))
    }

    /// Lays a version that this edition has into as many bytes as it takes.
    #[inline]
    pub(crate) fn lay_version(&self, version: Version, out: &mut [u8]) {
        out.copy_from_slice(&version.0.to_le_bytes()[..self.version_bytes]);
    }
}
