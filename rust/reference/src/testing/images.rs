//! Images made without the store: valid ones in many shapes, and ways to damage them.

use crate::edition::{Edition, Layout, FIRST, MAP, NEXT, NUMBER, SECOND, VERSION};
use crate::rng::Rng;
use crate::{Key, Version};

/// How an image's versions are chosen.
#[derive(Clone, Copy, PartialEq, Eq, Debug)]
pub enum Versions {
    /// One after the other.
    InARow,
    /// At random, rarely shared.
    Random,
    /// A constant stride apart, in a shuffled order.
    Stride(u64),
}

/// An area with what is known of it.
pub struct Image {
    /// N.
    pub slots: u32,
    /// S.
    pub slot_bytes: u32,
    /// Kinds and sizes of the head's edition.
    pub layout: &'static Layout,
    /// The bytes.
    pub area: Vec<u8>,
    /// Offsets in the area at which the entries start.
    pub entries: Vec<usize>,
    /// Slot of the head.
    pub head: u32,
}

/// The shape of an image to be made.
pub struct Shape {
    /// N.
    pub slots: u32,
    /// S.
    pub slot_bytes: u32,
    /// Kinds and sizes of the head's edition.
    pub layout: &'static Layout,
    /// Whether other slots are of the first edition as often as not, which only a head of the second allows.
    pub older_slots: bool,
    /// How many keys the entries are of, at the most.
    pub keys: u32,
    /// How the versions are chosen.
    pub versions: Versions,
    /// Lengths of the values to choose from; 0 is a tombstone.
    pub values: Vec<usize>,
    /// Whether every slot of the log is filled as far as it goes.
    pub full: bool,
}

fn layout_of(edition: Edition) -> &'static Layout {
    edition.layout().expect("there is such an edition")
}

/// A stride, which leaves the low halves of versions the same where an edition has wide ones.
fn wide(layout: &Layout, stride: u64) -> u64 {
    match layout.edition {
        Edition::SECOND => 1 << 32,
        _ => stride,
    }
}

impl Shape {
    /// Any shape of an edition.
    pub fn random(rng: &mut Rng, edition: Edition) -> Shape {
        let layout = layout_of(edition);
        Shape {
            layout,
            older_slots: edition == Edition::SECOND && rng.one_in(3),
            slots: *rng.pick(&[4, 4, 5, 7, 16, 31, 32]),
            slot_bytes: match rng.below(4) {
                0 => 256,
                1 => 2048,
                2 => rng.within(256, 300),
                _ => rng.within(256, 2048),
            },
            keys: *rng.pick(&[1, 3, 15, 16, 40, 500, 6000]),
            versions: *rng.pick(&[
                Versions::InARow,
                Versions::Random,
                Versions::Stride(8192),
                Versions::Stride(wide(layout, 1024)),
            ]),
            values: rng
                .pick(&[
                    vec![8, 24, 56, 0, 120],
                    vec![0],
                    vec![8],
                    vec![8, 0],
                    vec![120],
                ])
                .clone(),
            full: rng.one_in(3),
        }
    }

    /// A valid image of this shape, with random bytes where none count.
    pub fn make(&self, rng: &mut Rng) -> Image {
        let mut area = vec![0; (self.slots * self.slot_bytes) as usize];
        rng.fill(&mut area);
        let all = u32::MAX >> (32 - self.slots);
        let map = match rng.below(3) {
            0 => all & !(1 << rng.below(self.slots)),
            _ => rng.bits() as u32 & all & !(1 << rng.below(self.slots)),
        };
        let map = if map == 0 { 1 } else { map };
        let mut image = Image {
            slots: self.slots,
            slot_bytes: self.slot_bytes,
            layout: self.layout,
            area,
            entries: Vec::new(),
            head: 0,
        };
        self.lay_digests(rng, &mut image, map);
        for slot in (0..self.slots).filter(|slot| map >> slot & 1 == 1) {
            self.lay_entries(rng, &mut image, slot);
        }
        self.lay_versions(rng, &mut image);
        image
    }

    fn lay_digests(&self, rng: &mut Rng, image: &mut Image, map: u32) {
        let order = rng.order(self.slots);
        let head = *order
            .iter()
            .rev()
            .find(|&&slot| map >> slot & 1 == 1)
            .expect("the map is not empty");
        image.head = u32::from(head);
        for (number, &slot) in order.iter().enumerate() {
            let start = usize::from(slot) * self.slot_bytes as usize;
            let in_log = map >> slot & 1 == 1;
            let layout = match self.older_slots && slot != head && rng.one_in(2) {
                true => &FIRST,
                false => self.layout,
            };
            let kind = layout.digest;
            image.area[start] = if in_log || rng.one_in(2) { kind } else { 0 };
            let number = if slot == head { 100 } else { number as u32 };
            let next = Version(u64::from(rng.within(1, 9000)));
            let digest = &mut image.area[start..start + layout.digest_bytes()];
            digest[NUMBER..MAP].copy_from_slice(&number.to_le_bytes());
            digest[MAP..NEXT].copy_from_slice(&map.to_le_bytes());
            layout.lay_version(next, &mut digest[NEXT..]);
        }
    }

    fn lay_entries(&self, rng: &mut Rng, image: &mut Image, slot: u32) {
        let start = (slot * self.slot_bytes) as usize;
        let end = start + self.slot_bytes as usize;
        let layout = image.layout_at(start);
        let mut at = start + layout.digest_bytes();
        let stop = if self.full {
            end
        } else {
            at + rng.below(self.slot_bytes) as usize
        };
        loop {
            let value = *rng.pick(&self.values);
            let length = layout.tombstone_bytes() + value;
            if at + length > end.min(stop) {
                break;
            }
            let key = rng.below(self.keys);
            image.area[at] = layout.entry_kind(value);
            image.area[at + 1..at + 3].copy_from_slice(&(key as u16 % 3).to_le_bytes());
            image.area[at + 3..at + 7].copy_from_slice(&(key / 3).to_le_bytes());
            image.entries.push(at);
            at += length;
        }
        if at < end {
            image.area[at] = 0;
        }
    }

    fn lay_versions(&self, rng: &mut Rng, image: &mut Image) {
        let mut ranks: Vec<u32> = (0..image.entries.len() as u32).collect();
        if self.versions != Versions::InARow {
            for last in (1..ranks.len()).rev() {
                ranks.swap(last, rng.below(last as u32 + 1) as usize);
            }
        }
        for (at, rank) in image.entries.clone().into_iter().zip(ranks) {
            let layout = image.layout_at(at);
            let rank = u64::from(rank);
            let version = match self.versions {
                Versions::InARow => rank + 1,
                Versions::Random => 1 + rng.bits() % layout.last_version().0,
                // A stride that leaves low halves the same is too long for an older slot.
                Versions::Stride(stride) if layout.edition == Edition::FIRST => {
                    rank * stride.min(65536) + 1
                }
                Versions::Stride(stride) => rank * stride + 1,
            };
            image.lay_version(at, Version(version));
        }
    }
}

impl Image {
    /// A full area of many keys, whose versions may all meet in a filter by their low bits.
    pub fn with_many_keys(rng: &mut Rng, edition: Edition) -> Image {
        let layout = layout_of(edition);
        let shape = Shape {
            layout,
            older_slots: edition == Edition::SECOND && rng.one_in(3),
            slots: 32,
            slot_bytes: rng.within(1900, 2048),
            keys: 3000,
            versions: *rng.pick(&[
                Versions::InARow,
                Versions::Random,
                Versions::Stride(wide(layout, 65536)),
                Versions::Stride(16384),
                Versions::Stride(8192),
                Versions::Stride(2048),
                Versions::Stride(1),
            ]),
            values: vec![0, 0, 0, 8],
            full: true,
        };
        shape.make(rng)
    }

    /// A key of an entry, or one that is likely absent.
    pub fn some_key(&self, rng: &mut Rng) -> Key {
        if self.entries.is_empty() || rng.one_in(6) {
            return Key {
                table: rng.below(4) as u16,
                key: rng.below(3000),
            };
        }
        let at = *rng.pick(&self.entries);
        let bytes = &self.area[at..];
        Key {
            table: u16::from_le_bytes([bytes[1], bytes[2]]),
            key: u32::from_le_bytes([bytes[3], bytes[4], bytes[5], bytes[6]]),
        }
    }

    /// Gives one entry the version of another, if there are two.
    pub fn share_a_version(&mut self, rng: &mut Rng) {
        if self.entries.len() < 2 {
            return;
        }
        let from = *rng.pick(&self.entries);
        let to = *rng.pick(&self.entries);
        let version = self
            .layout_at(from)
            .version_in(&self.area[from + VERSION..])
            .expect("an entry is there");
        self.lay_version(to, version);
    }

    /// The layout of the slot that has this place, in the log.
    fn layout_at(&self, place: usize) -> &'static Layout {
        let start = place - place % self.slot_bytes as usize;
        let edition = Edition::of_segment(&self.area[start..]);
        layout_of(edition.expect("slots of the log have digests"))
    }

    /// Gives the entry at a place a version, or as much of it as there is room for.
    fn lay_version(&mut self, place: usize, version: Version) {
        let layout = self.layout_at(place);
        let bytes = place + VERSION..place + layout.tombstone_bytes();
        layout.lay_version(version, &mut self.area[bytes]);
    }

    /// Alters a byte where it is likely to matter. A slot may come to begin with a digest of either edition.
    pub fn damage(&mut self, rng: &mut Rng) {
        let slot_start = (rng.below(self.slots) * self.slot_bytes) as usize;
        let digest = self.layout.digest_bytes() as u32;
        let tombstone = self.layout.tombstone_bytes() as u32;
        let at = match rng.below(5) {
            0 => slot_start,
            1 => slot_start + rng.below(digest + 1) as usize,
            2 => (self.head * self.slot_bytes) as usize + rng.below(digest) as usize,
            3 if !self.entries.is_empty() => {
                *rng.pick(&self.entries) + rng.below(tombstone) as usize
            }
            _ => rng.below(self.area.len() as u32) as usize,
        };
        self.area[at] = match rng.below(4) {
            0 if at == slot_start && rng.one_in(2) => *rng.pick(&[FIRST.digest, SECOND.digest]),
            0 => rng.below(15) as u8,
            1 => 0,
            2 => 0xFF,
            _ => rng.bits() as u8,
        };
    }
}

/// An area of 32 slots of 2,048 bytes in edition 1 whose log is the first 31, each with so many tombstones of keys of table 1; keys and
/// versions count from 1 on. From 133 tombstones a slot on no index takes all its keys.
pub fn many_tombstones(each: u32) -> Vec<u8> {
    let mut area = vec![0; 32 * 2048];
    let mut last: u32 = 0;
    for (slot, segment) in (1..=31u32).zip(area.chunks_exact_mut(2048)) {
        let mut bytes = vec![5];
        for field in [slot, 0x7FFF_FFFF, 1] {
            bytes.extend(field.to_le_bytes());
        }
        for _ in 0..each {
            last += 1;
            bytes.extend([4, 1, 0]);
            bytes.extend(last.to_le_bytes());
            bytes.extend(last.to_le_bytes());
        }
        segment[..bytes.len()].copy_from_slice(&bytes);
    }
    area
}
