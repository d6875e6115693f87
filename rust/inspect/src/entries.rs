//! The entries of segments, and the reason why each counts or does not (01, "The log and its map").

use std::collections::BTreeMap;

use reference::segment::{read_entry, Entry as Read, Fields};
use reference::{Key, SlotMap, Version};

use crate::image::{layout_of, Image, Place};

/// Version and place of an entry, such as one that is newer than another of its key.
#[derive(Clone, Copy, PartialEq, Eq, Debug)]
pub struct Newer {
    /// Its version.
    pub version: Version,
    /// Where it is.
    pub place: Place,
}

/// Why an entry counts, or what beats it.
#[derive(Clone, Copy, PartialEq, Eq, Debug)]
pub enum Reason {
    /// An object that gives its key its value.
    Present,
    /// An object of a key whose highest version is another object.
    Overwritten(Newer),
    /// An object of a key whose highest version is a tombstone.
    Deleted(Newer),
    /// A tombstone that is its key's highest version, and an object of the key; one in another slot, if there is one.
    Needed(Place),
    /// A tombstone that is its key's highest version; the log has no object of the key.
    Needless,
    /// A tombstone of a key that has a higher version.
    Outlived(Newer),
    /// Recovery is refused, so nothing is decided.
    Undecided,
}

/// An object or tombstone, its value and its reason.
#[derive(Clone, PartialEq, Eq, Debug)]
pub struct Entry {
    /// Where it starts.
    pub place: Place,
    /// Kind, key, version and length.
    pub fields: Fields,
    /// The bytes of its value; none for a tombstone.
    pub value: Vec<u8>,
    /// Why it counts or does not.
    pub reason: Reason,
}

impl Entry {
    /// Whether it deletes its key.
    pub fn is_tombstone(&self) -> bool {
        self.fields.is_tombstone()
    }

    /// Its version and place.
    pub fn newer(&self) -> Newer {
        Newer {
            version: self.fields.version,
            place: self.place,
        }
    }
}

/// The entries of one segment up to their end or to damage.
#[derive(Clone, PartialEq, Eq, Debug)]
pub struct Chain {
    /// Offset and fields of each entry.
    pub entries: Vec<(usize, Fields)>,
    /// The offset behind the last.
    pub end: usize,
    /// Whether no entry can stand there.
    pub damaged: bool,
}

/// Reads the entries of a segment from the digest's end on.
pub fn chain(segment: &[u8]) -> Chain {
    let layout = layout_of(segment);
    let mut entries = Vec::new();
    let mut end = layout.digest_bytes();
    let damaged = loop {
        match read_entry(layout, segment, end) {
            Read::Object(fields) | Read::Tombstone(fields) => {
                entries.push((end, fields));
                end += fields.length;
            }
            Read::End => break false,
            Read::Damage => break true,
        }
    };
    Chain {
        entries,
        end,
        damaged,
    }
}

/// The entries of these slots by slot and offset, with no reasons yet.
pub fn of_slots(image: &Image, slots: impl Iterator<Item = u32>) -> Vec<Entry> {
    slots
        .flat_map(|slot| {
            let entries = chain(image.segment(slot)).entries;
            entries
                .into_iter()
                .map(move |(offset, fields)| (Place { slot, offset }, fields))
        })
        .map(|(place, fields)| {
            let at = image.at(place);
            Entry {
                place,
                fields,
                value: image.area[at + fields.value..at + fields.length].to_vec(),
                reason: Reason::Undecided,
            }
        })
        .collect()
}

/// The entries of a log with their reasons. The log has no damage and no version twice.
pub fn of_log(image: &Image, map: SlotMap) -> Vec<Entry> {
    let mut entries = of_slots(image, map.slots());
    let mut by_key: BTreeMap<Key, Vec<usize>> = BTreeMap::new();
    for (number, entry) in entries.iter().enumerate() {
        by_key.entry(entry.fields.key).or_default().push(number);
    }
    for numbers in by_key.into_values() {
        let reasons: Vec<Reason> = reasons(&entries, &numbers);
        for (number, reason) in numbers.into_iter().zip(reasons) {
            entries[number].reason = reason;
        }
    }
    entries
}

/// The reasons of the entries of one key.
fn reasons(entries: &[Entry], numbers: &[usize]) -> Vec<Reason> {
    let of_key = || numbers.iter().map(|&number| &entries[number]);
    let Some(newest) = of_key().max_by_key(|entry| entry.fields.version) else {
        return Vec::new();
    };
    let objects = || of_key().filter(|entry| !entry.is_tombstone());
    let elsewhere = objects().find(|object| object.place.slot != newest.place.slot);
    let object = elsewhere.or_else(|| objects().next());
    of_key()
        .map(|entry| {
            let newer = newest.newer();
            match (entry.is_tombstone(), entry == newest) {
                (false, true) => Reason::Present,
                (false, false) if newest.is_tombstone() => Reason::Deleted(newer),
                (false, false) => Reason::Overwritten(newer),
                (true, true) => {
                    object.map_or(Reason::Needless, |object| Reason::Needed(object.place))
                }
                (true, false) => Reason::Outlived(newer),
            }
        })
        .collect()
}
