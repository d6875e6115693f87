//! Entries that were lost: keys that are present with an older version than one that once counted.
//!
//! A free slot whose digest still stands was in the log, and each entry of its chain counted. A store that keeps the
//! rules never has an object as a key's highest version below such an entry: the highest version of a key leaves the log
//! only as a tombstone, and only when no object of the key is left; what is written later has a higher version.

use std::collections::BTreeMap;

use reference::segment::Digest;
use reference::Key;

use crate::entries::{of_slots, Entry, Newer, Reason};
use crate::image::{Image, Log};

/// A key that is present although a newer entry of it counted before.
#[derive(Clone, Copy, PartialEq, Eq, Debug)]
pub struct Lost {
    /// The key.
    pub key: Key,
    /// The object that is present.
    pub present: Newer,
    /// The newest entry of the key that a free slot shows.
    pub newer: Newer,
    /// Whether that is a tombstone: the key was deleted.
    pub was_deleted: bool,
}

/// The keys whose newest entry was lost, in order.
pub fn lost(image: &Image, log: Log, entries: &[Entry]) -> Vec<Lost> {
    let counted = |slot: &u32| !log.map.has(*slot) && Digest::read(image.segment(*slot)).is_some();
    let mut newest: BTreeMap<Key, Entry> = BTreeMap::new();
    for entry in of_slots(image, (0..image.slots).filter(counted)) {
        match newest.get(&entry.fields.key) {
            Some(known) if known.fields.version >= entry.fields.version => {}
            _ => {
                newest.insert(entry.fields.key, entry);
            }
        }
    }
    let mut lost: Vec<Lost> = entries
        .iter()
        .filter(|entry| entry.reason == Reason::Present)
        .filter_map(|present| {
            let newer = newest.get(&present.fields.key)?;
            (newer.fields.version > present.fields.version).then(|| Lost {
                key: present.fields.key,
                present: present.newer(),
                newer: newer.newer(),
                was_deleted: newer.is_tombstone(),
            })
        })
        .collect();
    lost.sort_by_key(|one| one.key);
    lost
}
