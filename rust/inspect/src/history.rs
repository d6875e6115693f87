//! The history of one key: its entries in the log, then what other bytes still show of it.

use reference::segment::{read_entry, Entry as Read, Fields};
use reference::{Edition, Key};

use crate::entries::{chain, Entry};
use crate::image::{layout_of, Image, Place};
use crate::report::Report;

/// Bytes outside the log's entries that read as an entry of the key. They do not count.
#[derive(Clone, PartialEq, Eq, Debug)]
pub struct Remains {
    /// Where they start.
    pub place: Place,
    /// Kind, key, version and length.
    pub fields: Fields,
    /// The bytes of the value.
    pub value: Vec<u8>,
    /// Whether the slot is outside the log; else they stand behind the end of a slot's entries.
    pub is_in_free_slot: bool,
}

/// What an image shows of one key.
#[derive(Clone, PartialEq, Eq, Debug)]
pub struct History {
    /// The key.
    pub key: Key,
    /// Its entries in the log, by version.
    pub entries: Vec<Entry>,
    /// What does not count, by version.
    pub remains: Vec<Remains>,
}

/// The history of a key in an image.
pub fn history(image: &Image, report: &Report, key: Key) -> History {
    let of_key = report
        .entries
        .iter()
        .filter(|entry| entry.fields.key == key);
    let mut entries: Vec<Entry> = of_key.cloned().collect();
    entries.sort_by_key(|entry| entry.fields.version);
    let mut remains: Vec<Remains> = (0..image.slots)
        .flat_map(|slot| remains_in(image, report, slot, key))
        .collect();
    remains.sort_by_key(|one| (one.fields.version, one.place));
    History {
        key,
        entries,
        remains,
    }
}

/// What reads as an entry of the key, of either edition, at any offset of a slot that no listed entry covers.
fn remains_in(image: &Image, report: &Report, slot: u32, key: Key) -> Vec<Remains> {
    let segment = image.segment(slot);
    let is_listed = match report.log {
        Some(log) => log.map.has(slot),
        None => report.rows[slot as usize].digest.is_some(),
    };
    let from = if is_listed {
        chain(segment).end
    } else {
        layout_of(segment).digest_bytes()
    };
    let layouts = || Edition::ALL.into_iter().filter_map(Edition::layout);
    (from..segment.len())
        .flat_map(|offset| layouts().map(move |layout| (layout, offset)))
        .filter_map(
            |(layout, offset)| match read_entry(layout, segment, offset) {
                Read::Object(fields) | Read::Tombstone(fields) if fields.key == key => {
                    Some(Remains {
                        place: Place { slot, offset },
                        fields,
                        value: segment[offset + fields.value..offset + fields.length].to_vec(),
                        is_in_free_slot: !is_listed,
                    })
                }
                _ => None,
            },
        )
        .collect()
}
