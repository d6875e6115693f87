//! Where in an image the cause of a refused recovery stands (01, "Refused calls").
//!
//! The causes are looked for in the order of recovery's tests, by what is wrong and not by number: which number a cause
//! has is the reference's to say.

use std::collections::{BTreeMap, BTreeSet};

use reference::edition::{FIRST, MAP, NEXT, NUMBER, SECOND};
use reference::layout::CELLS;
use reference::segment::Digest;
use reference::{DigestNumber, Edition, Key, SlotMap, Version};

use crate::entries::{chain, of_slots, Entry};
use crate::image::{layout_of, Image, Log, Place};
use crate::words;

/// Bytes that brought a refusal about.
#[derive(Clone, PartialEq, Eq, Debug)]
pub struct Spot {
    /// Where they start.
    pub place: Place,
    /// The bytes.
    pub bytes: Vec<u8>,
}

/// What brought a refusal about.
#[derive(Clone, PartialEq, Eq, Debug)]
pub struct Cause {
    /// What is wrong.
    pub what: String,
    /// Where it stands.
    pub spots: Vec<Spot>,
    /// The log, where the head's digest is possible: what is wrong is then in its entries.
    pub log: Option<Log>,
    /// Whether each entry of the log is right, and only their keys are too many.
    pub entries_hold: bool,
}

/// The cause of the refusal of an image.
pub fn find(image: &Image) -> Cause {
    let digests: Vec<(u32, Digest)> = (0..image.slots)
        .filter_map(|slot| Some((slot, Digest::read(image.segment(slot))?)))
        .collect();
    let Some(highest) = digests.iter().map(|(_, digest)| digest.number).max() else {
        return no_digest(image);
    };
    let heads: Vec<&(u32, Digest)> = digests
        .iter()
        .filter(|(_, digest)| digest.number == highest)
        .collect();
    let &(head, digest) = heads[0];
    bad_number(image, &heads, highest)
        .or_else(|| bad_next(image, head, digest))
        .or_else(|| bad_map(image, head, digest))
        .or_else(|| missing_digest(image, head, digest))
        .or_else(|| later_edition(image, head, digest))
        .unwrap_or_else(|| bad_log(image, head, digest.map))
}

fn spot(image: &Image, slot: u32, offset: usize, length: usize) -> Spot {
    let segment = image.segment(slot);
    let end = segment.len().min(offset + length);
    Spot {
        place: Place { slot, offset },
        bytes: segment[offset..end].to_vec(),
    }
}

fn digest_fault(what: String, spots: Vec<Spot>) -> Cause {
    Cause {
        what,
        spots,
        log: None,
        entries_hold: false,
    }
}

fn no_digest(image: &Image) -> Cause {
    let spots = (0..image.slots).map(|slot| spot(image, slot, 0, 1));
    let what = format!("byte 0 of no slot is {}", digest_kinds("or"));
    digest_fault(what, spots.collect())
}

/// The kind bytes of digests, of either edition.
fn digest_kinds(or: &str) -> String {
    format!("{} {or} {}", FIRST.digest, SECOND.digest)
}

fn bad_number(image: &Image, heads: &[&(u32, Digest)], highest: DigestNumber) -> Option<Cause> {
    let spots = || {
        let numbers = heads.iter().map(|(slot, _)| spot(image, *slot, NUMBER, 4));
        numbers.collect()
    };
    if highest == DigestNumber(0) {
        return Some(digest_fault(
            "the highest digest number is 0".into(),
            spots(),
        ));
    }
    (heads.len() > 1).then(|| {
        let what = format!(
            "{} slots have the highest digest number, {}",
            heads.len(),
            highest.0
        );
        digest_fault(what, spots())
    })
}

fn bad_next(image: &Image, head: u32, digest: Digest) -> Option<Cause> {
    (digest.next == Version(0)).then(|| {
        let what = "the next version in the head's digest is 0".into();
        let width = digest.layout.version_bytes;
        digest_fault(what, vec![spot(image, head, NEXT, width)])
    })
}

fn bad_map(image: &Image, head: u32, digest: Digest) -> Option<Cause> {
    let all = SlotMap::below(image.slots);
    let what = if !digest.map.is_within(all) {
        let outside = words::slots(digest.map.without(all));
        format!(
            "the head's map names slots not below {}: {outside}",
            image.slots
        )
    } else if !digest.map.has(head) {
        format!("the head's map lacks the head, slot {head}")
    } else if digest.map == all {
        "the head's map leaves no slot free".into()
    } else {
        return None;
    };
    Some(digest_fault(what, vec![spot(image, head, MAP, 4)]))
}

fn missing_digest(image: &Image, head: u32, digest: Digest) -> Option<Cause> {
    let slot = digest
        .map
        .slots()
        .find(|&slot| Edition::of_segment(image.segment(slot)).is_none())?;
    let what = format!(
        "the head's map names slot {slot}, whose byte 0 is neither {}",
        digest_kinds("nor")
    );
    let spots = vec![spot(image, slot, 0, 1), spot(image, head, MAP, 4)];
    Some(digest_fault(what, spots))
}

/// A slot of a later edition than the head's; under a head of the second, older slots are a store on its way over.
fn later_edition(image: &Image, head: u32, digest: Digest) -> Option<Cause> {
    let own = digest.layout.edition;
    let edition = |slot: u32| layout_of(image.segment(slot)).edition;
    let slot = digest.map.slots().find(|&slot| edition(slot) > own)?;
    let what = format!(
        "slot {slot} of the log is of edition {}, and the head, slot {head}, of edition {}",
        edition(slot).0,
        own.0
    );
    let spots = vec![spot(image, slot, 0, 1), spot(image, head, 0, 1)];
    Some(digest_fault(what, spots))
}

/// What is wrong in the entries of the log.
fn bad_log(image: &Image, head: u32, map: SlotMap) -> Cause {
    let entries = of_slots(image, map.slots());
    let fault = damage(image, map).or_else(|| shared_version(image, &entries));
    let entries_hold = fault.is_none();
    let (what, spots) = fault.unwrap_or_else(|| too_many_keys(image, &entries));
    Cause {
        what,
        spots,
        log: Some(Log { map, head }),
        entries_hold,
    }
}

fn damage(image: &Image, map: SlotMap) -> Option<(String, Vec<Spot>)> {
    let (slot, offset) = map.slots().find_map(|slot| {
        let chain = chain(image.segment(slot));
        chain.damaged.then_some((slot, chain.end))
    })?;
    let segment = image.segment(slot);
    let layout = layout_of(segment);
    let kind = segment[offset];
    let what = match layout.entry_bytes(kind) {
        None => format!("no entry of edition {} has kind {kind}", layout.edition.0),
        Some(length) if offset + length > segment.len() => format!(
            "an entry of kind {kind} has {length} bytes, and the slot has {} left",
            segment.len() - offset
        ),
        Some(_) => "no entry has this version".into(),
    };
    let leading = layout.tombstone_bytes();
    Some((what, vec![spot(image, slot, offset, leading)]))
}

fn entry_spot(image: &Image, entry: &Entry) -> Spot {
    let Place { slot, offset } = entry.place;
    spot(image, slot, offset, entry.fields.value)
}

fn shared_version(image: &Image, entries: &[Entry]) -> Option<(String, Vec<Spot>)> {
    let mut seen: BTreeMap<Version, &Entry> = BTreeMap::new();
    entries.iter().find_map(|entry| {
        let version = entry.fields.version;
        let first = seen.insert(version, entry)?;
        let what = format!("two entries have version {}", version.0);
        Some((
            what,
            vec![entry_spot(image, first), entry_spot(image, entry)],
        ))
    })
}

fn too_many_keys(image: &Image, entries: &[Entry]) -> (String, Vec<Spot>) {
    let most = *CELLS.end() as usize - 1;
    let mut keys: BTreeSet<Key> = BTreeSet::new();
    let mut first_too_many = None;
    for entry in entries {
        if keys.insert(entry.fields.key) && keys.len() == most + 1 {
            first_too_many = Some(entry_spot(image, entry));
        }
    }
    let what = format!(
        "the log has {} keys, and the largest index takes {most}",
        keys.len()
    );
    (what, first_too_many.into_iter().collect())
}
