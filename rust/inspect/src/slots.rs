//! What each slot holds.

use reference::segment::Digest;
use reference::{clean, DigestNumber, Pending, Record, SlotMap};

use crate::entries::{chain, Entry, Reason};
use crate::image::{layout_of, Image, Log};
use crate::verdict::Recovered;

/// What a slot is to the log.
#[derive(Clone, Copy, PartialEq, Eq, Debug)]
pub enum Role {
    /// The log's newest segment.
    Head,
    /// An older segment of the log.
    Log,
    /// Outside the log.
    Free,
    /// The head's digest is not possible, so there is no log.
    Unknown,
}

/// One slot.
#[derive(Clone, PartialEq, Eq, Debug)]
pub struct Row {
    /// The slot.
    pub slot: u32,
    /// What it is to the log.
    pub role: Role,
    /// Its digest, if byte 0 says that it has one.
    pub digest: Option<Digest>,
    /// What its bytes are used for, if it is in the log.
    pub used: Option<Used>,
}

/// The bytes of a slot of the log.
#[derive(Clone, PartialEq, Eq, Debug)]
pub struct Used {
    /// How many entries it has, up to damage.
    pub entries: usize,
    /// Bytes of objects that give present keys their values; none if nothing is decided.
    pub present: Option<usize>,
    /// Bytes of the entries that a cleaning of this slot alone would keep, as they would stand in the new head of a store that is
    /// not switched; none if they do not fit it.
    pub kept: Option<usize>,
    /// Offset behind the last entry.
    pub end: usize,
    /// Bytes behind it; none if no entry can stand there.
    pub unused: Option<usize>,
}

/// The rows of all slots. The entries are those of the log.
pub fn rows(
    image: &Image,
    log: Option<Log>,
    entries: &[Entry],
    recovered: Option<&Recovered>,
) -> Vec<Row> {
    (0..image.slots)
        .map(|slot| {
            let role = role(log, slot);
            let is_in_log = matches!(role, Role::Head | Role::Log);
            Row {
                slot,
                role,
                digest: Digest::read(image.segment(slot)),
                used: is_in_log.then(|| used(image, slot, entries, recovered)),
            }
        })
        .collect()
}

fn role(log: Option<Log>, slot: u32) -> Role {
    match log {
        None => Role::Unknown,
        Some(log) if log.head == slot => Role::Head,
        Some(log) if log.map.has(slot) => Role::Log,
        Some(_) => Role::Free,
    }
}

fn used(image: &Image, slot: u32, entries: &[Entry], recovered: Option<&Recovered>) -> Used {
    let chain = chain(image.segment(slot));
    let of_slot = || entries.iter().filter(|entry| entry.place.slot == slot);
    let decided = of_slot().all(|entry| entry.reason != Reason::Undecided) && !chain.damaged;
    let present = of_slot()
        .filter(|entry| entry.reason == Reason::Present)
        .map(|entry| entry.fields.length)
        .sum();
    Used {
        entries: chain.entries.len(),
        present: decided.then_some(present),
        kept: recovered.and_then(|recovered| kept(image, recovered, slot)),
        end: chain.end,
        unused: (!chain.damaged).then_some(image.slot_bytes as usize - chain.end),
    }
}

/// What a cleaning of one slot keeps. It is planned as if digest numbers were left.
fn kept(image: &Image, recovered: &Recovered, slot: u32) -> Option<usize> {
    let mut work = vec![0; image.slot_bytes as usize];
    let record = Record {
        digest: DigestNumber::FIRST,
        ..recovered.record
    };
    let victims = SlotMap::EMPTY.with(slot);
    let (started, _) = clean(record, &image.area, &recovered.index, &mut work, victims);
    match started.pending {
        Pending::Clean { length, .. } => {
            let head = layout_of(image.segment(recovered.record.head));
            Some(length as usize - head.digest_bytes())
        }
        _ => None,
    }
}
