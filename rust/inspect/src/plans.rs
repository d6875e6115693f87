//! The operations that may have been under way, with their stores in order (01, "Operations, store by store").
//!
//! The second implementation plans them. What the image cannot tell, such as the value of a write, is taken as it stands
//! where the operation would store it.

use reference::edition::{Layout, MAP, NEXT, SECOND, VALUES};
use reference::segment::{read_entry, Digest, Entry as Read, Key as StoreKey};
use reference::{
    clean, delete, next_store, write, DigestNumber, Edition, Pending, Record, SlotMap, Started,
    Store, Tables, Version,
};

use crate::image::{layout_of, Image};
use crate::verdict::Recovered;

/// An operation, as far as the bytes name it.
#[derive(Clone, Copy, PartialEq, Eq, Debug)]
pub enum Operation {
    /// A write of so many bytes; its key, if it stands there.
    Write(usize, Option<StoreKey>),
    /// A delete; its key, if it stands there.
    Delete(Option<StoreKey>),
    /// A delete that finds no room and cleans the slot of the live object; its key, if it is told.
    FullDelete(Option<StoreKey>, u32),
    /// A cleaning of these slots.
    Clean(SlotMap),
    /// A new head whose map does not stand there whole.
    NewHead,
}

/// Where an operation stores its bytes.
#[derive(Clone, Copy, PartialEq, Eq, Debug)]
pub enum Site {
    /// Behind the head's end.
    Tail,
    /// In the slot that a new head takes.
    NewHead,
}

/// An operation and its stores.
#[derive(Clone, PartialEq, Eq, Debug)]
pub struct Plan {
    /// The operation.
    pub operation: Operation,
    /// Where it stores.
    pub site: Site,
    /// Its stores in order, as far as they are known.
    pub stores: Vec<Store>,
    /// Whether these are all of them.
    pub is_whole: bool,
    /// The bytes that it lays down, from the first one on.
    pub bytes: Vec<u8>,
    /// Kinds and sizes of its edition.
    pub layout: &'static Layout,
    /// Whether it is one of a store that was switched: its new head is of another edition than the old one.
    pub is_switched: bool,
}

/// Plans operations on a store, the bytes of which `standing` shows, perhaps some stores later.
pub struct Planner<'a> {
    image: &'a Image,
    index: &'a [u32],
    record: Record,
    /// Kinds and sizes of the head's edition, and of a new head's.
    head: &'static Layout,
    new_head: &'static Layout,
    standing: &'a [u8],
}

impl<'a> Planner<'a> {
    /// A planner for the store in an image.
    pub fn new(image: &'a Image, recovered: &'a Recovered, standing: &'a [u8]) -> Planner<'a> {
        // How large the drive's index is, is not known: no write is left out for want of a cell.
        let record = Record {
            keys: 0,
            ..recovered.record
        };
        let head = layout_of(image.segment(record.head));
        Planner {
            image,
            index: &recovered.index,
            record,
            head,
            new_head: head,
            standing,
        }
    }

    /// The plans of every operation that the standing bytes may be a part of. No byte tells whether a store with a head of the
    /// first edition was switched, so that a new head of either edition is planned.
    pub fn all(&self) -> Vec<Plan> {
        let mut plans = self.operations();
        if let Some(switched) = self.switched() {
            let planned = switched.operations().into_iter();
            plans.extend(planned.filter(|plan| plan.site == Site::NewHead));
        }
        plans.extend(self.begun_new_head());
        plans
    }

    /// A planner for the same store once it is switched, where that makes a difference.
    fn switched(&self) -> Option<Planner<'a>> {
        let record = Record {
            switched: true,
            ..self.record
        };
        (record.edition == Edition::FIRST).then_some(Planner {
            record,
            new_head: &SECOND,
            ..*self
        })
    }

    /// The plans of all writes, deletes and cleanings.
    fn operations(&self) -> Vec<Plan> {
        let mut plans: Vec<Plan> = VALUES
            .into_iter()
            .filter_map(|bytes| self.write(bytes))
            .collect();
        plans.extend(self.deletes());
        plans.extend(self.cleaning());
        plans
    }

    /// The slot that a new head takes, if there can be one.
    pub fn new_head_slot(&self) -> Option<u32> {
        let Record {
            map, head, slots, ..
        } = self.record;
        (self.record.digest != DigestNumber::LAST)
            .then(|| map.first_free_after(head, slots))
            .flatten()
    }

    /// Where an entry with so many value bytes would start, and the layout that it would have there.
    fn room(&self, value_bytes: usize) -> Option<(usize, &'static Layout)> {
        let slot_bytes = self.record.slot_bytes as usize;
        let end = self.record.end as usize;
        let length = self.head.tombstone_bytes() + value_bytes;
        if end + length <= slot_bytes && self.record.next <= self.head.last_version() {
            return Some((self.record.head as usize * slot_bytes + end, self.head));
        }
        let start = self.new_head_slot()? as usize * slot_bytes;
        Some((start + self.new_head.digest_bytes(), self.new_head))
    }

    fn start(&self, start: impl FnOnce(Record, &mut [u8]) -> Started) -> Option<(Record, Vec<u8>)> {
        let mut work = vec![0; self.record.slot_bytes as usize];
        let (record, answer) = start(self.record, &mut work);
        answer.ok().map(|_| (record, work))
    }

    fn write(&self, bytes: usize) -> Option<Plan> {
        let (at, layout) = self.room(bytes)?;
        let leading = layout.tombstone_bytes();
        let entry = self.standing.get(at..at + leading + bytes)?;
        let (key, value) = (standing_key(entry), &entry[leading..]);
        let (area, index) = (&self.image.area, self.index);
        let (record, work) =
            self.start(|record, work| write(record, area, index, work, Tables::ALL, key, value))?;
        Some(self.plan(Operation::Write(bytes, Some(key)), record, work))
    }

    /// A delete of every present key.
    fn deletes(&self) -> Vec<Plan> {
        let (area, index) = (&self.image.area, self.index);
        self.live()
            .filter_map(|(slot, key)| {
                let (record, work) =
                    self.start(|record, work| delete(record, area, index, work, Tables::ALL, key))?;
                let operation = match record.pending {
                    Pending::Append { .. } | Pending::NewHead { .. } => {
                        Operation::Delete(Some(key))
                    }
                    _ => Operation::FullDelete(Some(key), slot),
                };
                Some(self.plan(operation, record, work))
            })
            .collect()
    }

    /// Slot and key of each live object: an index cell leads to it.
    fn live(&self) -> impl Iterator<Item = (u32, StoreKey)> + '_ {
        self.index.iter().filter_map(|&mark| {
            let at = mark.checked_sub(1)? as usize;
            let place = self.image.place(at);
            let segment = self.image.segment(place.slot);
            match read_entry(layout_of(segment), segment, place.offset) {
                Read::Object(fields) => Some((place.slot, fields.key)),
                _ => None,
            }
        })
    }

    /// The slot of the new head, the most that its map can have, and the map that stands there.
    fn new_head_maps(&self) -> Option<(u32, SlotMap, SlotMap)> {
        let slot = self.new_head_slot()?;
        let start = (slot * self.record.slot_bytes) as usize;
        let map_bytes = &self.standing[start + MAP..start + NEXT];
        let stood = SlotMap(u32::from_le_bytes([
            map_bytes[0],
            map_bytes[1],
            map_bytes[2],
            map_bytes[3],
        ]));
        Some((slot, self.record.map.with(slot), stood))
    }

    /// The cleaning whose map stands in the new head's slot.
    fn cleaning(&self) -> Option<Plan> {
        let (slot, map, stood) = self.new_head_maps()?;
        if !stood.is_within(map) || !stood.has(slot) {
            return None;
        }
        let victims = map.without(stood);
        let (area, index) = (&self.image.area, self.index);
        let (record, work) =
            self.start(|record, work| clean(record, area, index, work, victims))?;
        Some(self.plan(Operation::Clean(victims), record, work))
    }

    /// The stores that a new head begins with whatever its victims and its edition are: those of the number, and as many bytes
    /// of the map as some choice of victims can have put there, but not the last.
    fn begun_new_head(&self) -> Option<Plan> {
        let (slot, map, stood) = self.new_head_maps()?;
        let own = SlotMap::EMPTY.with(slot);
        let possible = (0..4)
            .take_while(|byte| {
                let low = SlotMap::below(8 * byte + 8);
                let (stood, own) = (SlotMap(stood.0 & low.0), SlotMap(own.0 & low.0));
                stood.is_within(map) && own.is_within(stood)
            })
            .count();
        let digest = Digest {
            layout: self.new_head,
            number: DigestNumber(self.record.digest.0 + 1),
            map: stood,
            next: Version::NONE,
        };
        let known = MAP + possible.min(3);
        let mut bytes = vec![0; self.new_head.digest_bytes()];
        digest.lay(&mut bytes);
        bytes.truncate(known);
        bytes[0] = 0;
        let start = (slot * self.record.slot_bytes) as usize;
        let stores = bytes.iter().enumerate().map(|(offset, &byte)| Store {
            place: start + offset,
            byte,
        });
        Some(Plan {
            operation: Operation::NewHead,
            site: Site::NewHead,
            stores: stores.collect(),
            is_whole: false,
            bytes,
            layout: self.new_head,
            is_switched: false,
        })
    }

    /// The plan of an operation that was started.
    fn plan(&self, operation: Operation, started: Record, mut work: Vec<u8>) -> Plan {
        let (site, length) = match started.pending {
            Pending::Append { length, .. } => (Site::Tail, length),
            Pending::NewHead { length, .. }
            | Pending::Clean { length, .. }
            | Pending::Forget { length, .. } => (Site::NewHead, length),
            Pending::None => (Site::Tail, 0),
        };
        let stores = stores(started, &self.image.area, &work);
        work.truncate(length as usize);
        let layout = match site {
            Site::Tail => self.head,
            Site::NewHead => self.new_head,
        };
        Plan {
            operation,
            site,
            stores,
            is_whole: true,
            bytes: work,
            layout,
            is_switched: layout != self.head,
        }
    }
}

/// The stores of an operation that was started, in order.
pub fn stores(started: Record, area: &[u8], work: &[u8]) -> Vec<Store> {
    let lefts = (1..=started.pending.left()).rev();
    lefts
        .filter_map(|left| {
            let mut record = started;
            record.pending.set_left(left);
            next_store(&record, area, work).ok()
        })
        .collect()
}

/// The key that stands in the bytes of an entry.
fn standing_key(entry: &[u8]) -> StoreKey {
    StoreKey {
        table: u16::from_le_bytes([entry[1], entry[2]]),
        key: u32::from_le_bytes([entry[3], entry[4], entry[5], entry[6]]),
    }
}
