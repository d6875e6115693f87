//! 01 and 02 once more, as directly as it can be put: everything is recomputed from the whole
//! area into growing lists. The store under test must agree with it.

use std::collections::{BTreeMap, BTreeSet};

use reference::book::Operation;
use reference::{DigestNumber, Edition, Key, Pending, Record, SlotMap, Version};

/// The numbers of an edition, as 01 and 02 have them.
#[derive(Clone, Copy, PartialEq, Eq, Debug)]
pub struct Numbers {
    pub edition: u32,
    pub digest: u8,
    pub digest_bytes: usize,
    pub tombstone: u8,
    pub tombstone_bytes: usize,
    /// Kind, bytes of the value and total of each object.
    pub objects: [(u8, usize, usize); 4],
    pub version_bytes: usize,
    pub last_next: u64,
}

/// The two editions.
pub const EDITIONS: [Numbers; 2] = [
    Numbers {
        edition: 1,
        digest: 5,
        digest_bytes: 13,
        tombstone: 4,
        tombstone_bytes: 11,
        objects: [(1, 8, 19), (2, 24, 35), (3, 56, 67), (7, 120, 131)],
        version_bytes: 4,
        last_next: 4_294_967_295,
    },
    Numbers {
        edition: 2,
        digest: 8,
        digest_bytes: 17,
        tombstone: 13,
        tombstone_bytes: 15,
        objects: [(9, 8, 23), (10, 24, 39), (11, 56, 71), (12, 120, 135)],
        version_bytes: 8,
        last_next: 18_446_744_073_709_551_615,
    },
];

impl Numbers {
    /// Those of the segment that begins with this byte, if it is a digest's.
    pub fn of_digest(kind: u8) -> Option<Numbers> {
        EDITIONS.into_iter().find(|numbers| numbers.digest == kind)
    }

    /// The kind of an object with a value of so many bytes.
    pub fn object(&self, bytes: usize) -> Option<u8> {
        let objects = self.objects.into_iter();
        objects
            .filter(|object| object.1 == bytes)
            .map(|object| object.0)
            .next()
    }

    fn total(&self, kind: u8) -> Option<usize> {
        if kind == self.tombstone {
            return Some(self.tombstone_bytes);
        }
        let objects = self.objects.into_iter();
        objects
            .filter(|object| object.0 == kind)
            .map(|object| object.2)
            .next()
    }

    pub fn stored_version(&self, version: u64) -> Vec<u8> {
        version.to_le_bytes()[..self.version_bytes].to_vec()
    }
}

/// An entry of the log.
#[derive(Clone, PartialEq, Eq, Debug)]
pub struct Line {
    /// Those of its edition.
    pub numbers: Numbers,
    pub slot: u32,
    pub place: usize,
    pub key: Key,
    pub version: u64,
    pub bytes: Vec<u8>,
}

impl Line {
    pub fn is_object(&self) -> bool {
        ![4, 13].contains(&self.bytes[0])
    }

    pub fn value(&self) -> &[u8] {
        &self.bytes[self.numbers.tombstone_bytes..]
    }

    /// Its bytes in an edition.
    fn rewritten(&self, numbers: Numbers) -> Vec<u8> {
        entry(numbers, self.key, self.version, self.value())
    }
}

/// The bytes of an entry; without a value it is a tombstone.
fn entry(numbers: Numbers, key: Key, version: u64, value: &[u8]) -> Vec<u8> {
    let mut bytes = vec![numbers.object(value.len()).unwrap_or(numbers.tombstone)];
    bytes.extend(key.table.to_le_bytes());
    bytes.extend(key.key.to_le_bytes());
    bytes.extend(numbers.stored_version(version));
    bytes.extend(value);
    bytes
}

/// All that recovery finds in an area.
#[derive(Clone, PartialEq, Eq, Debug)]
pub struct View {
    pub record: Record,
    /// Those of the head's edition.
    pub head: Numbers,
    /// Those of the edition of a new head.
    pub new_head: Numbers,
    /// Ascending slot, then offset.
    pub lines: Vec<Line>,
}

/// What an accepted start puts into the work buffer, and its stores.
#[derive(Clone, PartialEq, Eq, Debug)]
pub struct Plan {
    pub work: Vec<u8>,
    pub stores: Vec<(usize, u8)>,
}

fn wide_number(bytes: &[u8], at: usize, width: usize) -> u64 {
    (0..width)
        .rev()
        .fold(0, |value, place| value * 256 + u64::from(bytes[at + place]))
}

fn number(bytes: &[u8], at: usize, width: usize) -> u32 {
    wide_number(bytes, at, width) as u32
}

/// The entries of one slot, which has a digest, and where they end, or 18.
fn lines_of(area: &[u8], slot_bytes: u32, slot: u32) -> Result<(Vec<Line>, u32), u32> {
    let start = (slot * slot_bytes) as usize;
    let segment = &area[start..start + slot_bytes as usize];
    let numbers = Numbers::of_digest(segment[0]).expect("a digest");
    let mut lines = Vec::new();
    let mut at = numbers.digest_bytes;
    while at < segment.len() && segment[at] != 0 {
        let length = numbers.total(segment[at]).ok_or(18u32)?;
        if at + length > segment.len() {
            return Err(18);
        }
        let version = wide_number(segment, at + 7, numbers.version_bytes);
        if version == 0 || version == numbers.last_next {
            return Err(18);
        }
        lines.push(Line {
            numbers,
            slot,
            place: start + at,
            key: Key {
                table: number(segment, at + 1, 2) as u16,
                key: number(segment, at + 3, 4),
            },
            version,
            bytes: segment[at..at + length].to_vec(),
        });
        at += length;
    }
    Ok((lines, at as u32))
}

/// The head's slot and the numbers of its edition, or 16, 17, 24, 25 or 28.
fn head_of(slots: u32, slot_bytes: u32, area: &[u8]) -> Result<(u32, Numbers), u32> {
    let byte_0 = |slot: u32| area[(slot * slot_bytes) as usize];
    let has_digest = |slot: u32| [5, 8].contains(&byte_0(slot));
    let mut numbers: Vec<(u32, u32)> = (0..slots)
        .filter(|&slot| has_digest(slot))
        .map(|slot| (number(area, (slot * slot_bytes) as usize + 1, 4), slot))
        .collect();
    numbers.sort_unstable();
    let &(highest, head) = numbers.last().ok_or(16u32)?;
    if highest == 0 || numbers.iter().filter(|pair| pair.0 == highest).count() > 1 {
        return Err(17);
    }
    let map = number(area, (head * slot_bytes) as usize + 5, 4);
    let own = Numbers::of_digest(byte_0(head)).expect("a digest");
    let next = wide_number(area, (head * slot_bytes) as usize + 9, own.version_bytes);
    let in_map = |slot: u32| map >> slot & 1 == 1;
    if next == 0 {
        return Err(17);
    }
    let beyond = (slots..32).any(in_map);
    let full = (0..slots).all(in_map);
    if beyond || full || !in_map(head) {
        return Err(24);
    }
    if (0..slots).any(|slot| in_map(slot) && !has_digest(slot)) {
        return Err(25);
    }
    if own.edition == 1 && (0..slots).any(|slot| in_map(slot) && byte_0(slot) == 8) {
        return Err(28);
    }
    Ok((head, own))
}

/// The log of an area.
pub struct Log {
    pub numbers: Numbers,
    pub map: u32,
    /// Ascending slot, then offset.
    pub lines: Vec<Line>,
}

/// The log of an area, or what refuses it up to 19.
pub fn log(slots: u32, slot_bytes: u32, area: &[u8]) -> Result<Log, u32> {
    check_geometry(slots, slot_bytes, area)?;
    let (head, numbers) = head_of(slots, slot_bytes, area)?;
    let map = number(area, (head * slot_bytes) as usize + 5, 4);
    let mut lines = Vec::new();
    for slot in (0..slots).filter(|slot| map >> slot & 1 == 1) {
        lines.extend(lines_of(area, slot_bytes, slot)?.0);
    }
    let versions: BTreeSet<u64> = lines.iter().map(|line| line.version).collect();
    if versions.len() != lines.len() {
        return Err(19);
    }
    Ok(Log {
        numbers,
        map,
        lines,
    })
}

/// What a scan for a key must tell of an image: version, kind, place and length of its value.
pub fn scan(
    slots: u32,
    slot_bytes: u32,
    area: &[u8],
    tables: (u16, u16),
    key: Key,
) -> Result<(u64, u8, usize, usize), u32> {
    let Log { mut lines, .. } = log(slots, slot_bytes, area)?;
    if key.table < tables.0 || key.table > tables.1 {
        return Err(22);
    }
    lines.retain(|line| line.key == key);
    lines.sort_by_key(|line| line.version);
    let newest = lines.last().filter(|line| line.is_object()).ok_or(8u32)?;
    let place = newest.place + newest.numbers.tombstone_bytes;
    Ok((newest.version, newest.bytes[0], place, newest.value().len()))
}

/// What a conversion must leave in a second buffer of so many bytes.
pub fn convert(
    slots: u32,
    slot_bytes: u32,
    source: &[u8],
    target_bytes: usize,
) -> Result<Vec<u8>, u32> {
    check_geometry(slots, slot_bytes, source)?;
    if target_bytes != source.len() {
        return Err(1);
    }
    let (head, _) = head_of(slots, slot_bytes, source)?;
    let byte_0 = |slot: u32| source[(slot * slot_bytes) as usize];
    let map = number(source, (head * slot_bytes) as usize + 5, 4);
    if (0..slots).any(|slot| map >> slot & 1 == 1 && byte_0(slot) != byte_0(head)) {
        return Err(28);
    }
    let log = log(slots, slot_bytes, source)?;
    let other = EDITIONS[2 - log.numbers.edition as usize];
    let mut wide = log.lines.iter().any(|line| line.version >= other.last_next);
    let mut segments = vec![Vec::new(); slots as usize];
    for slot in (0..slots).filter(|slot| log.map >> slot & 1 == 1) {
        let digest = &source[(slot * slot_bytes) as usize..];
        let next = wide_number(digest, 9, log.numbers.version_bytes);
        wide |= next > other.last_next;
        let bytes = &mut segments[slot as usize];
        bytes.push(other.digest);
        bytes.extend(&digest[1..9]);
        bytes.extend(other.stored_version(next));
        for line in log.lines.iter().filter(|line| line.slot == slot) {
            bytes.extend(line.rewritten(other));
        }
    }
    let room = slot_bytes as usize;
    if segments.iter().any(|bytes| bytes.len() > room) {
        return Err(29);
    }
    if wide {
        return Err(30);
    }
    for bytes in &mut segments {
        bytes.resize(room, 0);
    }
    Ok(segments.concat())
}

/// Refuses N, S or an area of another length with 1.
fn check_geometry(slots: u32, slot_bytes: u32, area: &[u8]) -> Result<(), u32> {
    if !(4..=32).contains(&slots)
        || !(256..=2048).contains(&slot_bytes)
        || area.len() != (slots * slot_bytes) as usize
    {
        return Err(1);
    }
    Ok(())
}

/// Refuses what recovery does not even look at: 1, 2 and 15.
fn check_lent(
    slots: u32,
    slot_bytes: u32,
    area: &[u8],
    cells: usize,
    order: &[u8],
) -> Result<(), u32> {
    check_geometry(slots, slot_bytes, area)?;
    if !(16..=4096).contains(&cells) {
        return Err(2);
    }
    let mut sorted = order.to_vec();
    sorted.sort_unstable();
    if sorted != (0..slots as u8).collect::<Vec<u8>>() {
        return Err(15);
    }
    Ok(())
}

/// What recovery must answer.
pub fn view(
    slots: u32,
    slot_bytes: u32,
    area: &[u8],
    cells: usize,
    order: &[u8],
) -> Result<View, u32> {
    check_lent(slots, slot_bytes, area, cells, order)?;
    let (head, numbers) = head_of(slots, slot_bytes, area)?;
    let digest = &area[(head * slot_bytes) as usize..];
    let map = SlotMap(number(digest, 5, 4));
    let mut lines = Vec::new();
    let mut end = 0;
    for slot in (0..slots).filter(|&slot| map.0 >> slot & 1 == 1) {
        let (found, stop) = lines_of(area, slot_bytes, slot)?;
        lines.extend(found);
        if slot == head {
            end = stop;
        }
    }
    let versions: BTreeSet<u64> = lines.iter().map(|line| line.version).collect();
    if versions.len() != lines.len() {
        return Err(19);
    }
    let keys: BTreeSet<Key> = lines.iter().map(|line| line.key).collect();
    if keys.len() > cells - 1 {
        return Err(20);
    }
    let after = versions.last().map_or(1, |version| version + 1);
    let record = Record {
        slots,
        slot_bytes,
        cells: cells as u32,
        head,
        end,
        digest: DigestNumber(number(digest, 1, 4)),
        map,
        edition: Edition(numbers.edition),
        switched: false,
        next: Version(after.max(wide_number(digest, 9, numbers.version_bytes))),
        keys: keys.len() as u32,
        pending: Pending::None,
        present_bytes: [0; 32],
    };
    let mut view = View {
        record,
        head: numbers,
        new_head: numbers,
        lines,
    };
    view.record.present_bytes = view.present_bytes();
    Ok(view)
}

impl View {
    /// The same store once it is switched, if it is.
    pub fn switched(mut self, switched: bool) -> View {
        self.record.switched = switched;
        if switched {
            self.new_head = EDITIONS[1];
        }
        self
    }

    /// The highest-version entry of each key.
    pub fn newest(&self) -> BTreeMap<Key, &Line> {
        let mut newest: BTreeMap<Key, &Line> = BTreeMap::new();
        for line in &self.lines {
            let best = newest.entry(line.key).or_insert(line);
            if line.version > best.version {
                *best = line;
            }
        }
        newest
    }

    /// For each slot the bytes of the objects that are their key's highest-version entry.
    fn present_bytes(&self) -> [u32; 32] {
        let mut bytes = [0; 32];
        for line in self.newest().into_values().filter(|line| line.is_object()) {
            bytes[line.slot as usize] += line.bytes.len() as u32;
        }
        bytes
    }

    /// The slot of the log with the fewest such bytes, the lowest of several.
    pub fn fewest(&self) -> u32 {
        let mut slots: Vec<(u32, u32)> = (0..self.record.slots)
            .filter(|slot| self.record.map.0 >> slot & 1 == 1)
            .map(|slot| (self.present_bytes()[slot as usize], slot))
            .collect();
        slots.sort_unstable();
        slots[0].1
    }

    fn free(&self) -> Vec<u32> {
        (0..self.record.slots)
            .filter(|&slot| self.record.map.0 >> slot & 1 == 0)
            .collect()
    }

    /// What a start must answer on this store, nothing pending and enough work buffer lent; a
    /// write may expect a version.
    pub fn plan(&self, operation: &Operation, expected: Option<Version>) -> Result<Plan, u32> {
        match operation {
            Operation::Write(key, value) => self.plan_write(*key, expected, value),
            Operation::Delete(key) => self.plan_delete(*key),
            Operation::Clean(victims) => self.plan_clean(victims.0),
        }
    }

    fn plan_write(&self, key: Key, expected: Option<Version>, value: &[u8]) -> Result<Plan, u32> {
        if self.new_head.object(value.len()).is_none() {
            return Err(7);
        }
        let newest = self.newest();
        let object = newest.get(&key).filter(|line| line.is_object());
        let version = object.map_or(0, |line| line.version);
        if expected.is_some_and(|expected| expected.0 != version) {
            return Err(21);
        }
        if self.record.next.0 == self.new_head.last_next {
            return Err(9);
        }
        if !newest.contains_key(&key) && newest.len() as u32 == self.record.cells - 1 {
            return Err(11);
        }
        self.plan_entry(key, value)
    }

    fn plan_delete(&self, key: Key) -> Result<Plan, u32> {
        if !self.newest().get(&key).is_some_and(|line| line.is_object()) {
            return Err(8);
        }
        if self.record.next.0 == self.new_head.last_next {
            return Err(9);
        }
        match self.plan_entry(key, &[]) {
            Err(12) => self.plan_forget(key),
            plan => plan,
        }
    }

    /// A delete without room: the slot of the live object is cleaned as if the key's tombstone of
    /// the next version stood where that object stands; 12 where what is kept does not fit.
    fn plan_forget(&self, key: Key) -> Result<Plan, u32> {
        let live = self.newest()[&key].place;
        let mut after = self.clone();
        let line = after.lines.iter_mut().find(|line| line.place == live);
        let line = line.expect("the live object is in the log");
        line.version = self.record.next.0;
        line.numbers = self.new_head;
        line.bytes = entry(self.new_head, key, line.version, &[]);
        let victim = line.slot;
        after.record.next.0 += 1;
        after
            .plan_clean(1 << victim)
            .map_err(|cause| if cause == 14 { 12 } else { cause })
    }

    fn plan_entry(&self, key: Key, value: &[u8]) -> Result<Plan, u32> {
        let next = self.record.next.0;
        let new = entry(self.new_head, key, next, value);
        if next == self.head.last_next {
            return self.plan_lone_entry(new);
        }
        let entry = entry(self.head, key, next, value);
        let slot_end = ((self.record.head + 1) * self.record.slot_bytes) as usize;
        let start = (self.record.head * self.record.slot_bytes + self.record.end) as usize;
        let end = start + entry.len();
        if end > slot_end {
            return self.plan_lone_entry(new);
        }
        let mut stores: Vec<(usize, u8)> = (1..entry.len())
            .map(|place| (start + place, entry[place]))
            .collect();
        if end < slot_end {
            stores.push((end, 0));
        }
        stores.push((start, entry[0]));
        Ok(Plan {
            work: entry,
            stores,
        })
    }

    /// A new head for an entry.
    fn plan_lone_entry(&self, entry: Vec<u8>) -> Result<Plan, u32> {
        if self.free().len() < 2 {
            return Err(12);
        }
        self.plan_new_head(0, entry)
    }

    fn plan_clean(&self, victims: u32) -> Result<Plan, u32> {
        if victims == 0 || victims & !self.record.map.0 != 0 {
            return Err(13);
        }
        let kept = self.kept(victims);
        if self.new_head.digest_bytes + kept.len() > self.record.slot_bytes as usize {
            return Err(14);
        }
        self.plan_new_head(victims, kept)
    }

    /// The bytes that a cleaning keeps, as they stand in the new head.
    fn kept(&self, victims: u32) -> Vec<u8> {
        let is_victim = |line: &Line| victims >> line.slot & 1 == 1;
        let newest = self.newest();
        self.lines
            .iter()
            .filter(|line| is_victim(line) && newest[&line.key] == *line)
            .filter(|line| {
                line.is_object()
                    || self.lines.iter().any(|other| {
                        other.key == line.key && other.is_object() && !is_victim(other)
                    })
            })
            .flat_map(|line| line.rewritten(self.new_head))
            .collect()
    }

    /// The two slots that the joining call must tell, or 23.
    pub fn join(&self) -> Result<(u32, u32), u32> {
        let log = |slot: &u32| self.record.map.0 >> slot & 1 == 1;
        let slots: Vec<u32> = (0..self.record.slots).filter(log).collect();
        let pairs = slots
            .iter()
            .flat_map(|&i| slots.iter().map(move |&j| (i, j)))
            .filter(|(i, j)| i < j);
        let room = self.record.slot_bytes as usize - self.new_head.digest_bytes;
        let mut fitting = pairs.filter(|(i, j)| self.kept(1 << i | 1 << j).len() <= room);
        fitting.next().ok_or(23)
    }

    fn plan_new_head(&self, victims: u32, entries: Vec<u8>) -> Result<Plan, u32> {
        if self.record.digest.0 == u32::MAX {
            return Err(10);
        }
        let free = self.free();
        let slot = *free
            .iter()
            .find(|&&slot| slot > self.record.head)
            .unwrap_or(&free[0]);
        let map = self.record.map.0 & !victims | 1 << slot;
        let mut work = vec![self.new_head.digest];
        work.extend((self.record.digest.0 + 1).to_le_bytes());
        work.extend(map.to_le_bytes());
        work.extend(self.new_head.stored_version(self.record.next.0));
        work.extend(entries);
        let start = (slot * self.record.slot_bytes) as usize;
        let mut stores = vec![(start, 0)];
        stores.extend((1..work.len()).map(|place| (start + place, work[place])));
        if work.len() < self.record.slot_bytes as usize {
            stores.push((start + work.len(), 0));
        }
        stores.push((start, work[0]));
        Ok(Plan { work, stores })
    }
}
