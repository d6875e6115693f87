//! The calls and the value read, with types.

use crate::record::{Record, WORDS};
use crate::refusal::Refusal;
use crate::slices;
use crate::values::{Edition, Key, SlotMap, Tables, Version};

/// What a read tells of a present key besides its value.
#[derive(Clone, Copy, PartialEq, Eq, Debug)]
pub struct Found {
    /// The version.
    pub version: Version,
    /// The kind of the object, for a value of 8, 24, 56 or 120 bytes: 1, 2, 3 or 7 in a slot of the first edition, and 9, 10,
    /// 11 or 12 in one of the second.
    pub kind: u8,
}

/// The answer of an accepted step.
#[derive(Clone, Copy, PartialEq, Eq, Debug)]
pub enum Progress {
    /// The operation goes on.
    More {
        /// Stores left, at least 1.
        left: u32,
    },
    /// No stores are left: the operation has taken effect.
    Done {
        /// The version that a write or delete took; 0 for a cleaning.
        version: Version,
    },
}

/// A byte, and the place in the area that it goes to.
#[derive(Clone, Copy, PartialEq, Eq, Debug)]
pub struct Store {
    /// The place in the area.
    pub place: usize,
    /// The byte.
    pub byte: u8,
}

/// Makes an area of `slots` slots of `slot_bytes` bytes each an empty store of an edition. No other call is told the edition:
/// the area tells it.
///
/// ```
/// use kurdavel::{format, Edition, Refusal};
/// let mut area = [0xff; 1024];
/// assert_eq!(format(4, 256, Edition::First, &mut area), Ok(()));
/// assert_eq!(area[..14], [5, 1, 0, 0, 0, 1, 0, 0, 0, 1, 0, 0, 0, 0]);
/// assert_eq!(format(4, 256, Edition::Second, &mut area), Ok(()));
/// assert_eq!(area[..18], [8, 1, 0, 0, 0, 1, 0, 0, 0, 1, 0, 0, 0, 0, 0, 0, 0, 0]);
/// assert_eq!(format(3, 256, Edition::First, &mut area), Err(Refusal::Geometry));
/// ```
#[inline]
pub fn format(
    slots: u32,
    slot_bytes: u32,
    edition: Edition,
    area: &mut [u8],
) -> Result<(), Refusal> {
    Refusal::unless_accepted(slices::format(slots, slot_bytes, edition.number(), area))
}

/// Reads the log of an area and makes its record and index.
///
/// `order` names each slot once; every order gives the same store. A pending operation is dropped, and so is a switch. The index stays as it
/// was if the call is refused, but is all 0 after [`TooManyKeys`](Refusal::TooManyKeys): no record may then be used
/// before a recovery is accepted (see the rules of use in the [crate's documentation](crate)).
///
/// ```
/// use kurdavel::{recover, Edition, Refusal};
/// let answer = recover(4, 256, &[0, 1, 2, 3], &[0; 1024], &mut [0; 16]);
/// assert_eq!(answer, Err(Refusal::NoDigest));
///
/// // What is wrong with the head's digest is told apart: its number or next version, its map, or a slot in the map.
/// let mut area = [0; 1024];
/// kurdavel::format(4, 256, Edition::First, &mut area)?;
/// for (place, byte, cause) in [
///     (9, 0, Refusal::BadDigest),
///     (5, 0b10001, Refusal::BadMap),
///     (5, 0b11, Refusal::NotADigest),
/// ] {
///     let mut damaged = area;
///     damaged[place] = byte;
///     assert_eq!(recover(4, 256, &[0, 1, 2, 3], &damaged, &mut [0; 16]), Err(cause));
/// }
///
/// // Slot 1 is in the map, and begins with a digest of the second edition, of which the head is not.
/// let mut mixed = area;
/// (mixed[5], mixed[256]) = (0b11, 8);
/// let answer = recover(4, 256, &[0, 1, 2, 3], &mixed, &mut [0; 16]);
/// assert_eq!(answer, Err(Refusal::BothEditions));
///
/// // The record says the edition that the area has.
/// kurdavel::format(4, 256, Edition::Second, &mut area)?;
/// let record = recover(4, 256, &[0, 1, 2, 3], &area, &mut [0; 16])?;
/// assert_eq!(record.fields().expect("a record").edition, Edition::Second);
/// # Ok::<(), Refusal>(())
/// ```
#[inline]
pub fn recover(
    slots: u32,
    slot_bytes: u32,
    order: &[u8],
    area: &[u8],
    index: &mut [u32],
) -> Result<Record, Refusal> {
    let mut words = [0; WORDS];
    let answer = slices::recover(slots, slot_bytes, order, area, index, &mut words);
    Refusal::unless_accepted(answer)?;
    Ok(Record { words })
}

/// Tells version and kind of a key's object by a scan of the log: the area alone is enough, as for a boot loader. It answers
/// as a [`read`](Record::read) after a recovery does.
///
/// ```
/// # let mut area = [0; 1024];
/// # kurdavel::format(4, 256, kurdavel::Edition::First, &mut area)?;
/// use kurdavel::{scan_read, scan_read_value, Key, Refusal, Tables, Version};
/// let key = Key { table: 1, key: 2 };
/// assert_eq!(scan_read(4, 256, &area, Tables::ALL, key), Err(Refusal::Absent));
/// # let (mut index, mut work) = ([0; 16], [0; 256]);
/// # let mut record = kurdavel::recover(4, 256, &[0, 1, 2, 3], &area, &mut index)?;
/// record.write(&area, &index, &mut work, Tables::ALL, key, &[7; 24])?;
/// while record.left() > 0 {
///     record.step(&mut area, &mut index, &work)?;
/// }
///
/// // No record, no index.
/// assert_eq!(scan_read(4, 256, &area, Tables::ALL, key)?.version, Version(1));
/// assert_eq!(scan_read_value(4, 256, &area, Tables::ALL, key), &[7; 24]);
/// # Ok::<(), Refusal>(())
/// ```
#[inline]
pub fn scan_read(
    slots: u32,
    slot_bytes: u32,
    area: &[u8],
    tables: Tables,
    key: Key,
) -> Result<Found, Refusal> {
    let (mut version, mut kind) = (0, 0);
    let answer = slices::scan_read(
        slots,
        slot_bytes,
        area,
        tables.first,
        tables.last,
        key.table,
        key.key,
        &mut version,
        &mut kind,
    );
    Refusal::unless_accepted(answer)?;
    Ok(Found {
        version: Version(version),
        kind: kind as u8,
    })
}

/// The value of a key's object, as a part of the area, by the same scan: an empty one, at the area's start, where
/// [`scan_read`] is refused.
#[inline]
pub fn scan_read_value(
    slots: u32,
    slot_bytes: u32,
    area: &[u8],
    tables: Tables,
    key: Key,
) -> &[u8] {
    let (mut place, mut bytes) = (0, 0);
    slices::scan_read_value(
        slots,
        slot_bytes,
        area,
        tables.first,
        tables.last,
        key.table,
        key.key,
        &mut place,
        &mut bytes,
    );
    let start = place as usize;
    area.get(start..start + bytes as usize)
        .unwrap_or(&area[..0])
}

impl Record {
    /// Tells version and kind of a key's object.
    ///
    /// ```
    /// # let mut area = [0; 1024];
    /// # kurdavel::format(4, 256, kurdavel::Edition::First, &mut area)?;
    /// # let mut index = [0; 16];
    /// # let record = kurdavel::recover(4, 256, &[0, 1, 2, 3], &area, &mut index)?;
    /// use kurdavel::{Key, Refusal, Tables};
    /// let key = Key { table: 1, key: 2 };
    /// let absent = record.read(&area, &index, Tables::ALL, key);
    /// assert_eq!(absent, Err(Refusal::Absent));
    /// let servo = Tables { first: 2, last: 99 };
    /// assert_eq!(record.read(&area, &index, servo, key), Err(Refusal::OutsideTables));
    /// # Ok::<(), Refusal>(())
    /// ```
    #[inline]
    pub fn read(
        &self,
        area: &[u8],
        index: &[u32],
        tables: Tables,
        key: Key,
    ) -> Result<Found, Refusal> {
        let (mut version, mut kind) = (0, 0);
        let answer = slices::read(
            &self.words,
            area,
            index,
            tables.first,
            tables.last,
            key.table,
            key.key,
            &mut version,
            &mut kind,
        );
        Refusal::unless_accepted(answer)?;
        Ok(Found {
            version: Version(version),
            kind: kind as u8,
        })
    }

    /// The value of a key's object, as a part of the area: an empty one, at the area's start, where
    /// [`read`](Record::read) is refused.
    ///
    /// The part is borrowed from the area, so that no step is made while it is in use. A caller who keeps its place may
    /// use it until the last step of the next operation. Its bytes change only after a cleaning of its slot is finished,
    /// or a delete that is done as one, when a new head may be stored there.
    ///
    /// The library stays within the area for genuine stores and others alike; a place outside it, which it never
    /// tells, would give the empty part too.
    #[inline]
    pub fn read_value<'a>(
        &self,
        area: &'a [u8],
        index: &[u32],
        tables: Tables,
        key: Key,
    ) -> &'a [u8] {
        let (mut place, mut bytes) = (0, 0);
        slices::read_value(
            &self.words,
            area,
            index,
            tables.first,
            tables.last,
            key.table,
            key.key,
            &mut place,
            &mut bytes,
        );
        let start = place as usize;
        area.get(start..start + bytes as usize)
            .unwrap_or(&area[..0])
    }

    /// Starts to write a value under a key. Answers how many stores are to come.
    #[inline]
    pub fn write(
        &mut self,
        area: &[u8],
        index: &[u32],
        work: &mut [u8],
        tables: Tables,
        key: Key,
        value: &[u8],
    ) -> Result<u32, Refusal> {
        let mut stores = 0;
        let answer = slices::write(
            &mut self.words,
            area,
            index,
            work,
            tables.first,
            tables.last,
            key.table,
            key.key,
            value,
            &mut stores,
        );
        Refusal::unless_accepted(answer).map(|()| stores)
    }

    /// Starts to write a value under a key that has the expected version: the one that a read told, or
    /// [`Version::NONE`] where the key is to be absent, never written or deleted. Answers how many stores are to come.
    ///
    /// Once accepted it is the operation of [`write`](Record::write). Nothing can come between the comparison and the last
    /// step, so that what it replaces is what the caller expected.
    ///
    /// ```
    /// # let mut area = [0; 1024];
    /// # kurdavel::format(4, 256, kurdavel::Edition::First, &mut area)?;
    /// # let (mut index, mut work) = ([0; 16], [0; 256]);
    /// # let mut record = kurdavel::recover(4, 256, &[0, 1, 2, 3], &area, &mut index)?;
    /// use kurdavel::{Key, Refusal, Tables, Version};
    /// let head = Key { table: 1, key: 2 };
    /// record.write_expecting(&area, &index, &mut work, Tables::ALL, head, Version::NONE, &[7; 8])?;
    /// while record.left() > 0 {
    ///     record.step(&mut area, &mut index, &work)?;
    /// }
    ///
    /// // Two passes read the value. The first one to write replaces it; the other has read an old one.
    /// let read = record.read(&area, &index, Tables::ALL, head)?.version;
    /// record.write_expecting(&area, &index, &mut work, Tables::ALL, head, read, &[8; 8])?;
    /// while record.left() > 0 {
    ///     record.step(&mut area, &mut index, &work)?;
    /// }
    /// let late = record.write_expecting(&area, &index, &mut work, Tables::ALL, head, read, &[9; 8]);
    /// assert_eq!(late, Err(Refusal::OtherVersion));
    /// assert_eq!(record.read_value(&area, &index, Tables::ALL, head), &[8; 8]);
    /// # Ok::<(), Refusal>(())
    /// ```
    #[inline]
    #[allow(clippy::too_many_arguments)]
    pub fn write_expecting(
        &mut self,
        area: &[u8],
        index: &[u32],
        work: &mut [u8],
        tables: Tables,
        key: Key,
        expected: Version,
        value: &[u8],
    ) -> Result<u32, Refusal> {
        let mut stores = 0;
        let answer = slices::write_expecting(
            &mut self.words,
            area,
            index,
            work,
            tables.first,
            tables.last,
            key.table,
            key.key,
            expected.0,
            value,
            &mut stores,
        );
        Refusal::unless_accepted(answer).map(|()| stores)
    }

    /// Starts to delete a key. Answers how many stores are to come.
    ///
    /// A delete needs no room. Where a write would be refused with [`NoRoom`](Refusal::NoRoom), the slot that holds the key's
    /// value is cleaned without it, in as many stores as a cleaning takes; the last step tells the delete's version. Only
    /// where that slot is of the first edition and the new head of the second (see [`switch`](Record::switch)) may what is
    /// kept be too long, and the delete be refused with [`NoRoom`](Refusal::NoRoom) too.
    ///
    /// ```
    /// # let mut area = [0; 1024];
    /// # kurdavel::format(4, 256, kurdavel::Edition::First, &mut area)?;
    /// # let (mut index, mut work) = ([0; 16], [0; 256]);
    /// # let mut record = kurdavel::recover(4, 256, &[0, 1, 2, 3], &area, &mut index)?;
    /// use kurdavel::{Key, Progress, Refusal, Tables, Version};
    /// // Three values fill a slot, and three slots are the most: the fourth is kept for cleaning.
    /// let keys: Vec<Key> = (0..9).map(|key| Key { table: 1, key }).collect();
    /// for (key, bytes) in keys.iter().zip([120, 56, 24].into_iter().cycle()) {
    ///     record.write(&area, &index, &mut work, Tables::ALL, *key, &[7; 120][..bytes])?;
    ///     while record.left() > 0 {
    ///         record.step(&mut area, &mut index, &work)?;
    ///     }
    /// }
    /// let full = record.write(&area, &index, &mut work, Tables::ALL, keys[0], &[8; 8]);
    /// assert_eq!(full, Err(Refusal::NoRoom));
    ///
    /// // The second slot is cleaned without its value of 56 bytes.
    /// let stores = record.delete(&area, &index, &mut work, Tables::ALL, keys[4])?;
    /// assert_eq!(stores, 13 + 131 + 35 + 2);
    /// let mut progress = record.step(&mut area, &mut index, &work)?;
    /// while record.left() > 0 {
    ///     progress = record.step(&mut area, &mut index, &work)?;
    /// }
    /// assert_eq!(progress, Progress::Done { version: Version(10) });
    /// let gone = record.read(&area, &index, Tables::ALL, keys[4]);
    /// assert_eq!(gone, Err(Refusal::Absent));
    /// record.write(&area, &index, &mut work, Tables::ALL, keys[0], &[8; 8])?;
    /// # Ok::<(), Refusal>(())
    /// ```
    #[inline]
    pub fn delete(
        &mut self,
        area: &[u8],
        index: &[u32],
        work: &mut [u8],
        tables: Tables,
        key: Key,
    ) -> Result<u32, Refusal> {
        let mut stores = 0;
        let answer = slices::delete(
            &mut self.words,
            area,
            index,
            work,
            tables.first,
            tables.last,
            key.table,
            key.key,
            &mut stores,
        );
        Refusal::unless_accepted(answer).map(|()| stores)
    }

    /// Starts to clean slots: a new head takes over what they hold that still counts. Answers how many stores are to
    /// come.
    ///
    /// ```
    /// # let mut area = [0; 1024];
    /// # kurdavel::format(4, 256, kurdavel::Edition::First, &mut area)?;
    /// # let (mut index, mut work) = ([0; 16], [0; 256]);
    /// # let mut record = kurdavel::recover(4, 256, &[0, 1, 2, 3], &area, &mut index)?;
    /// use kurdavel::SlotMap;
    /// let head = record.map();
    /// let mut left = record.clean(&area, &index, &mut work, head)?;
    /// assert_eq!(left, 15);
    /// while left > 0 {
    ///     record.step(&mut area, &mut index, &work)?;
    ///     left -= 1;
    /// }
    /// assert_eq!(record.map(), SlotMap::of(1));
    /// # Ok::<(), kurdavel::Refusal>(())
    /// ```
    #[inline]
    pub fn clean(
        &mut self,
        area: &[u8],
        index: &[u32],
        work: &mut [u8],
        victims: SlotMap,
    ) -> Result<u32, Refusal> {
        let mut stores = 0;
        let answer = slices::clean(&mut self.words, area, index, work, victims.0, &mut stores);
        Refusal::unless_accepted(answer).map(|()| stores)
    }

    /// Makes one store of the pending operation.
    ///
    /// The record is kept in place: the call updates it, and a refused call leaves it as it was. Where record, index or
    /// work buffer are not those of the rules of use, the last step may be refused with 4 after its store is made.
    ///
    /// ```
    /// # let mut area = [0; 1024];
    /// # kurdavel::format(4, 256, kurdavel::Edition::First, &mut area)?;
    /// # let (mut index, mut work) = ([0; 16], [0; 256]);
    /// # let mut record = kurdavel::recover(4, 256, &[0, 1, 2, 3], &area, &mut index)?;
    /// use kurdavel::{Key, Tables};
    /// let key = Key { table: 1, key: 2 };
    /// record.write(&area, &index, &mut work, Tables::ALL, key, &[7; 8])?;
    /// assert_eq!(record.left(), 20);
    /// record.step(&mut area, &mut index, &work)?;
    /// assert_eq!(record.left(), 19);
    /// # Ok::<(), kurdavel::Refusal>(())
    /// ```
    #[inline]
    pub fn step(
        &mut self,
        area: &mut [u8],
        index: &mut [u32],
        work: &[u8],
    ) -> Result<Progress, Refusal> {
        let (mut left, mut version) = (0, 0);
        let answer = slices::step(&mut self.words, area, index, work, &mut left, &mut version);
        Refusal::unless_accepted(answer)?;
        Ok(match left {
            0 => Progress::Done {
                version: Version(version),
            },
            left => Progress::More { left },
        })
    }

    /// The store that the next [`step`](Record::step) makes, for a medium that is not memory: the area is then a copy, and
    /// the medium gets each store before the next step is made. A step with the same record, area and work buffer stores
    /// exactly this byte there, or is refused.
    ///
    /// ```
    /// # let mut area = [0; 1024];
    /// # kurdavel::format(4, 256, kurdavel::Edition::First, &mut area)?;
    /// # let (mut index, mut work) = ([0; 16], [0; 256]);
    /// # let mut record = kurdavel::recover(4, 256, &[0, 1, 2, 3], &area, &mut index)?;
    /// use kurdavel::{Key, Refusal, Tables};
    /// let mut device = area.to_vec();
    /// let key = Key { table: 1, key: 2 };
    /// record.write(&area, &index, &mut work, Tables::ALL, key, &[7; 8])?;
    /// while record.left() > 0 {
    ///     let store = record.next_store(&area, &work)?;
    ///     record.step(&mut area, &mut index, &work)?;
    ///     device[store.place] = store.byte;
    /// }
    /// assert_eq!(device, area);
    /// assert_eq!(record.next_store(&area, &work), Err(Refusal::NonePending));
    /// # Ok::<(), Refusal>(())
    /// ```
    #[inline]
    pub fn next_store(&self, area: &[u8], work: &[u8]) -> Result<Store, Refusal> {
        let (mut place, mut byte) = (0, 0);
        let answer = slices::next_store(&self.words, area, work, &mut place, &mut byte);
        Refusal::unless_accepted(answer)?;
        Ok(Store {
            place: place as usize,
            byte: byte as u8,
        })
    }

    /// The slot of the log with the fewest bytes of present objects, the lowest of several: the one to clean first. The
    /// record alone tells it, also during an operation, and then what stood before it.
    ///
    /// ```
    /// # let mut area = [0; 1024];
    /// # kurdavel::format(4, 256, kurdavel::Edition::First, &mut area)?;
    /// # let (mut index, mut work) = ([0; 16], [0; 256]);
    /// # let mut record = kurdavel::recover(4, 256, &[0, 1, 2, 3], &area, &mut index)?;
    /// use kurdavel::{Key, Tables};
    /// // Two values fill most of the first slot; the second of them is then written anew, into the next slot.
    /// for (key, bytes) in [(1, 24), (2, 120), (2, 120)] {
    ///     let key = Key { table: 1, key };
    ///     record.write(&area, &index, &mut work, Tables::ALL, key, &[7; 120][..bytes])?;
    ///     while record.left() > 0 {
    ///         record.step(&mut area, &mut index, &work)?;
    ///     }
    /// }
    /// let present = record.fields().expect("a record").present_bytes;
    /// assert_eq!(present[..4], [11 + 24, 11 + 120, 0, 0]);
    /// assert_eq!(record.fewest(), Ok(0));
    /// # Ok::<(), kurdavel::Refusal>(())
    /// ```
    #[inline]
    pub fn fewest(&self) -> Result<u32, Refusal> {
        let mut slot = 0;
        let answer = slices::fewest(&self.words, &mut slot);
        Refusal::unless_accepted(answer).map(|()| slot)
    }

    /// Switches a store of the first edition to the second: from then on every new head is of the second, and what it takes
    /// over is rewritten with it, until the last old slot is cleaned. The record alone is changed, and not even that where
    /// the store is switched or its head is of the second edition. A [`recover`] forgets the switch as long as the head is
    /// of the first edition.
    ///
    /// An entry takes 4 bytes more in the second edition, so that what a full old slot keeps may not fit a new head. Whether
    /// the way over is open can be found out before: if a cleaning of each slot alone is accepted in a switched store, and
    /// there are digest numbers for all of them, then the cleanings are accepted one after the other. A start changes neither
    /// area nor index, and a recovery forgets start and switch.
    ///
    /// ```
    /// # let mut area = [0; 1024];
    /// # kurdavel::format(4, 256, kurdavel::Edition::First, &mut area)?;
    /// # let (mut index, mut work) = ([0; 16], [0; 256]);
    /// # let mut record = kurdavel::recover(4, 256, &[0, 1, 2, 3], &area, &mut index)?;
    /// use kurdavel::{recover, Edition, Key, Refusal, SlotMap, Tables};
    /// let key = Key { table: 1, key: 2 };
    /// let other = Key { table: 1, key: 3 };
    /// for key in [key, other] {
    ///     record.write(&area, &index, &mut work, Tables::ALL, key, &[7; 120])?;
    ///     while record.left() > 0 {
    ///         record.step(&mut area, &mut index, &work)?;
    ///     }
    /// }
    ///
    /// // Each slot would fit a new head.
    /// let old: Vec<u32> = (0..4).filter(|&slot| record.map().has(slot)).collect();
    /// for &slot in &old {
    ///     record.switch()?;
    ///     record.clean(&area, &index, &mut work, SlotMap::of(slot))?;
    ///     assert_eq!(record.switch(), Err(Refusal::Busy));
    ///     record = recover(4, 256, &[0, 1, 2, 3], &area, &mut index)?;
    ///     assert!(!record.fields().expect("a record").switched);
    /// }
    ///
    /// // So they are carried over.
    /// record.switch()?;
    /// for &slot in &old {
    ///     record.clean(&area, &index, &mut work, SlotMap::of(slot))?;
    ///     while record.left() > 0 {
    ///         record.step(&mut area, &mut index, &work)?;
    ///     }
    /// }
    /// let record = recover(4, 256, &[0, 1, 2, 3], &area, &mut index)?;
    /// assert_eq!(record.fields().expect("a record").edition, Edition::Second);
    /// assert_eq!(record.read(&area, &index, Tables::ALL, key)?.kind, 12);
    /// assert_eq!(record.read_value(&area, &index, Tables::ALL, key), &[7; 120]);
    /// # Ok::<(), Refusal>(())
    /// ```
    #[inline]
    pub fn switch(&mut self) -> Result<(), Refusal> {
        Refusal::unless_accepted(slices::switch(&mut self.words))
    }

    /// The lowest two slots of the log, the first of them deciding first, that can be cleaned together: what they hold that
    /// still counts fits one new head. After a write was refused with [`NoRoom`](Refusal::NoRoom), cleaning them makes room
    /// for it.
    ///
    /// ```
    /// # let mut area = [0; 1024];
    /// # kurdavel::format(4, 256, kurdavel::Edition::First, &mut area)?;
    /// # let (mut index, mut work) = ([0; 16], [0; 256]);
    /// # let mut record = kurdavel::recover(4, 256, &[0, 1, 2, 3], &area, &mut index)?;
    /// use kurdavel::{Key, Refusal, SlotMap, Tables};
    /// // One value after another, each of which is written twice: half of every slot no longer counts.
    /// let key = |number: u32| Key { table: 1, key: number / 2 };
    /// let mut number = 0;
    /// let full = loop {
    ///     let written = record.write(&area, &index, &mut work, Tables::ALL, key(number), &[7; 24]);
    ///     let Ok(stores) = written else { break written };
    ///     for _ in 0..stores {
    ///         record.step(&mut area, &mut index, &work)?;
    ///     }
    ///     number += 1;
    /// };
    /// assert_eq!(full, Err(Refusal::NoRoom));
    ///
    /// let (first, second) = record.join(&area, &index)?;
    /// assert_eq!((first, second), (0, 1));
    /// let victims = SlotMap(1 << first | 1 << second);
    /// for _ in 0..record.clean(&area, &index, &mut work, victims)? {
    ///     record.step(&mut area, &mut index, &work)?;
    /// }
    /// record.write(&area, &index, &mut work, Tables::ALL, key(number), &[7; 24])?;
    /// # Ok::<(), Refusal>(())
    /// ```
    #[inline]
    pub fn join(&self, area: &[u8], index: &[u32]) -> Result<(u32, u32), Refusal> {
        let (mut first, mut second) = (0, 0);
        let answer = slices::join(&self.words, area, index, &mut first, &mut second);
        Refusal::unless_accepted(answer).map(|()| (first, second))
    }
}
