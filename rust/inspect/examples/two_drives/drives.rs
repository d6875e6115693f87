//! Two drives with one history: a head's old record, a float, is deleted and a record in whole counts written under
//! another key; the store cleans itself and the supply drops. The second drive's firmware loses the tombstone.

use reference::edition::FIRST;
use reference::segment::{read_entry, Entry};
use reference::{
    clean, delete, format, recover, step, write, Edition, Key, Record, SlotMap, Started, Tables,
};

const SLOTS: u32 = 4;
const SLOT_BYTES: u32 = 256;
const CELLS: usize = 64;

/// The old record of head 0, a float.
pub const OLD: Key = Key { table: 1, key: 16 };
/// The new one, in whole counts.
pub const NEW: Key = Key { table: 1, key: 32 };
/// Stores of the last cleaning that were made when the supply dropped.
pub const STORES: u32 = 100;

/// A drive with its supply on.
pub struct Drive {
    /// Its area.
    pub area: Vec<u8>,
    /// Its index.
    pub index: Vec<u32>,
    /// Its record.
    pub record: Record,
    work: Vec<u8>,
}

impl Drive {
    fn power_on(area: Vec<u8>) -> Drive {
        let mut index = vec![0; CELLS];
        let order: Vec<u8> = (0..SLOTS as u8).collect();
        let record = recover(SLOTS, SLOT_BYTES, &area, &mut index, &order).expect("a store");
        Drive {
            area,
            index,
            work: vec![0; SLOT_BYTES as usize],
            record,
        }
    }

    fn started(&mut self, (record, answer): Started) -> u32 {
        self.record = record;
        answer.expect("accepted")
    }

    fn steps(&mut self, count: u32) {
        for _ in 0..count {
            let (record, answer) = step(self.record, &mut self.area, &mut self.index, &self.work);
            self.record = record;
            answer.expect("accepted");
        }
    }

    fn write(&mut self, key: Key, value: &[u8]) {
        let (area, index, work) = (&self.area, &self.index, &mut self.work);
        let started = write(self.record, area, index, work, Tables::ALL, key, value);
        let stores = self.started(started);
        self.steps(stores);
    }

    fn delete(&mut self, key: Key) {
        let (area, index, work) = (&self.area, &self.index, &mut self.work);
        let started = delete(self.record, area, index, work, Tables::ALL, key);
        let stores = self.started(started);
        self.steps(stores);
    }

    fn start_cleaning(&mut self, slot: u32) -> u32 {
        let victims = SlotMap::EMPTY.with(slot);
        let (area, index, work) = (&self.area, &self.index, &mut self.work);
        let started = clean(self.record, area, index, work, victims);
        self.started(started)
    }
}

fn head_record(position: [u8; 4]) -> [u8; 8] {
    let [a, b, c, d] = position;
    [a, b, c, d, 0, 0, 0, 7]
}

/// Up to the cleaning.
pub fn until_deleted() -> Drive {
    let mut area = vec![0xFF; (SLOTS * SLOT_BYTES) as usize];
    format(SLOTS, SLOT_BYTES, Edition::FIRST, &mut area).expect("the geometry is right");
    let mut drive = Drive::power_on(area);
    drive.write(OLD, &head_record(20_971_520_f32.to_le_bytes()));
    for number in 1..=6 {
        let value = [0x20 + number as u8; 24];
        drive.write(
            Key {
                table: 2,
                key: number,
            },
            &value,
        );
    }
    // The slot is full: the recalibrated record comes to the next one.
    drive.write(OLD, &head_record(20_971_522_f32.to_le_bytes()));
    drive.delete(OLD);
    drive.write(NEW, &head_record(20_971_523_u32.to_le_bytes()));
    drive
}

/// With the slot cleaned that has the tombstone and the newest object of the deleted record.
pub fn until_cleaned() -> Drive {
    let mut drive = until_deleted();
    let stores = drive.start_cleaning(1);
    drive.steps(stores);
    drive
}

/// The entry of the deleted record in the head, taken out by hand: what follows it moves up.
fn drop_tombstone(mut drive: Drive) -> Drive {
    let start = (drive.record.head * SLOT_BYTES) as usize;
    let segment = &mut drive.area[start..start + SLOT_BYTES as usize];
    let first = FIRST.digest_bytes();
    let Entry::Tombstone(fields) = read_entry(&FIRST, segment, first) else {
        panic!("the tombstone is kept");
    };
    assert_eq!(fields.key, OLD);
    let end = drive.record.end as usize;
    segment.copy_within(first + fields.length..end, first);
    segment[end - fields.length] = 0;
    Drive::power_on(drive.area)
}

/// The second drive up to the same cleaning.
pub fn until_cleaned_wrongly() -> Drive {
    drop_tombstone(until_cleaned())
}

/// A write that goes on as usual.
fn use_on(drive: &mut Drive) {
    drive.write(Key { table: 2, key: 7 }, &[0x27; 8]);
}

/// The cleaning of the first slot, which the supply does not let finish.
fn cut_in_cleaning(mut drive: Drive) -> Vec<u8> {
    drive.start_cleaning(0);
    drive.steps(STORES);
    drive.area
}

fn file(area: Vec<u8>) -> Vec<u8> {
    let [low, high] = (SLOT_BYTES as u16).to_le_bytes();
    let mut bytes = vec![SLOTS as u8, low, high];
    bytes.extend(area);
    bytes
}

/// Name and bytes of each image: N, S and the area.
pub fn images() -> [(&'static str, Vec<u8>); 3] {
    let (mut first, mut second) = (until_cleaned(), until_cleaned_wrongly());
    use_on(&mut first);
    use_on(&mut second);
    let before = first.area.clone();
    [
        ("before.image", file(before)),
        ("first.image", file(cut_in_cleaning(first))),
        ("second.image", file(cut_in_cleaning(second))),
    ]
}
