//! What happens where the rule of use after a recovery refused with 20 is broken, and that keeping it is enough; how an
//! operation is given up; and how long the place of a value may be used. All in both editions.

use kurdavel::{format, recover, slices, Edition, Key, Progress, Record, Refusal, SlotMap, Tables};

const ORDER: [u8; 4] = [0, 1, 2, 3];
const KEYS: u32 = 20;

struct Store {
    area: Vec<u8>,
    index: Vec<u32>,
    work: Vec<u8>,
    record: Record,
}

fn key(number: u32) -> Key {
    Key {
        table: 1,
        key: number,
    }
}

impl Store {
    /// N 4, S 256 and M 64, with twenty keys in two slots: a store of each edition.
    fn both_with_keys() -> [Store; 2] {
        Edition::ALL.map(Store::with_keys)
    }

    fn with_keys(edition: Edition) -> Store {
        let mut area = vec![0; 4 * 256];
        let mut index = vec![0; 64];
        format(4, 256, edition, &mut area).unwrap();
        let record = recover(4, 256, &ORDER, &area, &mut index).unwrap();
        let mut store = Store {
            area,
            index,
            work: vec![0; 256],
            record,
        };
        for number in 0..KEYS {
            store.start_write(number, &[number as u8; 8]);
            store.finish();
        }
        assert_eq!(store.record.map(), SlotMap(0b11));
        store
    }

    fn start_write(&mut self, number: u32, value: &[u8]) {
        let (area, index, work) = (&self.area, &self.index, &mut self.work);
        let answer = self
            .record
            .write(area, index, work, Tables::ALL, key(number), value);
        answer.unwrap();
    }

    fn step(&mut self) -> Progress {
        let (area, index) = (&mut self.area, &mut self.index);
        self.record.step(area, index, &self.work).unwrap()
    }

    fn finish(&mut self) {
        while let Progress::More { .. } = self.step() {}
    }

    fn start_delete(&mut self, number: u32) {
        let (area, index, work) = (&self.area, &self.index, &mut self.work);
        let answer = self
            .record
            .delete(area, index, work, Tables::ALL, key(number));
        answer.unwrap();
    }

    fn start_clean(&mut self, victims: SlotMap) {
        let (area, index, work) = (&self.area, &self.index, &mut self.work);
        self.record.clean(area, index, work, victims).unwrap();
    }

    /// Where the value of a key lies in the area.
    fn place(&self, number: u32) -> std::ops::Range<usize> {
        let (mut place, mut bytes) = (0, 0);
        let Key { table, key } = key(number);
        let (words, area, index) = (self.record.words(), &self.area, &self.index);
        let answer = slices::read_value(
            words, area, index, table, table, table, key, &mut place, &mut bytes,
        );
        assert_eq!((answer, bytes), (0, 8));
        place as usize..(place + bytes) as usize
    }

    /// How many keys read as present, with their values. The others read as absent.
    fn present(&self) -> usize {
        let reads = |&number: &u32| {
            let (area, index) = (&self.area, &self.index);
            let read = self.record.read(area, index, Tables::ALL, key(number));
            let value = self
                .record
                .read_value(area, index, Tables::ALL, key(number));
            match read {
                Ok(_) => assert_eq!(value, [number as u8; 8]),
                Err(refusal) => assert_eq!(refusal, Refusal::Absent),
            }
            read.is_ok()
        };
        (0..KEYS).filter(reads).count()
    }

    /// A recovery with the first sixteen cells of the index, which are too few.
    fn recover_with_too_few(&mut self) {
        let answer = recover(4, 256, &ORDER, &self.area, &mut self.index[..16]);
        assert_eq!(answer, Err(Refusal::TooManyKeys));
        assert_eq!(self.index[..16], [0; 16]);
    }

    fn recover_with_all(&mut self) {
        self.record = recover(4, 256, &ORDER, &self.area, &mut self.index).unwrap();
    }
}

/// The misuse: the record from before is used again. It passes every test, and keys that are there read as absent.
#[test]
fn old_record_after_20_hides_keys() {
    for mut store in Store::both_with_keys() {
        assert_eq!(store.present(), 20);
        store.recover_with_too_few();
        assert!(store.present() < 20);
    }
}

/// The misuse goes on: a cleaning is accepted, and keys that the index has lost are lost for good.
#[test]
fn cleaning_with_the_old_record_after_20_loses_keys() {
    for mut store in Store::both_with_keys() {
        store.recover_with_too_few();
        store.start_clean(SlotMap::of(0));
        store.finish();
        store.recover_with_all();
        assert!(store.present() < 20);
    }
}

/// The rule kept: a recovery with enough cells is accepted, and nothing is lost.
#[test]
fn recovery_with_enough_cells_after_20_gives_everything() {
    for mut store in Store::both_with_keys() {
        store.recover_with_too_few();
        store.recover_with_all();
        assert_eq!(store.present(), 20);
    }
}

/// A recovery gives an operation up: nothing is pending then, and the store is as before the start.
#[test]
fn recovery_gives_an_operation_up() {
    for mut store in Store::both_with_keys() {
        let next = store.record.next();
        store.start_write(3, &[0xaa; 56]);
        for _ in 0..5 {
            store.step();
        }
        store.recover_with_all();
        assert_eq!(store.record.left(), 0);
        assert_eq!(store.record.next(), next);
        assert_eq!(store.present(), 20);
    }
}

/// The bytes at a value's place stay through all steps of the next operation, also of one that replaces or deletes the
/// value or cleans its slot.
#[test]
fn place_of_a_value_stays_through_the_next_operation() {
    let starts: [fn(&mut Store); 4] = [
        |store| store.start_write(3, &[0xaa; 8]),
        |store| store.start_delete(3),
        |store| store.start_clean(SlotMap::of(0)),
        |store| store.start_clean(SlotMap::of(1)),
    ];
    for start in starts {
        for number in [3, KEYS - 1] {
            for mut store in Store::both_with_keys() {
                let place = store.place(number);
                start(&mut store);
                while store.record.left() > 0 {
                    store.step();
                    assert_eq!(store.area[place.clone()], [number as u8; 8]);
                }
            }
        }
    }
}

/// Once the slot of a value is cleaned, a later operation may store over its place.
#[test]
fn place_of_a_value_ends_with_its_slot() {
    for mut store in Store::both_with_keys() {
        let place = store.place(3);
        for slot in [0, 1, 3] {
            store.start_clean(SlotMap::of(slot));
            store.finish();
        }
        assert_eq!(store.present(), 20);
        assert_ne!(store.area[place.clone()], [3; 8]);
        assert_ne!(store.place(3), place);
    }
}
