//! A store with a random history, whose operations are shown after every store.

use inspect::image::{Geometry, Image};
use inspect::plans::{stores, Site};
use inspect::under_way::{Doubt, Finding};
use inspect::verdict::{verdict, Recovered};
use reference::book::Operation;
use reference::rng::Rng;
use reference::testing::{calls, full};
use reference::{
    clean, delete, format, read, read_value, recover, step, switch, write, Edition, Key, Pending,
    Record, Store, Tables,
};

/// An operation that was accepted, and the store as it was before.
pub struct Under {
    pub operation: Operation,
    pub started: Record,
    pub work: Vec<u8>,
    pub stores: Vec<Store>,
    pub before: Image,
    pub recovered: Recovered,
}

impl Under {
    pub fn site(&self) -> Site {
        match self.started.pending {
            Pending::Append { .. } => Site::Tail,
            _ => Site::NewHead,
        }
    }
}

pub struct Player {
    pub rng: Rng,
    pub image: Image,
    pub keys: Vec<Key>,
    index: Vec<u32>,
    record: Record,
    clean_rarity: u32,
    /// The area before its format.
    original: Vec<u8>,
    /// Whether values are small numbers, which read as versions and keys.
    is_small: bool,
    /// Whether the store is switched sooner or later.
    is_switched: bool,
    /// Whether a write or delete was cut short since the next version became it.
    pub cut_since_version: bool,
    /// Whether a new head was cut short since the head was made.
    pub cut_since_head: bool,
}

impl Player {
    /// A store over erased, zero or random bytes; a hard one often has small numbers for keys and values, or a second format.
    pub fn new(seed: u64, is_hard: bool) -> Player {
        let mut rng = Rng::new(seed);
        let slots = *rng.pick(&[4, 4, 5, 9, 32]);
        let slot_bytes = match rng.below(3) {
            0 => 256,
            1 => rng.within(256, 300),
            _ => rng.within(256, 700),
        };
        let mut area = vec![*rng.pick(&[0, 0xFF]); (slots * slot_bytes) as usize];
        if rng.one_in(2) {
            rng.fill(&mut area);
        }
        let is_small = is_hard && rng.one_in(2);
        let is_formatted_again = is_hard && rng.one_in(3);
        let edition = Edition::ALL[(seed % 2) as usize];
        let geometry = Geometry { slots, slot_bytes };
        let player = Player::over(rng, geometry, edition, area, is_small);
        if is_formatted_again {
            player.formatted_again()
        } else {
            player
        }
    }

    /// A store formatted over an area.
    fn over(
        mut rng: Rng,
        geometry: Geometry,
        edition: Edition,
        area: Vec<u8>,
        is_small: bool,
    ) -> Player {
        let original = area.clone();
        let mut image = Image::new(geometry, area).unwrap();
        let Geometry { slots, slot_bytes } = geometry;
        format(slots, slot_bytes, edition, &mut image.area).unwrap();
        age(&mut rng, edition, &mut image.area);
        let keys = (0..rng.within(2, 16)).map(|number| match is_small {
            true => Key {
                table: number as u16 % 2,
                key: number,
            },
            false => calls::any_key(&mut rng),
        });
        let keys = keys.collect();
        let (record, index) = recovered(&image);
        let clean_rarity = *rng.pick(&[3, 6, 20]);
        let is_switched = rng.one_in(2);
        Player {
            rng,
            image,
            keys,
            index,
            record,
            clean_rarity,
            original,
            is_small,
            is_switched,
            cut_since_version: false,
            cut_since_head: false,
        }
    }

    /// The store after some use and a second format, of any edition, over digests and entries.
    fn formatted_again(mut self) -> Player {
        for _ in 0..20 {
            if let Some(under) = self.any_operation() {
                self.finish(&under);
            }
        }
        let geometry = self.image.geometry();
        let edition = *self.rng.pick(&Edition::ALL);
        Player::over(self.rng, geometry, edition, self.image.area, self.is_small)
    }

    /// Whether what a finding has doubts about is the case, just before or during an operation.
    pub fn is_case(&self, doubt: Doubt, finding: &Finding, under: &Under) -> bool {
        let at = self.image.at(finding.place);
        match (doubt, finding.site) {
            (Doubt::CutShort, Site::Tail) => self.cut_since_version,
            (Doubt::CutShort, Site::NewHead) => self.cut_since_head,
            (Doubt::ByChance, _) => {
                let area = &under.before.area;
                holds(area, at + 7, self.version_bytes(), self.record.next.0)
            }
            (Doubt::BeforeFormat, _) => {
                let held = |offset: usize, width: usize, number: u64| {
                    holds(&self.original, at + offset, width, number)
                };
                let (next, width) = (self.record.next.0, 4);
                held(1, 4, u64::from(self.record.digest.0) + 1)
                    || held(9, width, next)
                    || held(9, width, next.wrapping_add(1))
            }
        }
    }

    fn version_bytes(&self) -> usize {
        match self.record.edition {
            Edition::SECOND => 8,
            _ => 4,
        }
    }

    /// Fills the store, so that deletes have to clean.
    pub fn fill(&mut self) {
        let lengths = [
            *self.rng.pick(&full::LENGTHS),
            *self.rng.pick(&full::LENGTHS),
        ];
        let keys = self.keys.clone();
        let run = |operation: &Operation| -> Result<Result<u32, u32>, ()> {
            let Some(under) = self.start(operation.clone()) else {
                return Ok(Err(12));
            };
            self.finish(&under);
            Ok(Ok(under.stores.len() as u32))
        };
        full::fill(&keys, &lengths, run).unwrap();
    }

    /// A random operation that the store accepts.
    pub fn any_operation(&mut self) -> Option<Under> {
        if self.is_switched && self.rng.one_in(3) {
            let (switched, answer) = switch(self.record);
            answer.unwrap();
            self.record = switched;
        }
        let record = self.record;
        let mut operation = calls::operation(&mut self.rng, &self.keys, record, self.clean_rarity);
        if let (Operation::Write(_, value), true) = (&mut operation, self.is_small) {
            for (number, byte) in value.iter_mut().enumerate() {
                *byte = if number % 4 == 0 { *byte % 32 } else { 0 };
            }
        }
        self.start(operation)
    }

    fn start(&self, operation: Operation) -> Option<Under> {
        let mut work = vec![0; self.image.slot_bytes as usize];
        let (area, index) = (&self.image.area, &self.index);
        let (started, answer) = match &operation {
            Operation::Write(key, value) => write(
                self.record,
                area,
                index,
                &mut work,
                Tables::ALL,
                *key,
                value,
            ),
            Operation::Delete(key) => {
                delete(self.record, area, index, &mut work, Tables::ALL, *key)
            }
            Operation::Clean(victims) => clean(self.record, area, index, &mut work, *victims),
        };
        answer.ok()?;
        let stores = stores(started, area, &work);
        assert_eq!(Ok(stores.len() as u32), answer);
        Some(Under {
            operation,
            started,
            work,
            stores,
            before: self.image.clone(),
            recovered: verdict(&self.image).expect("a store"),
        })
    }

    /// Makes one store, as a cut right behind it would leave the area.
    pub fn store(&mut self, under: &Under, done: usize) {
        let Store { place, byte } = under.stores[done];
        self.image.area[place] = byte;
    }

    /// Finishes an operation from its start.
    pub fn finish(&mut self, under: &Under) {
        self.image = under.before.clone();
        let mut record = under.started;
        while record.pending != Pending::None {
            let (area, index) = (&mut self.image.area, &mut self.index);
            let (next, answer) = step(record, area, index, &under.work);
            answer.unwrap();
            record = next;
        }
        self.record = record;
        if !matches!(under.operation, Operation::Clean(_)) {
            self.cut_since_version = false;
        }
        if under.site() == Site::NewHead {
            self.cut_since_head = false;
        }
    }

    /// Cuts an operation short after some of its stores.
    pub fn cut(&mut self, under: &Under, stores: usize) {
        self.image = under.before.clone();
        for done in 0..stores {
            self.store(under, done);
        }
        (self.record, self.index) = recovered(&self.image);
        self.cut_since_version |= !matches!(under.operation, Operation::Clean(_));
        self.cut_since_head |= under.site() == Site::NewHead;
    }

    /// Version, kind and value of a key that a read finds.
    pub fn read(&self, key: Key) -> Option<(u64, u8, Vec<u8>)> {
        let (area, index) = (&self.image.area, &self.index);
        let found = read(&self.record, area, index, Tables::ALL, key).ok()?;
        let value = read_value(&self.record, area, index, Tables::ALL, key);
        Some((found.version.0, found.kind, value.to_vec()))
    }
}

/// Whether a field of an area holds a number.
fn holds(area: &[u8], at: usize, width: usize, number: u64) -> bool {
    area[at..at + width] == number.to_le_bytes()[..width]
}

/// In some stores, counters that are about to fill a byte or to end.
fn age(rng: &mut Rng, edition: Edition, area: &mut [u8]) {
    if rng.one_in(3) {
        let narrow = u64::from(u32::MAX) - 20;
        let next = match edition {
            Edition::SECOND => *rng.pick(&[250, 65_530, narrow, u64::MAX - 20]),
            _ => *rng.pick(&[250, 65_530, narrow]),
        };
        let width = if edition == Edition::SECOND { 8 } else { 4 };
        area[9..9 + width].copy_from_slice(&next.to_le_bytes()[..width]);
    }
    if rng.one_in(3) {
        let number = rng.pick(&[252u32, 65_532, u32::MAX - 9]).to_le_bytes();
        area[1..5].copy_from_slice(&number);
    }
}

fn recovered(image: &Image) -> (Record, Vec<u32>) {
    let mut index = vec![0; 512];
    let order: Vec<u8> = (0..image.slots as u8).collect();
    let record = recover(
        image.slots,
        image.slot_bytes,
        &image.area,
        &mut index,
        &order,
    );
    (record.unwrap(), index)
}
