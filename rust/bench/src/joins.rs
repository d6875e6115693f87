//! How many stores a byte costs in a store that is written for long: the entries themselves, and what cleaning them away takes.

use reference::book::Operation as Called;
use reference::edition::FIRST;
use reference::testing::load::{entry_bytes, Load, Spread};
use reference::{Record, Refusal, SlotMap};

use crate::image::SLOT_BYTES;
use crate::store::{ALL, CELLS, SLOTS};

/// Lengths of the values, in turn.
const LENGTHS: [usize; 4] = [8, 24, 56, 120];
/// Writes by which the store settles, and over which it is then counted.
const SETTLING: u32 = 40_000;
const COUNTED: u32 = 40_000;
/// Bytes of entries that the log holds at the most: one slot is kept free.
const ROOM: usize = (SLOTS - 1) * (SLOT_BYTES - FIRST.digest_bytes());

/// A store under load, made by calls of the reference.
struct Drive {
    record: Record,
    area: Vec<u8>,
    index: Vec<u32>,
    work: Vec<u8>,
    counts: Counts,
}

/// What was counted.
#[derive(Default)]
struct Counts {
    bytes: u64,
    stores: u64,
    joins: u32,
    /// Cleanings of the slot with the fewest present bytes, where no two slots could be joined.
    singles: u32,
}

impl Drive {
    fn formatted() -> Drive {
        let (slots, slot_bytes) = (SLOTS as u32, SLOT_BYTES as u32);
        let mut area = vec![0; SLOTS * SLOT_BYTES];
        let mut index = vec![0; CELLS];
        let order: Vec<u8> = (0..SLOTS as u8).collect();
        let formatted = reference::format(slots, slot_bytes, FIRST.edition, &mut area);
        formatted.expect("the sizes are right");
        let record = reference::recover(slots, slot_bytes, &area, &mut index, &order);
        Drive {
            record: record.expect("a formatted area"),
            area,
            index,
            work: vec![0; SLOT_BYTES],
            counts: Counts::default(),
        }
    }

    fn run(&mut self, operation: &Called) -> Result<(), Refusal> {
        let (area, index, work) = (&self.area, &self.index, &mut self.work);
        let (mut record, stores) = match operation {
            Called::Write(key, value) => {
                reference::write(self.record, area, index, work, ALL, *key, value)
            }
            Called::Delete(key) => reference::delete(self.record, area, index, work, ALL, *key),
            Called::Clean(victims) => reference::clean(self.record, area, index, work, *victims),
        };
        let stores = stores?;
        for _ in 0..stores {
            reference::step_kept(&mut record, &mut self.area, &mut self.index, &self.work)?;
        }
        self.record = record;
        self.counts.stores += u64::from(stores);
        self.counts.bytes += entry_bytes(&FIRST, operation);
        Ok(())
    }

    /// A write, and before it whatever makes room for it.
    fn write(&mut self, write: &Called) {
        while let Err(refusal) = self.run(write) {
            assert_eq!(refusal, Refusal::SlotsFull);
            let victims = match reference::join(&self.record, &self.area, &self.index) {
                Ok((first, second)) => {
                    self.counts.joins += 1;
                    SlotMap(1 << first | 1 << second)
                }
                Err(_) => {
                    self.counts.singles += 1;
                    SlotMap(1 << reference::fewest(&self.record).expect("a genuine record"))
                }
            };
            self.run(&Called::Clean(victims))
                .expect("a pair or one slot fits");
        }
    }
}

/// Counts a store of so many percent of live bytes under a load.
fn counted(percent: usize, spread: Spread) -> Counts {
    let mut load = Load::new(&FIRST, ROOM * percent / 100, &LENGTHS, spread, 7);
    let mut drive = Drive::formatted();
    for number in 0..load.keys() {
        let write = load.write(number);
        drive.write(&write);
    }
    for round in 0..SETTLING + COUNTED {
        if round == SETTLING {
            drive.counts = Counts::default();
        }
        let write = load.next_write();
        drive.write(&write);
    }
    drive.counts
}

/// Prints the table.
pub fn table() {
    println!();
    println!("| live bytes | writes | stores per byte written | joins | cleanings of one slot |");
    println!("|---|---|---|---|---|");
    for (spread, name) in [
        (Spread::Uniform, "to any key"),
        (Spread::HotAndCold, "90 % to a tenth of the keys"),
        (Spread::Hot, "all to a tenth of the keys"),
    ] {
        for percent in [50, 70, 80, 90, 95] {
            let counts = counted(percent, spread);
            let Counts { joins, singles, .. } = counts;
            let ratio = counts.stores as f64 / counts.bytes as f64;
            println!("| {percent} % | {name} | {ratio:.2} | {joins} | {singles} |");
        }
    }
}
