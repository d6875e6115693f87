//! A store that is run by the calls, for images as operations and cuts leave them.

use reference::book::Operation;
use reference::{clean, delete, format, recover, step, write, Edition, Record, Refusal, Tables};

use crate::image::Image;

#[derive(Clone)]
pub struct Drive {
    image: Image,
    index: Vec<u32>,
    work: Vec<u8>,
    record: Record,
}

impl Drive {
    /// A drive that was formatted over junk.
    pub fn fresh(slots: u8, slot_bytes: u16) -> Drive {
        let mut image = Image::junk(slots, slot_bytes);
        let (n, s) = (slots.into(), slot_bytes.into());
        format(n, s, Edition::FIRST, &mut image.area).expect("a format");
        Drive::on(image)
    }

    /// A drive on an area.
    pub fn on(image: Image) -> Drive {
        let mut index = vec![0; 64];
        let order: Vec<u8> = (0..image.slots).collect();
        let (slots, slot_bytes) = (image.slots.into(), image.slot_bytes.into());
        let record = recover(slots, slot_bytes, &image.area, &mut index, &order);
        Drive {
            index,
            work: vec![0; image.slot_bytes.into()],
            record: record.expect("a recovery"),
            image,
        }
    }

    /// The area as it stands.
    pub fn image(&self) -> Image {
        self.image.clone()
    }

    /// Starts an operation and gives the number of its stores.
    pub fn start(&mut self, operation: &Operation) -> Result<u32, Refusal> {
        let (area, index, work) = (&self.image.area, &self.index, &mut self.work);
        let (record, started) = match operation {
            Operation::Write(key, value) => {
                write(self.record, area, index, work, Tables::ALL, *key, value)
            }
            Operation::Delete(key) => delete(self.record, area, index, work, Tables::ALL, *key),
            Operation::Clean(victims) => clean(self.record, area, index, work, *victims),
        };
        self.record = record;
        started
    }

    /// Makes so many stores.
    pub fn steps(&mut self, count: u32) {
        for _ in 0..count {
            let (area, index) = (&mut self.image.area, &mut self.index);
            let (record, stepped) = step(self.record, area, index, &self.work);
            stepped.expect("a step");
            self.record = record;
        }
    }

    /// The drive after operations.
    pub fn after(mut self, operations: &[Operation]) -> Drive {
        for operation in operations {
            let stores = self.start(operation).expect("a start");
            self.steps(stores);
        }
        self
    }

    /// The area as a cut leaves it after so many stores of an operation.
    pub fn cut(&self, operation: &Operation, stores: u32) -> Image {
        let mut drive = self.clone();
        drive.start(operation).expect("a start");
        drive.steps(stores);
        drive.image()
    }
}
