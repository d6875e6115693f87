//! The store and its book, an event at a time, and the line written of each.

use std::fmt::Write;

use reference::book::{self, Book, Operation};
use reference::edition::FIRST;
use reference::segment::Digest;
use reference::{
    clean, delete, format, join, read, read_value, recover, step, write, DigestNumber, Edition,
    Pending, Record, SlotMap, Started, Tables, Version,
};

use crate::history::{Event, KEYS};

const SLOTS: u32 = 4;
const SLOT_BYTES: u32 = 256;
const CELLS: usize = 16;
/// What a cell holds before a recovery.
const OLD_CELL: u32 = 0xdead_beef;

/// A store that is played on, with its book and what was written so far.
pub struct Player {
    area: Vec<u8>,
    index: [u32; CELLS],
    work: [u8; SLOT_BYTES as usize],
    record: Option<Record>,
    book: Book,
    /// After how many stores of the next operation the power fails; 0 if it does not.
    fails: u32,
    /// The lines.
    pub text: String,
}

fn verdict(agrees: bool) -> &'static str {
    if agrees {
        "as the book says"
    } else {
        "not as the book says"
    }
}

fn hex(bytes: &[u8]) -> String {
    bytes.iter().map(|byte| format!(" {byte:02x}")).collect()
}

/// Whether next version and reads are the book's.
fn agrees(record: &Record, area: &[u8], index: &[u32], book: &Book) -> bool {
    let key_agrees = |key| {
        let found = read(record, area, index, Tables::ALL, key);
        let value = read_value(record, area, index, Tables::ALL, key);
        match (found, book.keys.get(&key)) {
            (Ok(found), Some((version, bytes))) => {
                found.version == *version
                    && Some(found.kind) == FIRST.object_kind(bytes.len())
                    && value == bytes.as_slice()
            }
            (Err(refusal), None) => refusal.number() == 8 && value.is_empty(),
            _ => false,
        }
    };
    record.next == book.next && KEYS.into_iter().all(key_agrees)
}

/// Whether recovery after a cut, in another order and with an index of its own, gives the book.
fn cut_agrees(area: &[u8], book: &Book) -> bool {
    let mut index = [OLD_CELL; CELLS];
    recover(SLOTS, SLOT_BYTES, area, &mut index, &[2, 0, 3, 1])
        .is_ok_and(|record| agrees(&record, area, &index, book))
}

/// How many bytes of the work buffer an operation has.
fn length(pending: Pending) -> usize {
    match pending {
        Pending::None => 0,
        Pending::Append { length, .. }
        | Pending::NewHead { length, .. }
        | Pending::Clean { length, .. }
        | Pending::Forget { length, .. } => length as usize,
    }
}

impl Player {
    /// A player with nothing to play on until a format.
    pub fn new() -> Player {
        Player {
            area: vec![0; (SLOTS * SLOT_BYTES) as usize],
            index: [0; CELLS],
            work: [0xee; SLOT_BYTES as usize],
            record: None,
            book: Book::new(),
            fails: 0,
            text: String::new(),
        }
    }

    /// Plays an event and writes its lines.
    pub fn play(&mut self, event: Event) {
        match event {
            Event::Case(number) => self.line(&format!("case {number}")),
            Event::Format => self.format(),
            Event::Spread => self.spread(),
            Event::Write(key, value) => {
                self.operation(Operation::Write(KEYS[key], value.bytes()));
            }
            Event::Delete(key) => self.operation(Operation::Delete(KEYS[key])),
            Event::Clean(victims) => self.operation(Operation::Clean(victims)),
            Event::Join => self.join(),
            Event::Fails(stores) => self.fails = stores,
            Event::Recover => self.power_on(),
        }
    }

    fn line(&mut self, line: &str) {
        // Writing to a string does not fail.
        let _ = writeln!(self.text, "{line}");
    }

    fn format(&mut self) {
        self.area.fill(0xaa);
        format(SLOTS, SLOT_BYTES, Edition::FIRST, &mut self.area).expect("the sizes are right");
        self.line(&format!("format:{}", hex(&self.area[..14])));
        self.book = Book::new();
        self.power_on();
    }

    /// Case 8: a key's version 1 in slot 0; its version 2 and tombstone 3 in slot 1, the head.
    fn spread(&mut self) {
        self.area.fill(0xff);
        let first = [entry(1, 1, &[0x11; 8]), vec![0]].concat();
        let second = [entry(1, 2, &[0x12; 8]), entry(4, 3, &[]), vec![0]].concat();
        self.lay(0, 1, SlotMap(0b1), 1, &first);
        self.lay(1, 2, SlotMap(0b11), 2, &second);
        self.book = Book::new();
        self.book.next = Version(4);
        self.power_on();
    }

    /// Lays a digest and what follows it into a slot.
    fn lay(&mut self, slot: usize, number: u32, map: SlotMap, next: u64, entries: &[u8]) {
        let digest = Digest {
            layout: &FIRST,
            number: DigestNumber(number),
            map,
            next: Version(next),
        };
        let segment = &mut self.area[slot * SLOT_BYTES as usize..];
        let start = digest.lay(segment);
        segment[start..start + entries.len()].copy_from_slice(entries);
    }

    /// A cut, and a recovery with an index of old cells.
    fn power_on(&mut self) {
        self.index = [OLD_CELL; CELLS];
        let answer = recover(
            SLOTS,
            SLOT_BYTES,
            &self.area,
            &mut self.index,
            &[0, 1, 2, 3],
        );
        let record = answer.expect("recovery of a store");
        self.book.feed(&book::Event::Cut);
        let verdict = verdict(agrees(&record, &self.area, &self.index, &self.book));
        self.line(&format!(
            "recovery: next version {}, {verdict}",
            record.next.0
        ));
        self.record = Some(record);
        self.fails = 0;
    }

    fn record(&self) -> Record {
        self.record.expect("a recovery before this")
    }

    /// An operation from its start on.
    fn operation(&mut self, operation: Operation) {
        let name = match &operation {
            Operation::Write(key, _) => format!("write {} {}", key.table, key.key),
            Operation::Delete(key) => format!("delete {} {}", key.table, key.key),
            Operation::Clean(victims) => format!("clean {}", victims.0),
        };
        let version = match &operation {
            Operation::Clean(_) => 0,
            _ => self.book.next.0,
        };
        let (record, answer) = self.start(&operation);
        self.record = Some(record);
        match answer {
            Err(refusal) => {
                let verdict = verdict(self.is_as_the_book_says());
                self.line(&format!("{name}: refused {}, {verdict}", refusal.number()));
            }
            Ok(stores) => {
                self.book.feed(&book::Event::Start(operation, Some(stores)));
                let made = self.steps(stores);
                self.line(&format!(
                    "{name}: {stores} stores, version {version}, {made}"
                ));
                let bytes = hex(&self.work[..length(record.pending)]);
                self.line(&format!(" {bytes}"));
                self.cut();
            }
        }
        self.fails = 0;
    }

    /// The two slots that one new head can take over are told and cleaned.
    fn join(&mut self) {
        match join(&self.record(), &self.area, &self.index) {
            Ok((first, second)) => {
                self.line(&format!("join {first} {second}"));
                self.operation(Operation::Clean(SlotMap(1 << first | 1 << second)));
            }
            Err(refusal) => self.line(&format!("join: refused {}", refusal.number())),
        }
    }

    fn start(&mut self, operation: &Operation) -> Started {
        let (record, work) = (self.record(), &mut self.work);
        match operation {
            Operation::Write(key, value) => write(
                record,
                &self.area,
                &self.index,
                work,
                Tables::ALL,
                *key,
                value,
            ),
            Operation::Delete(key) => {
                delete(record, &self.area, &self.index, work, Tables::ALL, *key)
            }
            Operation::Clean(victims) => clean(record, &self.area, &self.index, work, *victims),
        }
    }

    /// The steps of an operation as far as the power allows; says how the cuts after them went.
    fn steps(&mut self, stores: u32) -> String {
        let allowed = match self.fails {
            0 => stores,
            fails => stores.min(fails),
        };
        let first_bad = (1..=allowed).fold(None, |bad, store| {
            let agrees = self.step();
            bad.or((!agrees).then_some(store))
        });
        match first_bad {
            None => format!("{allowed} cuts {}", verdict(true)),
            Some(store) => format!("after store {store} {}", verdict(false)),
        }
    }

    /// One step; tells whether its answer, the running store and a recovery are the book's.
    fn step(&mut self) -> bool {
        let (record, answer) = step(self.record(), &mut self.area, &mut self.index, &self.work);
        self.record = Some(record);
        let due = self.book.feed(&book::Event::Step(true));
        answer.ok() == due && self.is_as_the_book_says()
    }

    fn is_as_the_book_says(&self) -> bool {
        agrees(&self.record(), &self.area, &self.index, &self.book)
            && cut_agrees(&self.area, &self.book)
    }

    /// The power fails, if it is to.
    fn cut(&mut self) {
        if self.fails > 0 {
            self.line(&format!("cut after {} stores", self.fails));
            self.power_on();
        }
    }
}

/// The bytes of an entry of the first key.
fn entry(kind: u8, version: u32, value: &[u8]) -> Vec<u8> {
    [
        &[kind][..],
        &KEYS[0].stored(),
        &version.to_le_bytes(),
        value,
    ]
    .concat()
}
