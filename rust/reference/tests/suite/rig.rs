//! A store with its lent memory, its book and its history. Every call through the rig
//! is checked; a fault comes back as text, so that tests of wrong rules can expect one.

use std::fmt::Write;
use std::marker::PhantomData;

use reference::book::{Book, Event, Operation};
use reference::cleaning::clean_by;
use reference::index::rule_holds;
use reference::operations::{delete_by, write_by};
use reference::recovery::recover_by;
use reference::rules::Rules;
use reference::step::step_by;
use reference::switching::switch_by;
use reference::testing::calls::Given;
use reference::testing::full;
use reference::{
    fewest, format, join, next_store, read, read_value, scan_read, scan_read_value, Edition, Key,
    Pending, Progress, Record, Refusal, Started, Tables,
};

use crate::naive::{view, Numbers, Plan, View};

/// A check that failed.
pub type Fault = String;

/// The naive answer to a start.
type Expected = Result<Plan, u32>;

/// Fails unless the two are equal.
macro_rules! same {
    ($what:expr, $left:expr, $right:expr) => {{
        let (left, right) = (&$left, &$right);
        if left != right {
            return Err(format!("{}: {:?}, not {:?}", $what, left, right));
        }
    }};
}
pub(crate) use same;

pub struct Rig<R> {
    pub slots: u32,
    pub slot_bytes: u32,
    pub area: Vec<u8>,
    pub index: Vec<u32>,
    pub work: Vec<u8>,
    /// None from a format, a cut or a refusal with 20 up to the next recovery.
    pub record: Option<Record>,
    pub book: Book,
    pub keys: Vec<Key>,
    pub events: Vec<Event>,
    /// Whether each call is also held to the naive reading of 01.
    pub strict: bool,
    planned: Vec<(usize, u8)>,
    rules: PhantomData<R>,
}

impl<R> Clone for Rig<R> {
    fn clone(&self) -> Self {
        Rig {
            area: self.area.clone(),
            index: self.index.clone(),
            work: self.work.clone(),
            book: self.book.clone(),
            keys: self.keys.clone(),
            events: self.events.clone(),
            planned: self.planned.clone(),
            ..*self
        }
    }
}

impl<R: Rules> Rig<R> {
    /// A store of the first edition, formatted over the given bytes and recovered.
    pub fn new(slots: u32, slot_bytes: u32, cells: usize, area: Vec<u8>) -> Rig<R> {
        Rig::of(Edition::FIRST, slots, slot_bytes, cells, area)
    }

    /// The same of any edition.
    pub fn of(
        edition: Edition,
        slots: u32,
        slot_bytes: u32,
        cells: usize,
        mut area: Vec<u8>,
    ) -> Rig<R> {
        format(slots, slot_bytes, edition, &mut area).expect("the geometry is right");
        let mut rig = Rig::unrecovered(slots, slot_bytes, cells, area);
        rig.must_recover(&rig.ascending()).expect("a fresh store");
        rig
    }

    /// A store as it stands, not recovered yet.
    pub fn unrecovered(slots: u32, slot_bytes: u32, cells: usize, area: Vec<u8>) -> Rig<R> {
        Rig {
            slots,
            slot_bytes,
            area,
            index: vec![0xDEAD_BEEF; cells],
            work: vec![0xA5; slot_bytes as usize + 3],
            record: None,
            book: Book::new(),
            keys: Vec::new(),
            events: Vec::new(),
            strict: false,
            planned: Vec::new(),
            rules: PhantomData,
        }
    }

    pub fn ascending(&self) -> Vec<u8> {
        (0..self.slots as u8).collect()
    }

    /// The newest record; the rules of use allow the call only if there is one.
    pub fn record(&self) -> Record {
        self.record.expect("an accepted recovery came before")
    }

    fn feed(&mut self, event: Event) -> Option<Progress> {
        let expected = self.book.feed(&event);
        self.events.push(event);
        expected
    }

    fn view(&self) -> Result<View, Fault> {
        let cells = self.index.len();
        view(
            self.slots,
            self.slot_bytes,
            &self.area,
            cells,
            &self.ascending(),
        )
        .map_err(|cause| format!("the area is no store: {cause}"))
    }

    fn call(&mut self, operation: &Operation, given: Given) -> Started {
        let record = self.record();
        let (area, index) = (&self.area, &self.index);
        let (work, tables) = (&mut self.work[..given.work_bytes], given.tables);
        match operation {
            Operation::Write(key, value) => write_by::<R>(
                record,
                area,
                index,
                work,
                tables,
                *key,
                given.expected,
                value,
            ),
            Operation::Delete(key) => delete_by::<R>(record, area, index, work, tables, *key),
            Operation::Clean(victims) => clean_by::<R>(record, area, index, work, *victims),
        }
    }

    /// Starts an operation with the whole work buffer.
    pub fn start(&mut self, operation: &Operation) -> Result<Result<u32, Refusal>, Fault> {
        self.start_with(operation, Given::plain(self.work.len()))
    }

    /// Starts an operation with what it is given. An expectation is held to the book.
    pub fn start_with(
        &mut self,
        operation: &Operation,
        given: Given,
    ) -> Result<Result<u32, Refusal>, Fault> {
        let before = self.record();
        let work_before = if self.strict {
            self.work.clone()
        } else {
            Vec::new()
        };
        let (record, answer) = self.call(operation, given);
        self.record = Some(record);
        if self.strict {
            let expected = self.plan(operation, given, before)?;
            self.check_start(expected, before, &work_before, answer)?;
        }
        self.check_expectation(operation, given, answer)?;
        self.feed(Event::Start(operation.clone(), answer.ok()));
        Ok(answer)
    }

    /// What a start must answer by the naive reading.
    fn plan(&self, operation: &Operation, given: Given, before: Record) -> Result<Expected, Fault> {
        if !may_use(given.tables, operation) {
            return Ok(Err(22));
        }
        if given.work_bytes < self.slot_bytes as usize {
            return Ok(Err(3));
        }
        if before.pending != Pending::None {
            return Ok(Err(5));
        }
        let view = self.view()?.switched(before.switched);
        Ok(view.plan(operation, given.expected))
    }

    /// An accepted write has the book's version of its key if it expected one; 21 says that the
    /// book has another.
    fn check_expectation(
        &self,
        operation: &Operation,
        given: Given,
        answer: Result<u32, Refusal>,
    ) -> Result<(), Fault> {
        let (Operation::Write(key, _), Some(expected)) = (operation, given.expected) else {
            same!(
                "21 without expectation",
                answer == Err(Refusal::OtherVersion),
                false
            );
            return Ok(());
        };
        let agrees = self.book.version(*key) == expected;
        match answer {
            Ok(_) => same!("expectation of an accepted write", agrees, true),
            Err(Refusal::OtherVersion) => same!("expectation refused with 21", agrees, false),
            Err(_) => {}
        }
        Ok(())
    }

    fn check_start(
        &mut self,
        expected: Expected,
        before: Record,
        work_before: &[u8],
        answer: Result<u32, Refusal>,
    ) -> Result<(), Fault> {
        let plan = match expected {
            Ok(plan) => plan,
            Err(cause) => {
                same!("refusal", answer.map_err(Refusal::number), Err(cause));
                same!("record of a refused start", self.record(), before);
                same!("work buffer of a refused start", self.work, work_before);
                return Ok(());
            }
        };
        same!("stores", answer, Ok(plan.stores.len() as u32));
        let (filled, rest) = self.work.split_at(plan.work.len());
        same!("work bytes", filled, &plan.work[..]);
        same!(
            "rest of the work buffer",
            rest,
            &work_before[filled.len()..]
        );
        let pending = self.record().pending;
        same!("stores left", pending.left() as usize, plan.stores.len());
        let started = Record { pending, ..before };
        same!("record of a start", self.record(), started);
        self.planned = plan.stores;
        Ok(())
    }

    /// The two slots to join, held to the naive reading.
    pub fn join(&self) -> Result<Result<(u32, u32), Refusal>, Fault> {
        let record = self.record();
        let told = join(&record, &self.area, &self.index);
        let expected = match record.pending {
            Pending::None => self.view()?.switched(record.switched).join(),
            _ => Err(5),
        };
        same!("join", told.map_err(Refusal::number), expected);
        Ok(told)
    }

    /// Switches the store. The record says so, unless it did or its head is of the second edition.
    pub fn switch(&mut self) -> Result<Result<(), Refusal>, Fault> {
        let before = self.record();
        let (record, answer) = switch_by::<R>(before);
        self.record = Some(record);
        let (expected, told) = match before.pending {
            Pending::None => {
                let switched = before.switched || before.edition == Edition::FIRST;
                (Record { switched, ..before }, Ok(()))
            }
            _ => (before, Err(Refusal::Pending)),
        };
        same!("switch", answer, told);
        same!("record of a switch", record, expected);
        self.feed(Event::Switch(answer.is_ok()));
        Ok(answer)
    }

    /// Makes one step and holds its answer to the book.
    pub fn step(&mut self) -> Result<Result<Progress, Refusal>, Fault> {
        let before = self.record();
        if self.strict {
            self.check_next_store(before)?;
        }
        let (record, answer) = step_by::<R>(before, &mut self.area, &mut self.index, &self.work);
        self.record = Some(record);
        let expected = self.feed(Event::Step(answer.is_ok()));
        same!("answer of a step", answer.ok(), expected);
        if self.strict {
            self.check_step(before, answer)?;
        }
        Ok(answer)
    }

    /// The next store is told as it was planned, and 6 where nothing is pending.
    fn check_next_store(&self, record: Record) -> Result<(), Fault> {
        let told = next_store(&record, &self.area, &self.work);
        let told = told.map(|store| (store.place, store.byte));
        let expected = match record.pending {
            Pending::None => Err(Refusal::NonePending),
            pending => Ok(self.planned[self.planned.len() - pending.left() as usize]),
        };
        same!("next store", told, expected);
        Ok(())
    }

    fn check_step(
        &mut self,
        before: Record,
        answer: Result<Progress, Refusal>,
    ) -> Result<(), Fault> {
        if before.pending == Pending::None {
            same!("step of nothing", answer, Err(Refusal::NonePending));
            same!("record of a refused step", self.record(), before);
            return Ok(());
        }
        let left = before.pending.left() as usize;
        let (place, byte) = self.planned[self.planned.len() - left];
        same!("byte stored", self.area[place], byte);
        match answer {
            Ok(Progress::Done { .. }) => {
                let view = self.view()?.switched(before.switched);
                same!("record of a last step", self.record(), view.record);
                same!("fewest", fewest(&self.record()), Ok(view.fewest()));
                self.check_index()
            }
            _ => {
                same!(
                    "stores left",
                    self.record().pending.left() as usize,
                    left - 1
                );
                Ok(())
            }
        }
    }

    /// Steps up to the end of the pending operation, holding every byte of the area to
    /// what the stores planned give.
    pub fn finish(&mut self) -> Result<(), Fault> {
        let mut expected = self.area.clone();
        let left = self.record().pending.left() as usize;
        if self.strict && left > 0 {
            for &(place, byte) in &self.planned[self.planned.len() - left..] {
                expected[place] = byte;
            }
        }
        while self.record().pending != Pending::None {
            if let Err(refusal) = self.step()? {
                return Err(format!("step refused: {refusal:?}"));
            }
        }
        if self.strict {
            same!("area after an operation", self.area, expected);
        }
        Ok(())
    }

    /// Starts an operation and, if it is accepted, makes all its stores.
    pub fn run(&mut self, operation: &Operation) -> Result<Result<u32, Refusal>, Fault> {
        let answer = self.start(operation)?;
        self.finish()?;
        Ok(answer)
    }

    /// Writes values of these lengths under the keys in turn until even the shortest is refused; tells how many.
    pub fn fill(&mut self, lengths: &[usize]) -> Result<u32, Fault> {
        full::fill(&self.keys.clone(), lengths, |operation| {
            let answer = self.run(operation)?;
            Ok::<_, Fault>(answer.map_err(Refusal::number))
        })
    }

    /// Loses all that a cut loses.
    pub fn cut(&mut self) {
        self.record = None;
        self.index.fill(0xDEAD_BEEF);
        self.work.fill(0x5A);
        self.feed(Event::Cut);
    }

    /// Recovers into an index of the given size. If that is accepted, the store must be
    /// what the book says.
    pub fn recover(
        &mut self,
        cells: usize,
        order: &[u8],
    ) -> Result<Result<Record, Refusal>, Fault> {
        let mut index = vec![0xDEAD_BEEF; cells];
        let (slots, slot_bytes) = (self.slots, self.slot_bytes);
        let answer = recover_by::<R>(slots, slot_bytes, &self.area, &mut index, order);
        if self.strict {
            let expected = view(slots, slot_bytes, &self.area, cells, order);
            same!(
                "recovery",
                answer.map_err(Refusal::number),
                expected.map(|view| view.record)
            );
        }
        let left = if answer == Err(Refusal::TooManyKeys) {
            0
        } else {
            0xDEAD_BEEF
        };
        if answer.is_err() && index.iter().any(|&cell| cell != left) {
            return Err(format!("index after {answer:?}"));
        }
        self.feed(Event::Recovery(answer.is_ok()));
        match answer {
            Ok(record) => {
                self.record = Some(record);
                self.index = index;
                self.check_book()?;
                if self.strict {
                    self.check_index()?;
                }
            }
            Err(Refusal::TooManyKeys) => self.record = None,
            Err(_) => {}
        }
        Ok(answer)
    }

    /// Recovers as demand 3 has it: the same index size, any order, always accepted.
    pub fn must_recover(&mut self, order: &[u8]) -> Result<(), Fault> {
        match self.recover(self.index.len(), order)? {
            Ok(_) => Ok(()),
            Err(refusal) => Err(format!("recovery refused: {refusal:?}")),
        }
    }

    pub fn check_index(&self) -> Result<(), Fault> {
        let map = self.record().map;
        if rule_holds(self.slots, self.slot_bytes, map, &self.area, &self.index) {
            Ok(())
        } else {
            Err("the index breaks its rule".into())
        }
    }

    /// Holds the next version, and what a read of each key answers, to the book.
    pub fn check_book(&self) -> Result<(), Fault> {
        same!("next version", self.record().next, self.book.next);
        self.check_reads()
    }

    /// Holds the reads of all keys to the book, also while an operation is pending.
    pub fn check_reads(&self) -> Result<(), Fault> {
        self.keys.iter().try_for_each(|&key| self.check_read(key))
    }

    /// Holds one read to the book.
    pub fn check_read(&self, key: Key) -> Result<(), Fault> {
        self.check_read_in(Tables::ALL, key)
    }

    /// Holds one read to the book, and to the tables of its caller.
    pub fn check_read_in(&self, tables: Tables, key: Key) -> Result<(), Fault> {
        let record = self.record();
        let found = read(&record, &self.area, &self.index, tables, key);
        let value = read_value(&record, &self.area, &self.index, tables, key);
        let (slots, slot_bytes) = (self.slots, self.slot_bytes);
        let scanned = scan_read(slots, slot_bytes, &self.area, tables, key);
        same!(format!("scan for {key:?}"), scanned, found);
        let scanned = scan_read_value(slots, slot_bytes, &self.area, tables, key);
        same!(
            "part by a scan",
            scanned.as_ptr_range(),
            value.as_ptr_range()
        );
        if !(tables.first..=tables.last).contains(&key.table) {
            same!(
                format!("read of {key:?}"),
                found,
                Err(Refusal::OutsideTables)
            );
            same!(
                "value outside the tables",
                value.as_ptr_range(),
                self.area[..0].as_ptr_range()
            );
            return Ok(());
        }
        match self.book.keys.get(&key) {
            None => {
                same!(format!("read of {key:?}"), found, Err(Refusal::Absent));
                same!("value of an absent key", value.len(), 0);
            }
            Some((version, written)) => {
                let kind = self.kind_at(value, written.len());
                let found = found.map(|found| (found.version, Some(found.kind)));
                same!(format!("read of {key:?}"), found, Ok((*version, kind)));
                same!("value", value, &written[..]);
            }
        }
        Ok(())
    }

    /// The kind of an object whose value has so many bytes, in the slot that the value lies in.
    fn kind_at(&self, value: &[u8], bytes: usize) -> Option<u8> {
        let place = value.as_ptr() as usize - self.area.as_ptr() as usize;
        let start = place - place % self.slot_bytes as usize;
        Numbers::of_digest(self.area[start])?.object(bytes)
    }

    /// The history so far, steps counted together.
    pub fn history(&self) -> String {
        let mut text = String::new();
        let mut steps = 0;
        for event in &self.events {
            if *event == Event::Step(true) {
                steps += 1;
                continue;
            }
            tell_steps(&mut text, &mut steps);
            let _ = writeln!(text, "  {}", tell(event));
        }
        tell_steps(&mut text, &mut steps);
        text
    }
}

/// Whether the operation has no key, or one in a table of the caller.
fn may_use(tables: Tables, operation: &Operation) -> bool {
    match operation {
        Operation::Write(key, _) | Operation::Delete(key) => {
            (tables.first..=tables.last).contains(&key.table)
        }
        Operation::Clean(_) => true,
    }
}

fn tell_steps(text: &mut String, steps: &mut u32) {
    if *steps > 0 {
        let _ = writeln!(text, "  {steps} steps");
    }
    *steps = 0;
}

fn tell(event: &Event) -> String {
    match event {
        Event::Start(operation, stores) => {
            let outcome = stores.map_or("refused".into(), |stores| format!("{stores} stores"));
            match operation {
                Operation::Write(key, value) => {
                    let bytes = value.len();
                    format!("write {}/{}, {bytes} bytes: {outcome}", key.table, key.key)
                }
                Operation::Delete(key) => format!("delete {}/{}: {outcome}", key.table, key.key),
                Operation::Clean(victims) => format!("clean {:#b}: {outcome}", victims.0),
            }
        }
        Event::Step(_) => "step refused".into(),
        Event::Read(key) => format!("read {}/{}", key.table, key.key),
        Event::Switch(true) => "switch".into(),
        Event::Switch(false) => "switch refused".into(),
        Event::Recovery(true) => "recovery".into(),
        Event::Recovery(false) => "recovery refused".into(),
        Event::Cut => "cut".into(),
    }
}
