//! Two stores with the same history.

use std::fmt::Write;

use reference::book::Operation;
use reference::edition::{NEXT, NUMBER};
use reference::index::rule_holds;
use reference::rng::Rng;
use reference::testing::calls::Given;
use reference::testing::full;
use reference::{Edition, Key, SlotMap, Started, Tables, Version};

use crate::guarded::Guarded;
use crate::{same, translate, Fault};

/// What a cut leaves in memory that it loses.
const LOST_CELL: u32 = 0xDEAD_BEEF;
const LOST_BYTE: u8 = 0x5A;

/// What a read tells: version and kind, or the refusal.
pub type Told = Result<(u64, u8), u32>;

/// One implementation's memory.
#[derive(Clone, Debug)]
struct Memory {
    area: Guarded<u8>,
    index: Guarded<u32>,
    work: Guarded<u8>,
}

impl Memory {
    fn new(area: &[u8], cells: usize, work_bytes: usize) -> Memory {
        Memory {
            area: Guarded::new(area, 5),
            index: Guarded::new(&vec![LOST_CELL; cells], 1),
            work: Guarded::new(&vec![LOST_BYTE; work_bytes], 5),
        }
    }

    fn is_intact(&self) -> bool {
        self.area.is_intact() && self.index.is_intact() && self.work.is_intact()
    }

    /// Starts an operation of the proved store.
    fn start_proved(
        &mut self,
        mut record: kurdavel::Record,
        operation: &Operation,
        given: Given,
    ) -> (kurdavel::Record, Result<u32, kurdavel::Refusal>) {
        let Memory { area, index, work } = self;
        let work = &mut work[..given.work_bytes];
        let tables = translate::tables(given.tables);
        let answer = match operation {
            Operation::Write(key, value) => {
                let key = translate::key(*key);
                match given.expected.map(translate::version) {
                    None => record.write(area, index, work, tables, key, value),
                    Some(expected) => {
                        record.write_expecting(area, index, work, tables, key, expected, value)
                    }
                }
            }
            Operation::Delete(key) => {
                record.delete(area, index, work, tables, translate::key(*key))
            }
            Operation::Clean(victims) => {
                record.clean(area, index, work, kurdavel::SlotMap(victims.0))
            }
        };
        (record, answer)
    }

    /// Starts an operation of the reference.
    fn start_reference(
        &mut self,
        record: reference::Record,
        operation: &Operation,
        given: Given,
    ) -> Started {
        let Memory { area, index, work } = self;
        let (work, tables) = (&mut work[..given.work_bytes], given.tables);
        match operation {
            Operation::Write(key, value) => match given.expected {
                None => reference::write(record, area, index, work, tables, *key, value),
                Some(expected) => reference::write_expecting(
                    record, area, index, work, tables, *key, expected, value,
                ),
            },
            Operation::Delete(key) => reference::delete(record, area, index, work, tables, *key),
            Operation::Clean(victims) => reference::clean(record, area, index, work, *victims),
        }
    }
}

/// The proved store and the reference, after the same calls and cuts.
#[derive(Clone, Debug)]
pub struct Pair {
    slots: u32,
    slot_bytes: u32,
    proved: Memory,
    reference: Memory,
    /// The newest record of each. None from a format, a cut or a refusal with 20 up to the next accepted recovery.
    records: Option<(kurdavel::Record, reference::Record)>,
    /// The proved store's index as the last recovery or last step left it: no other call may change it.
    settled: Vec<u32>,
    /// The calls so far, for a report; accepted steps are counted together.
    history: String,
    steps: u32,
}

impl Pair {
    /// Two stores over the same bytes, not recovered yet. The work buffers are a little longer than they must be.
    pub fn unrecovered(slots: u32, slot_bytes: u32, cells: usize, area: &[u8]) -> Pair {
        let work_bytes = slot_bytes as usize + 3;
        Pair {
            slots,
            slot_bytes,
            proved: Memory::new(area, cells, work_bytes),
            reference: Memory::new(area, cells, work_bytes),
            records: None,
            settled: vec![LOST_CELL; cells],
            history: format!("N {slots}, S {slot_bytes}, M {cells}\n"),
            steps: 0,
        }
    }

    /// Two stores of an edition, formatted over the given bytes and recovered.
    pub fn fresh(
        edition: Edition,
        slots: u32,
        slot_bytes: u32,
        cells: usize,
        area: &[u8],
    ) -> Result<Pair, Fault> {
        let mut pair = Pair::unrecovered(slots, slot_bytes, cells, area);
        pair.format(slots, slot_bytes, edition)?
            .map_err(|refusal| format!("format refused: {refusal}"))?;
        pair.must_recover(&pair.ascending())?;
        Ok(pair)
    }

    /// The slots in ascending order.
    pub fn ascending(&self) -> Vec<u8> {
        (0..self.slots as u8).collect()
    }

    /// Number of slots.
    pub fn slots(&self) -> u32 {
        self.slots
    }

    /// Bytes in a slot.
    pub fn slot_bytes(&self) -> u32 {
        self.slot_bytes
    }

    /// Cells of the index.
    pub fn cells(&self) -> usize {
        self.proved.index.len()
    }

    /// Length of the work buffer.
    pub fn work_bytes(&self) -> usize {
        self.proved.work.len()
    }

    /// The bytes that both stores stand on.
    pub fn area(&self) -> &[u8] {
        &self.proved.area
    }

    /// The proved store's index.
    pub fn index(&self) -> &[u32] {
        &self.proved.index
    }

    /// Whether a record is held, so that calls other than recovery may come.
    pub fn is_recovered(&self) -> bool {
        self.records.is_some()
    }

    /// The newest record, as the reference has it.
    pub fn record(&self) -> reference::Record {
        self.records.expect("an accepted recovery came before").1
    }

    /// The calls so far.
    pub fn history(&mut self) -> &str {
        self.tell(format_args!("end"));
        &self.history
    }

    fn tell(&mut self, line: std::fmt::Arguments) {
        if self.steps > 0 {
            let _ = writeln!(self.history, "{} steps", self.steps);
            self.steps = 0;
        }
        let _ = writeln!(self.history, "{line}");
    }

    /// Formats both.
    pub fn format(
        &mut self,
        slots: u32,
        slot_bytes: u32,
        edition: Edition,
    ) -> Result<Result<(), u32>, Fault> {
        self.tell(format_args!("format {slots} {slot_bytes} {edition:?}"));
        let answer = translate::format(slots, slot_bytes, edition.0, &mut self.proved.area);
        let area = &mut self.reference.area;
        let owed = reference::format(slots, slot_bytes, edition, area);
        same!("format", answer, translate::reference(owed));
        if answer.is_ok() {
            self.records = None;
        }
        self.same_memory()?;
        Ok(answer)
    }

    /// Sets bytes of both areas, as of a store with a long history.
    pub fn age(&mut self, place: usize, bytes: &[u8]) {
        let end = place + bytes.len();
        self.tell(format_args!("bytes {bytes:?} at {place}"));
        self.proved.area[place..end].copy_from_slice(bytes);
        self.reference.area[place..end].copy_from_slice(bytes);
    }

    /// Gives the digest of a formatted store this number.
    pub fn age_number(&mut self, number: u32) {
        self.age(NUMBER, &number.to_le_bytes());
    }

    /// Gives the digest of a formatted store this next version.
    pub fn age_next(&mut self, next: Version) {
        let layout = Edition::of_segment(self.area()).and_then(Edition::layout);
        let width = layout.expect("a format came before").version_bytes;
        self.age(NEXT, &next.0.to_le_bytes()[..width]);
    }

    /// All that a call may not leave otherwise in one than in the other.
    fn same_memory(&self) -> Result<(), Fault> {
        if !self.proved.is_intact() {
            return Err("memory beside what was lent is changed".into());
        }
        if self.proved.area[..] != self.reference.area[..] {
            let place = (0..).find(|&i| self.proved.area[i] != self.reference.area[i]);
            return Err(format!("areas differ at {place:?}"));
        }
        same!("work buffer", self.proved.work[..], self.reference.work[..]);
        self.same_record()
    }

    fn same_record(&self) -> Result<(), Fault> {
        if let Some((proved, reference)) = self.records {
            same!("record", proved, translate::record(reference));
            let fewest = translate::reference(reference::fewest(&reference));
            same!("fewest", translate::proved(proved.fewest()), fewest);
        }
        Ok(())
    }

    fn check_index(&self) -> Result<(), Fault> {
        let map = SlotMap(self.record().map.0);
        let (area, index) = (&self.proved.area, &self.proved.index);
        if rule_holds(self.slots, self.slot_bytes, map, area, index) {
            Ok(())
        } else {
            Err("the index breaks its rule".into())
        }
    }

    /// Loses all that a cut loses.
    pub fn cut(&mut self) {
        self.tell(format_args!("cut"));
        self.records = None;
        for memory in [&mut self.proved, &mut self.reference] {
            memory.index.fill(LOST_CELL);
            memory.work.fill(LOST_BYTE);
        }
        self.settled.fill(LOST_CELL);
    }

    /// Recovers both into an index of the given length, which takes the place of the old one if that is accepted.
    pub fn recover(&mut self, cells: usize, order: &[u8]) -> Result<Result<(), u32>, Fault> {
        self.tell(format_args!("recover, M {cells}, order {order:?}"));
        let (slots, slot_bytes) = (self.slots, self.slot_bytes);
        let mut proved = Guarded::new(&vec![LOST_CELL; cells], 1);
        let mut reference = proved.clone();
        let answer = kurdavel::recover(slots, slot_bytes, order, &self.proved.area, &mut proved);
        let area = &self.reference.area;
        let owed = reference::recover(slots, slot_bytes, area, &mut reference, order);
        let told = translate::proved(answer.map(|_| ()));
        same!("recovery", told, translate::reference(owed.map(|_| ())));
        if !proved.is_intact() {
            return Err("memory beside the index is changed".into());
        }
        match (answer, owed) {
            (Ok(record), Ok(owed)) => {
                self.records = Some((record, owed));
                self.settled = proved.to_vec();
                self.proved.index = proved;
                self.reference.index = reference;
                self.same_memory()?;
                self.check_index()?;
            }
            _ => {
                same!("index of a refused recovery", proved[..], reference[..]);
                self.same_memory()?;
                if told == Err(20) {
                    self.records = None;
                }
            }
        }
        Ok(told)
    }

    /// Recovers as after any cut: the same index length, any order, always accepted.
    pub fn must_recover(&mut self, order: &[u8]) -> Result<(), Fault> {
        match self.recover(self.cells(), order)? {
            Ok(()) => Ok(()),
            Err(refusal) => Err(format!("recovery refused: {refusal}")),
        }
    }

    /// Starts an operation on both, with what it is given.
    pub fn start(
        &mut self,
        operation: &Operation,
        given: Given,
    ) -> Result<Result<u32, u32>, Fault> {
        let (record, before) = self.records.expect("an accepted recovery came before");
        let (record, answer) = self.proved.start_proved(record, operation, given);
        let (after, owed) = self.reference.start_reference(before, operation, given);
        let answer = translate::proved(answer);
        self.tell(format_args!("{}, {given:?}: {answer:?}", named(operation)));
        same!("start", answer, translate::reference(owed));
        self.records = Some((record, after));
        same!("index of a start", self.proved.index[..], self.settled[..]);
        self.same_memory()?;
        Ok(answer)
    }

    /// Starts an operation with the whole work buffer.
    pub fn begin(&mut self, operation: &Operation) -> Result<Result<u32, u32>, Fault> {
        self.start(operation, Given::plain(self.work_bytes()))
    }

    /// Starts an operation with anything that it may be given.
    pub fn start_somehow(
        &mut self,
        rng: &mut Rng,
        operation: &Operation,
    ) -> Result<Result<u32, u32>, Fault> {
        let (record, whole) = (self.record(), self.work_bytes());
        let given = Given::random(rng, operation, record, |key| self.version(key), whole);
        self.start(operation, given)
    }

    /// The version of a key, as the reference reads it; none where it is absent.
    pub fn version(&self, key: Key) -> Version {
        let Memory { area, index, .. } = &self.reference;
        let found = reference::read(&self.record(), area, index, Tables::ALL, key);
        found.map_or(Version::NONE, |found| found.version)
    }

    /// Switches both. The records alone are changed.
    pub fn switch(&mut self) -> Result<Result<(), u32>, Fault> {
        let (mut record, before) = self.records.expect("an accepted recovery came before");
        let answer = translate::proved(record.switch());
        let (after, owed) = reference::switch(before);
        self.tell(format_args!("switch: {answer:?}"));
        same!("switch", answer, translate::reference(owed));
        self.records = Some((record, after));
        same!("index of a switch", self.proved.index[..], self.settled[..]);
        self.same_memory()?;
        Ok(answer)
    }

    /// The slots of the log that are of the first edition.
    pub fn old_slots(&self) -> Vec<u32> {
        let segment = |slot: u32| &self.area()[(slot * self.slot_bytes) as usize..];
        let slots = self.record().map.slots();
        slots
            .filter(|&slot| Edition::of_segment(segment(slot)) == Some(Edition::FIRST))
            .collect()
    }

    /// The two slots to join, as both tell them.
    pub fn join(&self) -> Result<Result<(u32, u32), u32>, Fault> {
        let (record, owed) = self.records.expect("an accepted recovery came before");
        let told = translate::proved(record.join(&self.proved.area, &self.proved.index));
        let owed = reference::join(&owed, &self.reference.area, &self.reference.index);
        same!("join", told, translate::reference(owed));
        self.same_memory()?;
        Ok(told)
    }

    /// The store that the next step makes, as both tell it.
    pub fn next_store(&self) -> Result<Result<(usize, u8), u32>, Fault> {
        let (record, owed) = self.records.expect("an accepted recovery came before");
        let told = record.next_store(&self.proved.area, &self.proved.work);
        let told = translate::proved(told.map(|store| (store.place, store.byte)));
        let owed = reference::next_store(&owed, &self.reference.area, &self.reference.work);
        let owed = translate::reference(owed.map(|store| (store.place, store.byte)));
        same!("next store", told, owed);
        Ok(told)
    }

    /// Makes one step on both, which stores what was told before.
    pub fn step(&mut self) -> Result<Result<(u32, u64), u32>, Fault> {
        let told = self.next_store()?;
        let (mut record, before) = self.records.expect("an accepted recovery came before");
        let Memory { area, index, work } = &mut self.proved;
        let answer = record.step(area, index, work);
        let stored = told.is_ok_and(|(place, byte)| area[place] == byte);
        same!("store made as told", answer.is_ok(), stored);
        let Memory { area, index, work } = &mut self.reference;
        let (after, owed) = reference::step(before, area, index, work);
        let answer = translate::proved(answer.map(translate::proved_progress));
        let owed = translate::reference(owed.map(translate::reference_progress));
        same!("step", answer, owed);
        self.records = Some((record, after));
        self.same_memory()?;
        self.steps += u32::from(answer.is_ok());
        if let Ok((0, _)) = answer {
            self.check_index()?;
            self.settled.copy_from_slice(&self.proved.index);
        }
        same!("index of a step", self.proved.index[..], self.settled[..]);
        Ok(answer)
    }

    /// Steps up to the end of the pending operation.
    pub fn finish(&mut self) -> Result<(), Fault> {
        while self.record().pending.left() > 0 {
            if let Err(refusal) = self.step()? {
                return Err(format!("step refused: {refusal}"));
            }
        }
        Ok(())
    }

    /// Writes values of these lengths under the keys in turn on both, until even the shortest is refused; tells how many.
    pub fn fill(&mut self, keys: &[Key], lengths: &[usize]) -> Result<u32, Fault> {
        full::fill(keys, lengths, |operation| {
            let answer = self.begin(operation)?;
            self.finish()?;
            Ok(answer)
        })
    }

    /// Cleans the two slots that are told, which must be accepted, and gives them; or the number that refuses to tell any.
    pub fn join_and_clean(&mut self) -> Result<Result<(u32, u32), u32>, Fault> {
        let told = self.join()?;
        if let Ok((first, second)) = told {
            let clean = Operation::Clean(SlotMap(1 << first | 1 << second));
            if let Err(refusal) = self.begin(&clean)? {
                return Err(format!("cleaning of the two slots refused: {refusal}"));
            }
            self.finish()?;
        }
        Ok(told)
    }

    /// Reads a key from both, for a caller of all tables.
    pub fn read(&self, key: Key) -> Result<Told, Fault> {
        self.read_in(Tables::ALL, key).map(|(found, _)| found)
    }

    /// Reads a key by a scan of the area as it stands, record or not, and where there is a record also by it: all tell the
    /// same.
    pub fn scan_in(&self, tables: Tables, key: Key) -> Result<Told, Fault> {
        let (told, part) = scan(self.slots, self.slot_bytes, self.area(), tables, key)?;
        if self.is_recovered() {
            let (found, value) = self.read_in(tables, key)?;
            let place = value.as_ptr() as usize - self.area().as_ptr() as usize;
            same!("scan and read", (told, part), (found, (place, value.len())));
        }
        Ok(told)
    }

    /// Reads a key from both, for a caller with these tables. Version, kind, value and the value's place are the same.
    pub fn read_in(&self, tables: Tables, key: Key) -> Result<(Told, &[u8]), Fault> {
        let (record, owed) = self.records.expect("an accepted recovery came before");
        let Memory { area, index, .. } = &self.proved;
        let (proved_tables, proved_key) = (translate::tables(tables), translate::key(key));
        let found = record.read(area, index, proved_tables, proved_key);
        let value = record.read_value(area, index, proved_tables, proved_key);
        let place = value.as_ptr() as usize - area.as_ptr() as usize;
        let Memory { area, index, .. } = &self.reference;
        let owed_found = reference::read(&owed, area, index, tables, key);
        let owed_value = reference::read_value(&owed, area, index, tables, key);
        let owed_place = owed_value.as_ptr() as usize - area.as_ptr() as usize;
        let found = translate::proved(found.map(translate::proved_found));
        let owed_found = translate::reference(owed_found.map(translate::reference_found));
        same!(format!("read of {key:?}"), found, owed_found);
        same!(format!("value of {key:?}"), value, owed_value);
        same!(format!("place of {key:?}"), place, owed_place);
        Ok((found, value))
    }
}

/// What both tell of a key by a scan of an area: version, kind, and place and length of the value.
pub fn scan(
    slots: u32,
    slot_bytes: u32,
    area: &[u8],
    tables: Tables,
    key: Key,
) -> Result<(Told, (usize, usize)), Fault> {
    let lent = Guarded::new(area, 5);
    let (proved_tables, proved_key) = (translate::tables(tables), translate::key(key));
    let told = kurdavel::scan_read(slots, slot_bytes, &lent, proved_tables, proved_key);
    let told = translate::proved(told.map(translate::proved_found));
    let part = kurdavel::scan_read_value(slots, slot_bytes, &lent, proved_tables, proved_key);
    let part = (part.as_ptr() as usize - lent.as_ptr() as usize, part.len());
    let owed = reference::scan_read(slots, slot_bytes, area, tables, key);
    let owed = translate::reference(owed.map(translate::reference_found));
    same!(format!("scan for {key:?}"), told, owed);
    let owed = reference::scan_read_value(slots, slot_bytes, area, tables, key);
    let owed = (owed.as_ptr() as usize - area.as_ptr() as usize, owed.len());
    same!(format!("part by a scan for {key:?}"), part, owed);
    if lent[..] != area[..] || !lent.is_intact() {
        return Err("a scan changes memory".into());
    }
    Ok((told, part))
}

/// What both make of an area in the other edition, in a second one of so many bytes: the answers and every byte are the same.
pub fn convert(
    slots: u32,
    slot_bytes: u32,
    source: &[u8],
    target_bytes: usize,
) -> Result<Result<Vec<u8>, u32>, Fault> {
    let lent = Guarded::new(source, 5);
    let mut proved = Guarded::new(&vec![LOST_BYTE; target_bytes], 5);
    let mut reference = proved.to_vec();
    let answer = kurdavel::convert(slots, slot_bytes, &lent, &mut proved);
    let answer = translate::proved(answer);
    let owed = reference::convert(slots, slot_bytes, source, &mut reference);
    same!("conversion", answer, translate::reference(owed));
    if let Some(place) = (0..target_bytes).find(|&place| proved[place] != reference[place]) {
        return Err(format!("targets differ at {place}"));
    }
    if answer.is_err() && proved.iter().any(|&byte| byte != LOST_BYTE) {
        return Err(format!("{answer:?} changes the target"));
    }
    if lent[..] != source[..] || !lent.is_intact() || !proved.is_intact() {
        return Err("a conversion changes other memory".into());
    }
    Ok(answer.map(|()| reference))
}

fn named(operation: &Operation) -> String {
    match operation {
        Operation::Write(key, value) => {
            format!("write {}/{}, {} bytes", key.table, key.key, value.len())
        }
        Operation::Delete(key) => format!("delete {}/{}", key.table, key.key),
        Operation::Clean(victims) => format!("clean {:#b}", victims.0),
    }
}
