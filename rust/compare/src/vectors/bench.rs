//! One implementation living through a history: what it is lent, its record, and the check of every event against it.
//!
//! Every call works on a copy of the lent memory. The copy is compared whole with what the event allows, and becomes
//! the store's own if the call was accepted.

use std::collections::BTreeSet;

use reference::index::rule_holds;
use reference::SlotMap;

use crate::guarded::Guarded;

use super::difference::{same, same_buffer, Difference};
use super::event::{
    Before, Buffer, Changes, Event, Field, Found, Geometry, Key, Owed, PresentKey, Range, Record,
    Started, Step, Steps, Told,
};
use super::fnv::fnv1a;
use super::level::{Level, Part};
use super::subject::{Answer, Asked, Memory, No, Progress, Start, Subject, Writing};
use super::words::LONGEST;

/// A cell of an index that no recovery has filled yet.
const NEW_CELL: u32 = 0xDEAD_BEEF;
/// By how much the work buffer is longer than it must be.
const SPARE_WORK: usize = 3;
/// What the second buffer of a conversion is full of before it.
const TARGET_BYTE: u8 = 0xC9;

/// What an event leaves to say: nothing, or the first field that is not as it should be.
type Checked = Result<(), Difference>;

/// A store of one implementation, from the start of a history on.
#[derive(Clone, Debug)]
pub struct Bench<S: Subject> {
    level: Level,
    geometry: Geometry,
    /// None before an accepted format or an image.
    memory: Option<Memory>,
    /// None before an accepted recovery, and after whatever loses the record. The index counts only beside a record.
    record: Option<S::Record>,
    /// The keys that calls have named.
    named: BTreeSet<Key>,
    /// How often the work buffer was lost; its content is another each time.
    losses: u8,
}

impl<S: Subject> Bench<S> {
    /// A history begins: nothing is lent yet.
    pub fn new(level: Level, geometry: Geometry) -> Bench<S> {
        Bench {
            level,
            geometry,
            memory: None,
            record: None,
            named: BTreeSet::new(),
            losses: 0,
        }
    }

    /// N, S and edition, as the history or the last image has them.
    pub fn geometry(&self) -> Geometry {
        self.geometry
    }

    /// What the newest record says, if there is one.
    pub fn record_said(&self) -> Option<Record> {
        self.record.as_ref().and_then(S::says)
    }

    /// Replays one event, with what the `with` lines before it change. After a difference the store is not to be used.
    pub fn replay(&mut self, event: &Event, changes: &Changes) -> Checked {
        match event {
            Event::History(geometry) => {
                *self = Bench::new(self.level, *geometry);
                Ok(())
            }
            Event::Format { before, owed } => self.format(before, owed, changes),
            Event::Image { .. } => self.image(event, changes),
            Event::Patch { place, bytes } => self.patch(*place, bytes),
            Event::Cut => self.lose(),
            Event::Recover { cells, order, owed } => self.recover(*cells, order, owed, changes),
            Event::Present(owed) => self.present(owed, changes),
            Event::Read { key, range, owed } => {
                let asked = self.name(*key, *range);
                self.read(asked, owed, changes)
            }
            Event::Step(owed) => self.step(owed, changes),
            Event::Steps(steps) => self.steps(steps),
            Event::End { fnv, area } => self.end(*fnv, area.as_deref()),
            Event::With(_) => Ok(()),
            _ => self.operation(event, changes),
        }
    }

    /// The starts, the switch, the calls that choose slots and those without a record; any other event has no call.
    fn operation(&mut self, event: &Event, changes: &Changes) -> Checked {
        match event {
            Event::Write {
                key,
                value,
                expected,
                range,
                owed,
            } => {
                let writing = Writing {
                    asked: self.name(*key, *range),
                    value,
                    expected: *expected,
                };
                self.start(Start::Write(writing), owed, changes)
            }
            Event::Delete { key, range, owed } => {
                let start = Start::Delete(self.name(*key, *range));
                self.start(start, owed, changes)
            }
            Event::Clean { victims, owed } => self.start(Start::Clean(*victims), owed, changes),
            Event::Fewest(owed) => self.fewest(owed, changes),
            Event::Join(owed) => self.join(owed, changes),
            Event::Switch(owed) => self.switch(owed, changes),
            Event::FromFloat { value, owed } => check_converted(owed, S::from_float(value)),
            Event::ToFloat { value, owed } => check_converted(owed, S::to_float(value)),
            Event::ScanRead { key, range, owed } => {
                let asked = self.name(*key, Some(*range));
                self.scan_read(asked, owed, changes)
            }
            Event::Convert { .. } => convert::<S>(event, changes),
            Event::ConvertArea(owed) => self.convert_area(owed, changes),
            _ => Err(no_call("this event")),
        }
    }

    fn name(&mut self, key: Key, range: Option<Range>) -> Asked {
        self.named.insert(key);
        Asked { key, range }
    }

    fn memory(&self) -> Result<&Memory, Difference> {
        let missing = || Difference::new("area", "an accepted format or an image before", "none");
        self.memory.as_ref().ok_or_else(missing)
    }

    fn record(&self) -> Result<&S::Record, Difference> {
        let missing = || Difference::new("record", "an accepted recovery before", "none");
        self.record.as_ref().ok_or_else(missing)
    }

    /// A work buffer of any content.
    fn work(&self) -> Guarded<u8> {
        let slot_bytes = u64::from(self.geometry.slot_bytes).min(LONGEST) as usize;
        let bytes = (0..slot_bytes + SPARE_WORK).map(|place| place as u8 ^ self.losses ^ 0xA5);
        Guarded::new(&bytes.collect::<Vec<u8>>(), 5)
    }

    /// Record, index and work buffer are lost.
    fn lose(&mut self) -> Checked {
        self.losses = self.losses.wrapping_add(29);
        self.record = None;
        let work = self.work();
        if let Some(memory) = &mut self.memory {
            memory.work = work;
            memory.index = Guarded::new(&[], 1);
        }
        Ok(())
    }

    /// The area is now this one, and all else is lost.
    fn set_area(&mut self, area: Guarded<u8>) {
        self.losses = self.losses.wrapping_add(29);
        self.record = None;
        self.memory = Some(Memory {
            area,
            index: Guarded::new(&[], 1),
            work: self.work(),
        });
    }

    fn format(&mut self, before: &Before, owed: &Owed<u64>, changes: &Changes) -> Checked {
        let whole = match before {
            Before::Fill(pattern) => filled(pattern, self.geometry)?,
            Before::Hex(area) => area.clone(),
        };
        let lent = Guarded::new(&resized(&whole, changes.lent(Buffer::Area)), 5);
        let mut area = lent.clone();
        let answer = S::format(changes.geometry(self.geometry), &mut area);
        intact("area", &area)?;
        let Some((fnv, ())) = settled(owed, answer)? else {
            return same_buffer("area", &lent, &area);
        };
        same_fnv("area", *fnv, &area)?;
        self.set_area(area);
        Ok(())
    }

    fn image(&mut self, event: &Event, changes: &Changes) -> Checked {
        let Event::Image {
            slots,
            slot_bytes,
            cells,
            order,
            area,
            owed,
        } = event
        else {
            return Ok(());
        };
        self.geometry.slots = *slots;
        self.geometry.slot_bytes = *slot_bytes;
        self.set_area(Guarded::new(area, 5));
        let record = owed.as_ref().map(|(record, _)| record.clone());
        self.recover(*cells, order, &record.map_err(|refusal| *refusal), changes)?;
        match owed {
            Ok((_, keys)) => self.present(&Ok(keys.clone()), &Changes::default()),
            Err(_) => Ok(()),
        }
    }

    fn patch(&mut self, place: usize, bytes: &[u8]) -> Checked {
        self.lose()?;
        self.memory()?;
        let Some(memory) = &mut self.memory else {
            return Ok(());
        };
        let area = memory.area.len();
        match memory.area.get_mut(place..place + bytes.len()) {
            Some(part) => {
                part.copy_from_slice(bytes);
                Ok(())
            }
            None => {
                let expected = format!("bytes within the area of {area}");
                Err(Difference::new("place", expected, place))
            }
        }
    }

    /// The store's own index if it has this many cells, else a new one.
    fn index_for_recovery(&self, memory: &Memory, cells: usize) -> Guarded<u32> {
        if self.record.is_some() && memory.index.len() == cells {
            memory.index.clone()
        } else {
            Guarded::new(&vec![NEW_CELL; cells], 1)
        }
    }

    fn recover(
        &mut self,
        cells: usize,
        order: &[u8],
        owed: &Owed<Record>,
        changes: &Changes,
    ) -> Checked {
        let own = self.memory()?;
        let index = self.index_for_recovery(own, cells);
        let lent = lent_of(
            &Memory {
                index,
                ..own.clone()
            },
            changes,
        );
        let mut memory = lent.clone();
        let answer = S::recover(changes.geometry(self.geometry), order, &mut memory);
        match settled(owed, answer)? {
            Some((owed, record)) => {
                check_record::<S>(owed, &record)?;
                check_memory(&lent, &memory, Some(owed))?;
                self.record = Some(record);
                self.memory = Some(memory);
            }
            None if *owed == Err(20) => {
                let mut cleared = lent;
                cleared.index.fill(0);
                check_memory(&cleared, &memory, None)?;
                self.record = None;
            }
            None => check_memory(&lent, &memory, None)?,
        }
        Ok(())
    }

    /// The record and the memory that a call gets.
    fn lend(&self, changes: &Changes) -> Result<(S::Record, Memory), Difference> {
        let mut record = self.record()?.clone();
        for (field, value) in changes.fields() {
            record = S::forged(&record, field, value).map_err(not_forged)?;
        }
        Ok((record, lent_of(self.memory()?, changes)))
    }

    fn start(&mut self, start: Start, owed: &Owed<Started>, changes: &Changes) -> Checked {
        let (before, lent) = self.lend(changes)?;
        let (mut record, mut memory) = (before.clone(), lent.clone());
        let answer = S::start(&mut record, &mut memory, start);
        let Some((owed, stores)) = settled(owed, answer)? else {
            return untouched::<S>((&before, &lent), (&record, &memory));
        };
        same("stores", owed.stores, stores)?;
        check_record::<S>(&owed.record, &record)?;
        let mut filled = lent;
        let room = filled.work.len();
        match filled.work.get_mut(..owed.work.len()) {
            Some(part) => part.copy_from_slice(&owed.work),
            None => {
                let found = format!("a work buffer of {room}");
                return Err(Difference::new("length of WORK", owed.work.len(), found));
            }
        }
        check_memory(&filled, &memory, None)?;
        self.record = Some(record);
        self.memory = Some(memory);
        Ok(())
    }

    fn step(&mut self, owed: &Owed<Step>, changes: &Changes) -> Checked {
        let (before, lent) = self.lend(changes)?;
        if changes.lent(Buffer::Index).is_none() {
            check_next_store::<S>(&before, &lent, owed)?;
        }
        let (mut record, mut memory) = (before.clone(), lent.clone());
        let answer = S::step(&mut record, &mut memory);
        let Some((owed, progress)) = settled(owed, answer)? else {
            return untouched::<S>((&before, &lent), (&record, &memory));
        };
        match &owed.told {
            Told::More(left) => check_more::<S>(&before, &record, *left, progress)?,
            Told::Done(version, owed) => check_done::<S>(*version, owed, &record, progress)?,
        }
        let after = after_store(&lent, &memory, owed)?;
        check_memory(&after, &memory, done_record(&owed.told))?;
        if lent.area[owed.place] == owed.byte {
            check_unseen_store::<S>(&before, &lent, owed)?;
        }
        self.record = Some(record);
        self.memory = Some(memory);
        Ok(())
    }

    fn steps(&mut self, owed: &Steps) -> Checked {
        for done in 1..=owed.count {
            let left = u64::from(owed.left) + u64::from(owed.count - done);
            self.one_of_steps(left, owed)?;
        }
        same_fnv("area", owed.fnv, &self.memory()?.area)?;
        check_record::<S>(&owed.record, self.record()?)
    }

    /// A step of several: it stores at most one byte that can be seen, and the last one must agree with the line.
    fn one_of_steps(&mut self, left: u64, owed: &Steps) -> Checked {
        let (before, lent) = self.lend(&Changes::default())?;
        let (mut record, mut memory) = (before.clone(), lent.clone());
        let accepted: Owed<()> = Ok(());
        let answer = S::step(&mut record, &mut memory);
        let Some((_, progress)) = settled(&accepted, answer)? else {
            return Ok(());
        };
        match (u32::try_from(left), owed.version) {
            (Ok(0), Some(version)) => {
                check_done::<S>(version, &owed.record, &record, progress)?;
            }
            (Ok(left), _) => check_more::<S>(&before, &record, left, progress)?,
            (Err(_), _) => return Err(Difference::new("left", left, said(progress))),
        }
        check_told_store::<S>(&before, &lent, &memory)?;
        let changed = changed_places(&lent, &memory);
        if changed.len() > 1 {
            let expected = "one byte stored in a step";
            return Err(Difference::new("area", expected, listed(&changed)));
        }
        let mut after = lent;
        after.area.copy_from_slice(&memory.area);
        let last = (left == 0).then_some(&owed.record);
        check_memory(&after, &memory, last)?;
        self.record = Some(record);
        self.memory = Some(memory);
        Ok(())
    }

    fn read(&mut self, asked: Asked, owed: &Owed<Found>, changes: &Changes) -> Checked {
        let (before, lent) = self.lend(changes)?;
        let (record, memory) = (before.clone(), lent.clone());
        check_read::<S>(&record, &memory, asked, owed)?;
        untouched::<S>((&before, &lent), (&record, &memory))
    }

    /// The record alone answers: what else is lent does not matter.
    fn fewest(&mut self, owed: &Owed<u32>, changes: &Changes) -> Checked {
        let (before, _) = self.lend(changes)?;
        let record = before.clone();
        if let Some((owed, slot)) = settled(owed, S::fewest(&record))? {
            same("slot", *owed, slot)?;
        }
        if record != before {
            return Err(Difference::new("record", "as it was", "changed"));
        }
        Ok(())
    }

    /// The record alone is changed: what else is lent does not matter.
    fn switch(&mut self, owed: &Owed<Record>, changes: &Changes) -> Checked {
        let (before, _) = self.lend(changes)?;
        let mut record = before.clone();
        if let Some((owed, ())) = settled(owed, S::switch(&mut record))? {
            check_record::<S>(owed, &record)?;
            self.record = Some(record);
        } else if record != before {
            return Err(Difference::new("record", "as it was", "changed"));
        }
        Ok(())
    }

    fn join(&mut self, owed: &Owed<(u32, u32)>, changes: &Changes) -> Checked {
        let (before, lent) = self.lend(changes)?;
        let (record, memory) = (before.clone(), lent.clone());
        if let Some((owed, (first, second))) = settled(owed, S::join(&record, &memory))? {
            same("first slot", owed.0, first)?;
            same("second slot", owed.1, second)?;
        }
        untouched::<S>((&before, &lent), (&record, &memory))
    }

    /// A read of the area as it stands, record or not.
    fn scan_read(&mut self, asked: Asked, owed: &Owed<Found>, changes: &Changes) -> Checked {
        let lent = lent_of(self.memory()?, changes).area;
        let area = lent.clone();
        let geometry = changes.geometry(self.geometry);
        let answer = S::scan_read(geometry, &area, asked);
        let part = S::scan_read_value(geometry, &area, asked).map_err(not_forged)?;
        check_found(owed, answer, part)?;
        intact("area", &area)?;
        same_buffer("area", &lent, &area)
    }

    /// The area as it stands, record or not, in the other edition.
    fn convert_area(&self, owed: &Owed<u64>, changes: &Changes) -> Checked {
        let memory = self.memory()?;
        let target = target(memory.area.len(), changes);
        let lent = lent_of(memory, changes).area;
        let geometry = changes.geometry(self.geometry);
        match converted::<S, _>(geometry, &lent, target, owed)? {
            Some((fnv, target)) => same_fnv("target", *fnv, &target),
            None => Ok(()),
        }
    }

    /// Reads every key that the line names, every key that the history has named, and every key whose six bytes stand
    /// anywhere in the area. A key with an entry in the log is among the last.
    fn present(&mut self, owed: &Owed<Vec<PresentKey>>, changes: &Changes) -> Checked {
        let (before, lent) = self.lend(changes)?;
        let (record, memory) = (before.clone(), lent.clone());
        let range = self.level.has(Part::Range).then_some(Range {
            first: 0,
            last: u16::MAX,
        });
        let listed = owed.iter().flatten().map(|present| present.key);
        let stored = self.memory()?.area.windows(6).map(key_at);
        for key in listed.chain(self.named.iter().copied()).chain(stored) {
            let owed = owed_read(owed, key);
            check_read::<S>(&record, &memory, Asked { key, range }, &owed)
                .map_err(|difference| of_key(key, difference))?;
        }
        untouched::<S>((&before, &lent), (&record, &memory))
    }

    fn end(&self, fnv: u64, area: Option<&[u8]>) -> Checked {
        let found = &self.memory()?.area;
        if let Some(area) = area {
            same_buffer("area", area, found)?;
        }
        same_fnv("area", fnv, found)
    }
}

fn no_call(what: &str) -> Difference {
    let found = format!("none: the implementation has no call for {what} yet");
    Difference::new("call", "an answer", found)
}

fn not_forged(no: No) -> Difference {
    match no {
        No::Missing(what) => no_call(what),
        No::Refused(number) => Difference::new("with", "a record", format!("refused {number}")),
    }
}

/// Both answers if the call is accepted as it must be, nothing if it is refused as it must be.
fn settled<T, U>(owed: &Owed<T>, answer: Answer<U>) -> Result<Option<(&T, U)>, Difference> {
    let accepted = || "accepted".to_string();
    let refused = |number: u32| format!("refused {number}");
    match (owed, answer) {
        (_, Err(No::Missing(what))) => Err(no_call(what)),
        (Ok(owed), Ok(answer)) => Ok(Some((owed, answer))),
        (Err(owed), Err(No::Refused(found))) if *owed == found => Ok(None),
        (Ok(_), Err(No::Refused(found))) => {
            Err(Difference::new("answer", accepted(), refused(found)))
        }
        (Err(owed), Err(No::Refused(found))) => {
            Err(Difference::new("answer", refused(*owed), refused(found)))
        }
        (Err(owed), Ok(_)) => Err(Difference::new("answer", refused(*owed), accepted())),
    }
}

/// An area of this geometry with a pattern in it, over and over.
fn filled(pattern: &[u8], geometry: Geometry) -> Result<Vec<u8>, Difference> {
    let bytes = u64::from(geometry.slots) * u64::from(geometry.slot_bytes);
    if bytes > LONGEST {
        let expected = format!("at most {LONGEST} bytes of area");
        return Err(Difference::new("N and S", expected, bytes));
    }
    let endless = pattern.iter().copied().cycle();
    Ok(endless.take(bytes as usize).collect())
}

/// The first elements, or all of them and then zeros.
fn resized<T: Copy + Default>(elements: &[T], length: Option<usize>) -> Vec<T> {
    let mut lent = elements.to_vec();
    lent.resize(length.unwrap_or(elements.len()), T::default());
    lent
}

/// The memory with the lengths that a call gets.
fn lent_of(memory: &Memory, changes: &Changes) -> Memory {
    let mut lent = memory.clone();
    if let Some(length) = changes.lent(Buffer::Area) {
        lent.area = Guarded::new(&resized(&memory.area, Some(length)), 5);
    }
    if let Some(length) = changes.lent(Buffer::Index) {
        lent.index = Guarded::new(&resized(&memory.index, Some(length)), 1);
    }
    if let Some(length) = changes.lent(Buffer::Work) {
        lent.work = Guarded::new(&resized(&memory.work, Some(length)), 5);
    }
    lent
}

fn intact<T: Copy + PartialEq>(buffer: &str, lent: &Guarded<T>) -> Checked {
    if lent.is_intact() {
        return Ok(());
    }
    let field = format!("memory beside the {buffer}");
    Err(Difference::new(field, "left alone", "changed"))
}

fn same_fnv(buffer: &str, owed: u64, bytes: &[u8]) -> Checked {
    let found = fnv1a(bytes);
    same(
        &format!("FNV of the {buffer}"),
        format!("{owed:016x}"),
        format!("{found:016x}"),
    )
}

fn check_record<S: Subject>(owed: &Record, record: &S::Record) -> Checked {
    match S::says(record) {
        Some(found) => owed.check(&found),
        None => Err(Difference::new("record", "a record", format!("{record:?}"))),
    }
}

/// Every buffer is as it must be. The index stays, or, where a record is given, keeps the index rule for it.
fn check_memory(owed: &Memory, found: &Memory, settled: Option<&Record>) -> Checked {
    intact("area", &found.area)?;
    intact("index", &found.index)?;
    intact("work buffer", &found.work)?;
    same_buffer("area", &owed.area, &found.area)?;
    same_buffer("work buffer", &owed.work, &found.work)?;
    match settled {
        None => same_buffer("index", &owed.index, &found.index),
        Some(record) => check_index(record, found),
    }
}

fn check_index(record: &Record, memory: &Memory) -> Checked {
    let map = SlotMap(record.map);
    let (area, index) = (&memory.area, &memory.index);
    if rule_holds(record.slots, record.slot_bytes, map, area, index) {
        return Ok(());
    }
    Err(Difference::new("index", "cells by the rule", "others"))
}

/// A refused call, or one that only reads, leaves everything.
fn untouched<S: Subject>(before: (&S::Record, &Memory), after: (&S::Record, &Memory)) -> Checked {
    if before.0 != after.0 {
        let (expected, found) = (format!("{:?}", before.0), format!("{:?}", after.0));
        return Err(Difference::new("record handed back", expected, found));
    }
    check_memory(before.1, after.1, None)
}

fn said(progress: Progress) -> String {
    match progress {
        Progress::More(left) => left.to_string(),
        Progress::Done(version) => format!("0, and version {version}"),
    }
}

/// A step that is not the last: the record is as it was but for the stores left.
fn check_more<S: Subject>(
    before: &S::Record,
    after: &S::Record,
    left: u32,
    progress: Progress,
) -> Checked {
    if progress != Progress::More(left) {
        return Err(Difference::new("left", left, said(progress)));
    }
    let owed = S::forged(before, Field::Left, left.into()).map_err(not_forged)?;
    if owed != *after {
        let (owed, found) = (format!("{owed:?}"), format!("{after:?}"));
        return Err(Difference::new("record", owed, found));
    }
    Ok(())
}

fn check_done<S: Subject>(
    version: u64,
    owed: &Record,
    after: &S::Record,
    progress: Progress,
) -> Checked {
    match progress {
        Progress::More(left) => return Err(Difference::new("left", 0, left)),
        Progress::Done(found) => same("version", version, found)?,
    }
    check_record::<S>(owed, after)
}

fn done_record(told: &Told) -> Option<&Record> {
    match told {
        Told::More(_) => None,
        Told::Done(_, record) => Some(record),
    }
}

fn changed_places(before: &Memory, after: &Memory) -> Vec<usize> {
    let pairs = before.area.iter().zip(after.area.iter());
    let changed = pairs.enumerate().filter(|(_, (old, new))| old != new);
    changed.map(|(place, _)| place).collect()
}

fn listed(places: &[usize]) -> String {
    match places {
        [] => "no byte changed".into(),
        _ => format!("bytes changed at {:?}", &places[..places.len().min(8)]),
    }
}

/// The memory that the step's one store must leave; fails where another place was changed.
fn after_store(lent: &Memory, found: &Memory, owed: &Step) -> Result<Memory, Difference> {
    let changed = changed_places(lent, found);
    let elsewhere = changed.iter().any(|place| *place != owed.place);
    if elsewhere || owed.place >= lent.area.len() {
        return Err(Difference::new("place", owed.place, listed(&changed)));
    }
    same(
        "byte",
        format!("{:02x}", owed.byte),
        format!("{:02x}", found.area[owed.place]),
    )?;
    let mut after = lent.clone();
    after.area[owed.place] = owed.byte;
    Ok(after)
}

/// The store is told before the step makes it, or the step's refusal. An index is not lent to that call, so that a
/// refusal of its length is none.
fn check_next_store<S: Subject>(record: &S::Record, lent: &Memory, owed: &Owed<Step>) -> Checked {
    if let Some((owed, (place, byte))) = settled(owed, S::next_store(record, lent))? {
        same("place told before", owed.place, place)?;
        same("byte told before", owed.byte, byte)?;
    }
    Ok(())
}

/// The step that was made has stored what was told before.
fn check_told_store<S: Subject>(record: &S::Record, lent: &Memory, after: &Memory) -> Checked {
    let accepted: Owed<()> = Ok(());
    let Some((_, (place, byte))) = settled(&accepted, S::next_store(record, lent))? else {
        return Ok(());
    };
    let mut owed = lent.area.to_vec();
    match owed.get_mut(place) {
        Some(stored) => *stored = byte,
        None => return Err(Difference::new("place told before", "in the area", place)),
    }
    same_buffer("area after the store told", &owed, &after.area)
}

/// A store of the byte that stands there already changes nothing. So the same step is made once more on a copy that
/// has another byte at the place. That copy is as genuine a store: the place is no part of its log, since the last
/// store of an operation, the only one into the log, always changes its byte.
fn check_unseen_store<S: Subject>(before: &S::Record, lent: &Memory, owed: &Step) -> Checked {
    let mut memory = lent.clone();
    memory.area[owed.place] = !owed.byte;
    let mut record = before.clone();
    let accepted: Owed<()> = Ok(());
    settled(&accepted, S::step(&mut record, &mut memory))?;
    if memory.area[..] == lent.area[..] {
        return Ok(());
    }
    Err(Difference::new("place", owed.place, "no store there"))
}

/// A read and the part that it gives: the value, or the empty part at the start.
fn check_read<S: Subject>(
    record: &S::Record,
    memory: &Memory,
    asked: Asked,
    owed: &Owed<Found>,
) -> Checked {
    let answer = S::read(record, memory, asked);
    let part = S::read_value(record, memory, asked).map_err(not_forged)?;
    check_found(owed, answer, part)
}

/// What a read tells, and place and length of the part that it gives.
fn check_found(
    owed: &Owed<Found>,
    answer: Answer<(u64, u32)>,
    (place, length): (usize, usize),
) -> Checked {
    let (owed_place, owed_length) = match settled(owed, answer)? {
        None => (0, 0),
        Some((owed, (version, kind))) => {
            same("version", owed.version, version)?;
            same("kind", owed.kind, kind)?;
            (owed.place, owed.length)
        }
    };
    same("place", owed_place, place)?;
    same("length", owed_length, length)
}

/// The second buffer of a conversion: as long as the first, unless a `with` changes that.
fn target(source_bytes: usize, changes: &Changes) -> Guarded<u8> {
    let length = changes.lent(Buffer::Target).unwrap_or(source_bytes);
    Guarded::new(&vec![TARGET_BYTE; length], 5)
}

/// A conversion of an area that the line gives.
fn convert<S: Subject>(event: &Event, changes: &Changes) -> Checked {
    let Event::Convert {
        slots,
        slot_bytes,
        source,
        owed,
    } = event
    else {
        return Ok(());
    };
    let geometry = Geometry {
        slots: *slots,
        slot_bytes: *slot_bytes,
        edition: None,
    };
    let lent = Guarded::new(source, 5);
    match converted::<S, _>(geometry, &lent, target(source.len(), changes), owed)? {
        Some((owed, target)) => same_buffer("target", owed, &target),
        None => Ok(()),
    }
}

/// What is owed and the target, if the conversion is accepted as it must be. A refused one leaves the target.
fn converted<'a, S: Subject, T>(
    geometry: Geometry,
    lent: &Guarded<u8>,
    mut target: Guarded<u8>,
    owed: &'a Owed<T>,
) -> Result<Option<(&'a T, Guarded<u8>)>, Difference> {
    let (source, before) = (lent.clone(), target.clone());
    let settled = settled(owed, S::convert(geometry, &source, &mut target))?;
    intact("source", &source)?;
    intact("target", &target)?;
    same_buffer("source", lent, &source)?;
    if settled.is_none() {
        same_buffer("target", &before, &target)?;
    }
    Ok(settled.map(|(owed, ())| (owed, target)))
}

/// A position's eight bytes.
fn check_converted(owed: &Owed<Vec<u8>>, answer: Answer<[u8; 8]>) -> Checked {
    match settled(owed, answer)? {
        Some((owed, converted)) => same_buffer("value", owed, &converted),
        None => Ok(()),
    }
}

/// What a read of a key owes beside a list of the present keys.
fn owed_read(owed: &Owed<Vec<PresentKey>>, key: Key) -> Owed<Found> {
    let keys = owed.as_ref().map_err(|refusal| *refusal)?;
    let place = keys.binary_search_by_key(&key, |present| present.key);
    place.map(|place| keys[place].found).map_err(|_| 8)
}

fn of_key(key: Key, difference: Difference) -> Difference {
    let Key { table, key } = key;
    let field = format!("{} of {table} {key}", difference.field);
    Difference {
        field,
        ..difference
    }
}

/// The key whose bytes, as an entry stores them, are these six.
fn key_at(bytes: &[u8]) -> Key {
    let number = |part: &[u8]| {
        part.iter()
            .rev()
            .fold(0, |sum, &byte| sum << 8 | u32::from(byte))
    };
    Key {
        table: number(&bytes[..2]) as u16,
        key: number(&bytes[2..]),
    }
}
