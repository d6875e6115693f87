//! The static library, through its wrapper, as a replay drives it.

use kurdavel::{DigestNumber, Edition, Fields, Key, Pending, Refusal, SlotMap, Tables, Version};

use crate::translate;

use super::event::{Field, Geometry, Record};
use super::subject::{
    part_of, present_of, range_of, Answer, Asked, Memory, No, Progress, Start, Subject,
};

/// The static library.
#[derive(Clone, Copy, Debug)]
pub struct Library;

fn refused(refusal: Refusal) -> No {
    No::Refused(refusal.number())
}

/// Tables and key, as the implementation takes them.
fn of(asked: Asked) -> (Tables, Key) {
    let range = range_of(asked);
    let tables = Tables {
        first: range.first,
        last: range.last,
    };
    let key = Key {
        table: asked.key.table,
        key: asked.key.key,
    };
    (tables, key)
}

impl Subject for Library {
    type Record = kurdavel::Record;

    const NAME: &'static str = "library";

    fn format(geometry: Geometry, area: &mut [u8]) -> Answer<()> {
        let edition = geometry.edition.unwrap_or(Edition::First.number());
        translate::format(geometry.slots, geometry.slot_bytes, edition, area).map_err(No::Refused)
    }

    fn recover(geometry: Geometry, order: &[u8], memory: &mut Memory) -> Answer<kurdavel::Record> {
        let Memory { area, index, .. } = memory;
        kurdavel::recover(geometry.slots, geometry.slot_bytes, order, area, index).map_err(refused)
    }

    fn start(record: &mut kurdavel::Record, memory: &mut Memory, start: Start) -> Answer<u32> {
        let Memory { area, index, work } = memory;
        let stores = match start {
            Start::Write(writing) => {
                let ((tables, key), value) = (of(writing.asked), writing.value);
                match writing.expected.map(Version) {
                    None => record.write(area, index, work, tables, key, value),
                    Some(expected) => {
                        record.write_expecting(area, index, work, tables, key, expected, value)
                    }
                }
            }
            Start::Delete(asked) => {
                let (tables, key) = of(asked);
                record.delete(area, index, work, tables, key)
            }
            Start::Clean(victims) => record.clean(area, index, work, SlotMap(victims)),
        };
        stores.map_err(refused)
    }

    fn step(record: &mut kurdavel::Record, memory: &mut Memory) -> Answer<Progress> {
        let Memory { area, index, work } = memory;
        match record.step(area, index, work).map_err(refused)? {
            kurdavel::Progress::More { left } => Ok(Progress::More(left)),
            kurdavel::Progress::Done { version } => Ok(Progress::Done(version.0)),
        }
    }

    fn next_store(record: &kurdavel::Record, memory: &Memory) -> Answer<(usize, u8)> {
        let store = record
            .next_store(&memory.area, &memory.work)
            .map_err(refused)?;
        Ok((store.place, store.byte))
    }

    fn read(record: &kurdavel::Record, memory: &Memory, asked: Asked) -> Answer<(u64, u32)> {
        let (tables, key) = of(asked);
        let found = record.read(&memory.area, &memory.index, tables, key);
        let found = found.map_err(refused)?;
        Ok((found.version.0, found.kind.into()))
    }

    fn read_value(
        record: &kurdavel::Record,
        memory: &Memory,
        asked: Asked,
    ) -> Answer<(usize, usize)> {
        let (tables, key) = of(asked);
        let value = record.read_value(&memory.area, &memory.index, tables, key);
        Ok(part_of(&memory.area, value))
    }

    fn fewest(record: &kurdavel::Record) -> Answer<u32> {
        record.fewest().map_err(refused)
    }

    fn switch(record: &mut kurdavel::Record) -> Answer<()> {
        record.switch().map_err(refused)
    }

    fn join(record: &kurdavel::Record, memory: &Memory) -> Answer<(u32, u32)> {
        record.join(&memory.area, &memory.index).map_err(refused)
    }

    fn scan_read(geometry: Geometry, area: &[u8], asked: Asked) -> Answer<(u64, u32)> {
        let (tables, key) = of(asked);
        let (slots, slot_bytes) = (geometry.slots, geometry.slot_bytes);
        let found = kurdavel::scan_read(slots, slot_bytes, area, tables, key);
        let found = found.map_err(refused)?;
        Ok((found.version.0, found.kind.into()))
    }

    fn scan_read_value(geometry: Geometry, area: &[u8], asked: Asked) -> Answer<(usize, usize)> {
        let (tables, key) = of(asked);
        let (slots, slot_bytes) = (geometry.slots, geometry.slot_bytes);
        let value = kurdavel::scan_read_value(slots, slot_bytes, area, tables, key);
        Ok(part_of(area, value))
    }

    fn from_float(value: &[u8]) -> Answer<[u8; 8]> {
        kurdavel::from_float(value).map_err(refused)
    }

    fn to_float(value: &[u8]) -> Answer<[u8; 8]> {
        kurdavel::to_float(value).map_err(refused)
    }

    fn convert(geometry: Geometry, source: &[u8], target: &mut [u8]) -> Answer<()> {
        let (slots, slot_bytes) = (geometry.slots, geometry.slot_bytes);
        kurdavel::convert(slots, slot_bytes, source, target).map_err(refused)
    }

    fn says(record: &kurdavel::Record) -> Option<Record> {
        let fields = record.fields()?;
        Some(Record {
            slots: fields.slots,
            slot_bytes: fields.slot_bytes,
            cells: fields.cells,
            head: fields.head,
            end: fields.end,
            number: fields.digest.0,
            map: fields.map.0,
            next: fields.next.0,
            keys: fields.keys,
            left: (fields.pending != Pending::Idle).then_some(fields.pending.left()),
            present_bytes: Some(present_of(fields.slots, &fields.present_bytes)),
            edition: Some(fields.edition.number()),
            switched: Some((fields.switched || fields.edition == Edition::Second).into()),
        })
    }

    /// The edition goes by the words: the wrapper's fields have no number but those of editions.
    fn forged(record: &kurdavel::Record, field: Field, value: u64) -> Answer<kurdavel::Record> {
        let mut edition = record.words()[translate::EDITION];
        let plain = translate::with_edition(record, Edition::First.number());
        let mut fields = plain
            .fields()
            .ok_or(No::Missing("a record that says nothing"))?;
        change(&mut fields, &mut edition, field, value)?;
        let changed = kurdavel::Record::of(fields);
        Ok(translate::with_edition(&changed, edition))
    }
}

fn change(fields: &mut Fields, edition: &mut u32, field: Field, value: u64) -> Answer<()> {
    let number = value as u32;
    match field {
        Field::Slots => fields.slots = number,
        Field::SlotBytes => fields.slot_bytes = number,
        Field::Cells => fields.cells = number,
        Field::Head => fields.head = number,
        Field::End => fields.end = number,
        Field::Number => fields.digest = DigestNumber(number),
        Field::Map => fields.map = SlotMap(number),
        Field::Next => fields.next = Version(value),
        Field::Keys => fields.keys = number,
        Field::Left => fields.pending = with_left(fields.pending, number),
        Field::Edition => *edition = number,
        Field::PresentBytes(slot) => match fields.present_bytes.get_mut(slot as usize) {
            Some(bytes) => *bytes = number,
            None => return Err(No::Missing("a slot above 31")),
        },
    }
    Ok(())
}

fn with_left(pending: Pending, stores: u32) -> Pending {
    let mut pending = pending;
    match &mut pending {
        Pending::Idle => {
            return Pending::Append {
                length: 19,
                left: stores,
            }
        }
        Pending::Append { left, .. }
        | Pending::NewHead { left, .. }
        | Pending::Clean { left, .. }
        | Pending::Forget { left, .. } => *left = stores,
    }
    pending
}
