//! The second implementation, as a replay drives it.

use reference::{DigestNumber, Edition, Key, Pending, Refusal, SlotMap, Tables, Version};

use super::event::{Field, Geometry, Record};
use super::subject::{
    part_of, present_of, range_of, Answer, Asked, Memory, No, Progress, Start, Subject,
};

/// The reference.
#[derive(Clone, Copy, Debug)]
pub struct Second;

fn refused(refusal: Refusal) -> No {
    No::Refused(refusal.number())
}

/// Tables and key, as the implementation takes them.
fn of(asked: Asked) -> (Tables, Key) {
    let range = range_of(asked);
    let tables = Tables {
        first: range.first,
        last: range.last,
    };
    let key = Key {
        table: asked.key.table,
        key: asked.key.key,
    };
    (tables, key)
}

impl Subject for Second {
    type Record = reference::Record;

    const NAME: &'static str = "reference";

    fn format(geometry: Geometry, area: &mut [u8]) -> Answer<()> {
        let edition = geometry.edition.map_or(Edition::FIRST, Edition);
        let Geometry {
            slots, slot_bytes, ..
        } = geometry;
        reference::format(slots, slot_bytes, edition, area).map_err(refused)
    }

    fn recover(geometry: Geometry, order: &[u8], memory: &mut Memory) -> Answer<reference::Record> {
        let Memory { area, index, .. } = memory;
        reference::recover(geometry.slots, geometry.slot_bytes, area, index, order).map_err(refused)
    }

    fn start(record: &mut reference::Record, memory: &mut Memory, start: Start) -> Answer<u32> {
        let Memory { area, index, work } = memory;
        let (after, stores) = match start {
            Start::Write(writing) => {
                let ((tables, key), value) = (of(writing.asked), writing.value);
                match writing.expected.map(Version) {
                    None => reference::write(*record, area, index, work, tables, key, value),
                    Some(expected) => reference::write_expecting(
                        *record, area, index, work, tables, key, expected, value,
                    ),
                }
            }
            Start::Delete(asked) => {
                let (tables, key) = of(asked);
                reference::delete(*record, area, index, work, tables, key)
            }
            Start::Clean(victims) => reference::clean(*record, area, index, work, SlotMap(victims)),
        };
        *record = after;
        stores.map_err(refused)
    }

    fn step(record: &mut reference::Record, memory: &mut Memory) -> Answer<Progress> {
        let Memory { area, index, work } = memory;
        let (after, progress) = reference::step(*record, area, index, work);
        *record = after;
        match progress.map_err(refused)? {
            reference::Progress::More { left } => Ok(Progress::More(left)),
            reference::Progress::Done { version } => Ok(Progress::Done(version.0)),
        }
    }

    fn next_store(record: &reference::Record, memory: &Memory) -> Answer<(usize, u8)> {
        let store = reference::next_store(record, &memory.area, &memory.work).map_err(refused)?;
        Ok((store.place, store.byte))
    }

    fn read(record: &reference::Record, memory: &Memory, asked: Asked) -> Answer<(u64, u32)> {
        let (tables, key) = of(asked);
        let found = reference::read(record, &memory.area, &memory.index, tables, key);
        let found = found.map_err(refused)?;
        Ok((found.version.0, found.kind.into()))
    }

    fn read_value(
        record: &reference::Record,
        memory: &Memory,
        asked: Asked,
    ) -> Answer<(usize, usize)> {
        let (tables, key) = of(asked);
        let value = reference::read_value(record, &memory.area, &memory.index, tables, key);
        Ok(part_of(&memory.area, value))
    }

    fn fewest(record: &reference::Record) -> Answer<u32> {
        reference::fewest(record).map_err(refused)
    }

    fn switch(record: &mut reference::Record) -> Answer<()> {
        let (after, answer) = reference::switch(*record);
        *record = after;
        answer.map_err(refused)
    }

    fn join(record: &reference::Record, memory: &Memory) -> Answer<(u32, u32)> {
        reference::join(record, &memory.area, &memory.index).map_err(refused)
    }

    fn scan_read(geometry: Geometry, area: &[u8], asked: Asked) -> Answer<(u64, u32)> {
        let (
            (tables, key),
            Geometry {
                slots, slot_bytes, ..
            },
        ) = (of(asked), geometry);
        let found = reference::scan_read(slots, slot_bytes, area, tables, key);
        let found = found.map_err(refused)?;
        Ok((found.version.0, found.kind.into()))
    }

    fn scan_read_value(geometry: Geometry, area: &[u8], asked: Asked) -> Answer<(usize, usize)> {
        let (
            (tables, key),
            Geometry {
                slots, slot_bytes, ..
            },
        ) = (of(asked), geometry);
        let value = reference::scan_read_value(slots, slot_bytes, area, tables, key);
        Ok(part_of(area, value))
    }

    fn from_float(value: &[u8]) -> Answer<[u8; 8]> {
        reference::from_float(value).map_err(refused)
    }

    fn to_float(value: &[u8]) -> Answer<[u8; 8]> {
        reference::to_float(value).map_err(refused)
    }

    fn convert(geometry: Geometry, source: &[u8], target: &mut [u8]) -> Answer<()> {
        let (slots, slot_bytes) = (geometry.slots, geometry.slot_bytes);
        reference::convert(slots, slot_bytes, source, target).map_err(refused)
    }

    fn says(record: &reference::Record) -> Option<Record> {
        Some(Record {
            slots: record.slots,
            slot_bytes: record.slot_bytes,
            cells: record.cells,
            head: record.head,
            end: record.end,
            number: record.digest.0,
            map: record.map.0,
            next: record.next.0,
            keys: record.keys,
            left: (record.pending != Pending::None).then_some(record.pending.left()),
            present_bytes: Some(present_of(record.slots, &record.present_bytes)),
            edition: Some(record.edition.0),
            switched: Some((record.switched || record.edition == Edition::SECOND).into()),
        })
    }

    fn forged(record: &reference::Record, field: Field, value: u64) -> Answer<reference::Record> {
        let mut record = *record;
        let number = value as u32;
        match field {
            Field::Slots => record.slots = number,
            Field::SlotBytes => record.slot_bytes = number,
            Field::Cells => record.cells = number,
            Field::Head => record.head = number,
            Field::End => record.end = number,
            Field::Number => record.digest = DigestNumber(number),
            Field::Map => record.map = SlotMap(number),
            Field::Next => record.next = Version(value),
            Field::Keys => record.keys = number,
            Field::Left => record.pending = with_left(record.pending, number),
            Field::Edition => record.edition = Edition(number),
            Field::PresentBytes(slot) => match record.present_bytes.get_mut(slot as usize) {
                Some(bytes) => *bytes = number,
                None => return Err(No::Missing("a slot above 31")),
            },
        }
        Ok(record)
    }
}

fn with_left(pending: Pending, stores: u32) -> Pending {
    let mut pending = pending;
    match &mut pending {
        Pending::None => {
            return Pending::Append {
                length: 19,
                left: stores,
            }
        }
        Pending::Append { left, .. }
        | Pending::NewHead { left, .. }
        | Pending::Clean { left, .. }
        | Pending::Forget { left, .. } => *left = stores,
    }
    pending
}
