//! What no line of a file speaks of is checked as well: implementations that keep to every answer, and change or tell
//! what they must not, are caught.

use compare::vectors::bench::Bench;
use compare::vectors::event::{Changes, Event, Field, Geometry, Record};
use compare::vectors::reader;
use compare::vectors::second::Second;
use compare::vectors::subject::{Answer, Asked, Memory, No, Progress, Start, Subject};
use reference::Edition;

use crate::vectors::{level, text};

const NO_FAULT: u32 = 0;
const STEP_CHANGES_WORK: u32 = 1;
const STEP_CHANGES_INDEX: u32 = 2;
const STEP_STORES_TWICE: u32 = 3;
const LAST_STEP_LEAVES_INDEX: u32 = 4;
const ZERO_NOT_STORED: u32 = 5;
const START_STORES: u32 = 6;
const START_CHANGES_INDEX: u32 = 7;
const START_FILLS_MORE: u32 = 8;
const REFUSED_START_CHANGES_RECORD: u32 = 9;
const REFUSED_START_CHANGES_WORK: u32 = 10;
const REFUSED_RECOVERY_CLEARS_INDEX: u32 = 11;
const RECOVERY_WITH_20_LEAVES_INDEX: u32 = 12;
const RECOVERY_CHANGES_WORK: u32 = 13;
const REFUSED_FORMAT_STORES: u32 = 14;
const REFUSED_READ_GIVES_A_PART: u32 = 15;
const ABSENT_KEYS_FOUND: u32 = 16;
const NEXT_STORE_ONE_TOO_HIGH: u32 = 17;
const NEXT_STORE_OF_AN_IDLE_RECORD: u32 = 18;
const REFUSED_CONVERSION_STORES: u32 = 19;
const CONVERSION_LEAVES_A_BYTE: u32 = 20;
const REFUSED_SWITCH_CHANGES_RECORD: u32 = 21;
const SWITCH_CHANGES_MORE: u32 = 22;

/// The reference with one fault.
#[derive(Clone, Copy, Debug)]
struct Faulty<const FAULT: u32>;

/// Another byte at the last place of a buffer, if it has one.
fn spoil(buffer: &mut [u8]) {
    if let Some(last) = buffer.last_mut() {
        *last ^= 0x40;
    }
}

impl<const FAULT: u32> Subject for Faulty<FAULT> {
    type Record = reference::Record;

    const NAME: &'static str = "faulty";

    fn format(geometry: Geometry, area: &mut [u8]) -> Answer<()> {
        let answer = Second::format(geometry, area);
        if FAULT == REFUSED_FORMAT_STORES && answer.is_err() {
            spoil(area);
        }
        answer
    }

    fn recover(geometry: Geometry, order: &[u8], memory: &mut Memory) -> Answer<reference::Record> {
        let before = memory.index.clone();
        let answer = Second::recover(geometry, order, memory);
        match (FAULT, &answer) {
            (REFUSED_RECOVERY_CLEARS_INDEX, Err(_)) => memory.index.fill(0),
            (RECOVERY_WITH_20_LEAVES_INDEX, Err(No::Refused(20))) => memory.index = before,
            (RECOVERY_CHANGES_WORK, _) => spoil(&mut memory.work),
            _ => {}
        }
        answer
    }

    fn start(record: &mut reference::Record, memory: &mut Memory, start: Start) -> Answer<u32> {
        let answer = Second::start(record, memory, start);
        match (FAULT, &answer) {
            (START_STORES, Ok(_)) => spoil(&mut memory.area),
            (START_CHANGES_INDEX, Ok(_)) => memory.index[0] ^= 1,
            (START_FILLS_MORE, Ok(_)) => spoil(&mut memory.work),
            (REFUSED_START_CHANGES_RECORD, Err(_)) => record.keys ^= 1,
            (REFUSED_START_CHANGES_WORK, Err(_)) => spoil(&mut memory.work),
            _ => {}
        }
        answer
    }

    fn step(record: &mut reference::Record, memory: &mut Memory) -> Answer<Progress> {
        let before = memory.clone();
        let answer = Second::step(record, memory);
        let zero_over_ff = (before.area.iter().zip(memory.area.iter_mut()))
            .find(|(old, new)| (**old, **new) == (0xff, 0));
        match (FAULT, &answer) {
            (STEP_CHANGES_WORK, Ok(_)) => spoil(&mut memory.work),
            (STEP_CHANGES_INDEX, Ok(Progress::More(_))) => memory.index[0] ^= 1,
            (STEP_STORES_TWICE, Ok(_)) => spoil(&mut memory.area),
            (LAST_STEP_LEAVES_INDEX, Ok(Progress::Done(_))) => memory.index = before.index,
            (ZERO_NOT_STORED, Ok(_)) => {
                if let Some((_, new)) = zero_over_ff {
                    *new = 0xff;
                }
            }
            _ => {}
        }
        answer
    }

    fn next_store(record: &reference::Record, memory: &Memory) -> Answer<(usize, u8)> {
        match (FAULT, Second::next_store(record, memory)) {
            (NEXT_STORE_ONE_TOO_HIGH, Ok((place, byte))) => Ok((place + 1, byte)),
            (NEXT_STORE_OF_AN_IDLE_RECORD, Err(No::Refused(6))) => Ok((0, 0)),
            (_, told) => told,
        }
    }

    fn read(record: &reference::Record, memory: &Memory, asked: Asked) -> Answer<(u64, u32)> {
        match Second::read(record, memory, asked) {
            Err(No::Refused(8)) if FAULT == ABSENT_KEYS_FOUND && asked.key.key % 64 == 1 => {
                Ok((1, 1))
            }
            answer => answer,
        }
    }

    fn read_value(
        record: &reference::Record,
        memory: &Memory,
        asked: Asked,
    ) -> Answer<(usize, usize)> {
        match Second::read_value(record, memory, asked) {
            Ok((0, 0)) if FAULT == REFUSED_READ_GIVES_A_PART => Ok((5, 0)),
            answer => answer,
        }
    }

    fn fewest(record: &reference::Record) -> Answer<u32> {
        Second::fewest(record)
    }

    fn switch(record: &mut reference::Record) -> Answer<()> {
        let answer = Second::switch(record);
        match (FAULT, &answer) {
            (REFUSED_SWITCH_CHANGES_RECORD, Err(_)) => record.keys ^= 1,
            (SWITCH_CHANGES_MORE, Ok(())) => record.edition = Edition::SECOND,
            _ => {}
        }
        answer
    }

    fn join(record: &reference::Record, memory: &Memory) -> Answer<(u32, u32)> {
        Second::join(record, memory)
    }

    fn scan_read(geometry: Geometry, area: &[u8], asked: Asked) -> Answer<(u64, u32)> {
        Second::scan_read(geometry, area, asked)
    }

    fn scan_read_value(geometry: Geometry, area: &[u8], asked: Asked) -> Answer<(usize, usize)> {
        Second::scan_read_value(geometry, area, asked)
    }

    fn from_float(value: &[u8]) -> Answer<[u8; 8]> {
        Second::from_float(value)
    }

    fn to_float(value: &[u8]) -> Answer<[u8; 8]> {
        Second::to_float(value)
    }

    fn convert(geometry: Geometry, source: &[u8], target: &mut [u8]) -> Answer<()> {
        let last = target.last().copied();
        let answer = Second::convert(geometry, source, target);
        match (FAULT, &answer) {
            (REFUSED_CONVERSION_STORES, Err(_)) => spoil(target),
            (CONVERSION_LEAVES_A_BYTE, Ok(())) => {
                if let (Some(byte), Some(last)) = (target.last_mut(), last) {
                    *byte = last;
                }
            }
            _ => {}
        }
        answer
    }

    fn says(record: &reference::Record) -> Option<Record> {
        Second::says(record)
    }

    fn forged(record: &reference::Record, field: Field, value: u64) -> Answer<reference::Record> {
        Second::forged(record, field, value)
    }
}

/// The first field of the newest file that an implementation gets wrong; empty if there is none.
fn first_fault<const FAULT: u32>() -> String {
    let geometry = Geometry {
        slots: 0,
        slot_bytes: 0,
        edition: None,
    };
    let mut bench: Bench<Faulty<FAULT>> = Bench::new(level(), geometry);
    let mut changes = Changes::default();
    for line in text().lines() {
        match reader::event(level(), line).unwrap() {
            None => {}
            Some(Event::With(with)) => changes.add(with).unwrap(),
            Some(event) => {
                if let Err(difference) = bench.replay(&event, &std::mem::take(&mut changes)) {
                    println!("{FAULT}: {line:.60}: {difference:.100}");
                    return difference.field;
                }
            }
        }
    }
    String::new()
}

fn caught<const FAULT: u32>(field: &str) {
    caught_as::<FAULT>(&[field]);
}

/// A fault that shows in one of these fields, whichever event of the file comes first.
fn caught_as<const FAULT: u32>(fields: &[&str]) {
    let found = first_fault::<FAULT>();
    let named = fields.iter().any(|field| found.starts_with(field));
    assert!(named, "fault {FAULT}: {fields:?}, {found}");
}

#[test]
fn faulty_implementations() {
    assert_eq!(first_fault::<NO_FAULT>(), "");
    caught::<STEP_CHANGES_WORK>("work buffer at");
    caught::<STEP_CHANGES_INDEX>("index at");
    caught_as::<STEP_STORES_TWICE>(&["place", "area"]);
    caught::<LAST_STEP_LEAVES_INDEX>("index");
    caught_as::<ZERO_NOT_STORED>(&["place", "area", "FNV of the area"]);
    caught::<START_STORES>("area at");
    caught::<START_CHANGES_INDEX>("index at");
    caught::<START_FILLS_MORE>("work buffer at");
    caught::<REFUSED_START_CHANGES_RECORD>("record handed back");
    caught::<REFUSED_START_CHANGES_WORK>("work buffer at");
    caught::<REFUSED_RECOVERY_CLEARS_INDEX>("index at");
    caught::<RECOVERY_WITH_20_LEAVES_INDEX>("index at");
    caught::<RECOVERY_CHANGES_WORK>("work buffer at");
    caught::<REFUSED_FORMAT_STORES>("area at");
    caught::<REFUSED_READ_GIVES_A_PART>("place");
    caught::<ABSENT_KEYS_FOUND>("answer");
    caught_as::<NEXT_STORE_ONE_TOO_HIGH>(&["place told before", "area after the store told"]);
    caught::<NEXT_STORE_OF_AN_IDLE_RECORD>("answer");
    caught::<REFUSED_CONVERSION_STORES>("target at");
    caught::<REFUSED_SWITCH_CHANGES_RECORD>("record");
    caught::<SWITCH_CHANGES_MORE>("record, edition");
    caught_as::<CONVERSION_LEAVES_A_BYTE>(&["target at", "FNV of the target"]);
}
