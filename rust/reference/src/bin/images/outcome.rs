//! What is written of an item: its name with the refusal and what that left of the
//! index, or with the record and a line for each key read.

use std::fmt::Write;

use reference::{read, read_value, recover, Key, Record, Refusal, Tables};

use crate::bundle::Item;

/// What every cell holds before a recovery.
const OLD: u32 = 14;

/// The lines of an item.
pub fn lines(item: &Item) -> String {
    let mut index = vec![OLD; item.cells.into()];
    let (slots, slot_bytes) = (item.slots.into(), item.slot_bytes.into());
    let answer = recover(slots, slot_bytes, &item.area, &mut index, &item.order);
    let told = match answer {
        Err(refusal) => refused(refusal, &index),
        Ok(record) => recovered(&record, item, &index),
    };
    format!("{}: {told}", item.name)
}

fn refused(refusal: Refusal, index: &[u32]) -> String {
    let left = if index.iter().all(|&cell| cell == OLD) {
        "kept"
    } else if index.iter().all(|&cell| cell == 0) {
        "zeros"
    } else {
        "changed"
    };
    format!("refused {} {left}\n", refusal.number())
}

fn recovered(record: &Record, item: &Item, index: &[u32]) -> String {
    let Record {
        head, end, keys, ..
    } = record;
    let (next, digest, map) = (record.next.0, record.digest.0, record.map.0);
    let mut told =
        format!("next {next} digest {digest} head {head} end {end} map {map} keys {keys}\n");
    for &key in &item.keys {
        told += &read_line(record, &item.area, index, key);
    }
    told
}

fn read_line(record: &Record, area: &[u8], index: &[u32], key: Key) -> String {
    let mut line = format!("  {} {}", key.table, key.key);
    // Writing to a string does not fail.
    let _ = match read(record, area, index, Tables::ALL, key) {
        Ok(found) => write!(line, " version {} kind {}", found.version.0, found.kind),
        Err(refusal) => write!(line, " refused {}", refusal.number()),
    };
    line += " value";
    for byte in read_value(record, area, index, Tables::ALL, key) {
        let _ = write!(line, " {byte:02x}");
    }
    line + "\n"
}
