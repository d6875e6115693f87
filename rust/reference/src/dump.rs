//! The program that prints what an area holds (01, "Values to hold it to").

use std::fmt::Write;

use crate::counters::Version;
use crate::layout::CELLS;
use crate::record::Record;
use crate::recovery::recover;
use crate::refusal::Refusal;
use crate::segment::Key;
use crate::tables::Tables;

/// The output for an input of N (1 byte), S (2 bytes) and the area.
pub fn dump(input: &[u8]) -> String {
    match describe(input) {
        Ok(lines) => lines,
        Err(refusal) => format!("refused {}\n", refusal.number()),
    }
}

fn describe(input: &[u8]) -> Result<String, Refusal> {
    let &[slots, low, high] = input.first_chunk().ok_or(Refusal::Geometry)?;
    let area = &input[3..];
    let slot_bytes = u32::from(u16::from_le_bytes([low, high]));
    let order: Vec<u8> = (0..slots).collect();
    let mut index = vec![0; *CELLS.end() as usize];
    let record = recover(u32::from(slots), slot_bytes, area, &mut index, &order)?;
    let present = present_keys(&record, area, &index);
    let mut lines = format!(
        "next {} digest {} keys {}\n",
        record.next.0,
        record.digest.0,
        present.len()
    );
    for (key, Version(version), kind) in present {
        let Key { table, key } = key;
        // Writing to a string does not fail.
        let _ = writeln!(lines, "{table} {key} {version} {kind}");
    }
    Ok(lines)
}

/// Key, version and kind of each present key, by table and key.
fn present_keys(record: &Record, area: &[u8], index: &[u32]) -> Vec<(Key, Version, u8)> {
    let mut present: Vec<(Key, Version, u8)> = index
        .iter()
        .filter(|&&mark| mark != 0)
        .filter_map(|&mark| area.get(mark as usize - 1..)?.first_chunk())
        .filter_map(|entry| {
            let key = Key::of_entry(entry);
            let found = crate::read::read(record, area, index, Tables::ALL, key).ok()?;
            Some((key, found.version, found.kind))
        })
        .collect();
    present.sort_unstable();
    present
}
