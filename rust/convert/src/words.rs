//! What the program tells, in words.

use kurdavel::recover;
use reference::layout::{CELLS, SLOTS, SLOT_BYTES};
use reference::Refusal;

use crate::args::Args;

/// What an accepted conversion has written.
pub fn accepted(args: &Args, target: &[u8]) -> String {
    let order: Vec<u8> = (0..args.slots as u8).collect();
    let mut index = vec![0; *CELLS.end() as usize];
    let record = recover(args.slots, args.slot_bytes, &order, target, &mut index);
    let Some(fields) = record.ok().and_then(|record| record.fields()) else {
        // Of all that recovery looks at, a conversion leaves out the number of keys alone.
        return "converted; the log has more keys than the largest index takes".into();
    };
    let edition = fields.edition.number();
    format!(
        "edition {} to {edition}: {}, entries of {}",
        3 - edition,
        count(fields.map.0.count_ones(), "log slot"),
        count(fields.keys, "key")
    )
}

fn count(number: u32, noun: &str) -> String {
    match number {
        1 => format!("1 {noun}"),
        _ => format!("{number} {noun}s"),
    }
}

/// Why an image of so many bytes was not converted: the number, and what it means.
pub fn refused(args: &Args, refusal: kurdavel::Refusal, bytes: usize) -> String {
    let number = refusal.number();
    let meaning = match refusal {
        // Recovery takes such a log under a head of the second edition; a conversion never does.
        kurdavel::Refusal::BothEditions => "Slots of the log are of both editions.",
        _ => Refusal::from_number(number).map_or("", Refusal::meaning),
    };
    let image = args.source.display();
    let told = format!("{image}: refused {number}: {meaning}");
    match refusal {
        kurdavel::Refusal::Geometry => format!("{told} {}", geometry(args, bytes)),
        _ => told,
    }
}

fn geometry(args: &Args, bytes: usize) -> String {
    let (slots, slot_bytes) = (args.slots, args.slot_bytes);
    format!(
        "There are {} to {} slots of {} to {} bytes; {slots} slots of {slot_bytes} bytes are {} bytes, and the image has {bytes}.",
        SLOTS.start(),
        SLOTS.end(),
        SLOT_BYTES.start(),
        SLOT_BYTES.end(),
        u64::from(slots) * u64::from(slot_bytes)
    )
}
