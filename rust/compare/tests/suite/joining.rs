//! Stores that are written for long while their live bytes stay the same, with joins alone to make room (02, R-7).

use compare::pair::Pair;
use compare::Fault;
use reference::edition::{Layout, FIRST, SECOND};
use reference::rng::Rng;
use reference::testing::load::{Load, Spread};

/// Slots and their bytes.
const SLOTS: u32 = 32;
const SLOT_BYTES: u32 = 1024;

/// So many entries' bytes the log can hold, one slot being kept free.
fn room(layout: &Layout) -> usize {
    (SLOTS as usize - 1) * (SLOT_BYTES as usize - layout.digest_bytes())
}

/// Writes under a load; two slots are joined whenever a write meets 12, and nothing else is ever cleaned. Cut and recovered
/// now and then. Tells how many joins there were.
fn write_for_long(
    layout: &'static Layout,
    percent: usize,
    spread: Spread,
    writes: u32,
) -> Result<u32, Fault> {
    let area = vec![0xEE; (SLOTS * SLOT_BYTES) as usize];
    let mut pair = Pair::fresh(layout.edition, SLOTS, SLOT_BYTES, 2048, &area)?;
    let live = room(layout) * percent / 100;
    let mut load = Load::new(layout, live, &[8, 24, 8, 56], spread, 3);
    let mut rng = Rng::new(4);
    let mut joins = 0;
    let keys = load.keys();
    for number in 0..keys + writes as usize {
        let write = match number < keys {
            true => load.write(number),
            false => load.next_write(),
        };
        if pair.begin(&write)? == Err(12) {
            if let Err(refusal) = pair.join_and_clean()? {
                return Err(format!("no pair: {refusal} after {joins} joins"));
            }
            joins += 1;
            if let Err(refusal) = pair.begin(&write)? {
                return Err(format!("write after a join refused: {refusal}"));
            }
        }
        pair.finish()?;
        if rng.one_in(50) {
            pair.cut();
            pair.must_recover(&rng.order(SLOTS))?;
        }
    }
    let present: u32 = pair.record().present_bytes.iter().sum();
    if present as usize != load.live_bytes() {
        return Err(format!("{present} bytes are live"));
    }
    Ok(joins)
}

/// Joins of a store of each edition.
fn joins(percent: usize, spread: Spread, writes: u32) -> [u32; 2] {
    [&FIRST, &SECOND].map(|layout| {
        let joins = write_for_long(layout, percent, spread, writes);
        joins.unwrap_or_else(|fault| panic!("{fault}"))
    })
}

/// Nine tenths of all bytes are live, and 31 of 32 slots are in use: the writes go to a tenth of the keys.
#[test]
fn ninety_percent() {
    let joins = joins(90, Spread::Hot, 4000);
    println!("{joins:?} joins");
    assert!(joins.into_iter().all(|joins| joins > 40), "{joins:?}");
}

/// Half of all bytes are live, and the writes go to any key.
#[test]
fn fifty_percent() {
    let joins = joins(50, Spread::Uniform, 4000);
    println!("{joins:?} joins");
    assert!(joins.into_iter().all(|joins| joins > 40), "{joins:?}");
}

/// Where the writes go to any key of a store nine tenths full, every slot stays nearly as full, and joins alone do not go
/// on for ever: both tell so with 23.
#[test]
fn where_joins_alone_end() {
    for layout in [&FIRST, &SECOND] {
        let fault = write_for_long(layout, 90, Spread::Uniform, 4000).unwrap_err();
        assert!(fault.starts_with("no pair: 23 "), "{fault}");
    }
}
