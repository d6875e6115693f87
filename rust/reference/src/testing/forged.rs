//! Records and indexes that no recovery gave.

use crate::edition::{Layout, FIRST, VALUES};
use crate::rng::Rng;
use crate::{DigestNumber, Edition, Pending, Record, SlotMap, Version};

fn number(rng: &mut Rng, likely: u32) -> u32 {
    match rng.below(6) {
        0 => rng.bits() as u32,
        1 => u32::MAX - rng.below(3),
        2 => rng.below(3),
        _ => rng.below(likely.max(1)),
    }
}

/// A next version, sometimes above all that there may be.
fn version(rng: &mut Rng) -> Version {
    let low = number(rng, u32::MAX).into();
    match rng.below(4) {
        0 => Version(low | rng.bits() << 32),
        _ => Version(low),
    }
}

/// A pending operation, often one that a start could have given somewhere.
fn pending(rng: &mut Rng, slots: u32, layout: &Layout) -> Pending {
    let slot = number(rng, slots);
    let [tombstone, digest] = [layout.tombstone_bytes(), layout.digest_bytes()];
    let object = tombstone + *rng.pick(&VALUES);
    let length = match rng.below(3) {
        0 => number(rng, 2048),
        1 => *rng.pick(&[tombstone, object]) as u32,
        _ => (digest + *rng.pick(&[0, tombstone, object])) as u32,
    };
    let left = match rng.below(4) {
        0 => 1,
        1 => number(rng, 2049),
        2 => length.saturating_add(rng.below(3)),
        _ => 1 + rng.below(length.clamp(1, 2048)),
    };
    let victims = match rng.below(2) {
        0 => SlotMap(rng.bits() as u32),
        _ => SlotMap(1 << rng.below(slots)),
    };
    match rng.below(5) {
        0 => Pending::None,
        1 => Pending::Append { length, left },
        2 => Pending::NewHead { slot, length, left },
        3 => Pending::Clean {
            slot,
            length,
            victims,
            left,
        },
        _ => Pending::Forget {
            slot,
            length,
            victims,
            left,
        },
    }
}

/// The layout of a genuine record.
fn layout_of(genuine: Record) -> &'static Layout {
    genuine.edition.layout().unwrap_or(&FIRST)
}

/// A record like the given one, some fields of which are anything, the edition among them.
pub fn record(rng: &mut Rng, genuine: Record) -> Record {
    let mut record = genuine;
    for _ in 0..rng.below(4) {
        match rng.below(12) {
            0 => record.head = number(rng, record.slots),
            1 => record.end = number(rng, record.slot_bytes),
            2 => record.digest = DigestNumber(number(rng, u32::MAX)),
            3 => record.map = SlotMap(rng.bits() as u32 | 1 << (record.head % 32)),
            4 => record.next = version(rng),
            5 => record.keys = number(rng, record.cells),
            6 => record.slots = number(rng, 33),
            7 => record.slot_bytes = number(rng, 2049),
            8 => record.present_bytes[rng.below(32) as usize] = number(rng, record.slot_bytes),
            9 => record.edition = edition(rng),
            10 => record.switched = !record.switched,
            _ => record.cells = number(rng, 4097),
        }
    }
    record.pending = pending(rng, genuine.slots, layout_of(genuine));
    record
}

/// An edition, seldom one that there is not.
fn edition(rng: &mut Rng) -> Edition {
    match rng.below(4) {
        0 => no_edition(rng),
        _ => *rng.pick(&Edition::ALL),
    }
}

/// The number of no edition.
fn no_edition(rng: &mut Rng) -> Edition {
    Edition(*rng.pick(&[0, 3, 258, u32::MAX]))
}

/// Next versions that no record of the edition has.
fn no_next(genuine: Record) -> &'static [Version] {
    match genuine.edition {
        Edition::SECOND => &[Version(0)],
        _ => &[Version(0), Version(1 << 32), Version(u64::MAX)],
    }
}

/// A record that differs from a genuine one in one number, which is out of range.
pub fn out_of_range(rng: &mut Rng, genuine: Record) -> Record {
    let mut record = genuine;
    let over = genuine.slot_bytes + 2;
    let digest = layout_of(genuine).digest_bytes() as u32;
    match rng.below(16) {
        0 => record.slots = *rng.pick(&[0, 3, 33, u32::MAX]),
        1 => record.slot_bytes = *rng.pick(&[0, 255, 2049, u32::MAX]),
        2 => record.cells = *rng.pick(&[0, 15, 4097, u32::MAX]),
        3 => record.map = SlotMap(genuine.map.0 & !(1 << genuine.head)),
        4 => record.map = SlotMap(u32::MAX >> (32 - genuine.slots)),
        5 => record.head = *rng.pick(&[genuine.slots, 32, 64, u32::MAX]),
        6 => record.end = *rng.pick(&[0, digest - 1, genuine.slot_bytes + 1, u32::MAX]),
        7 => record.digest = DigestNumber(0),
        8 => record.next = *rng.pick(no_next(genuine)),
        9 => record.keys = *rng.pick(&[genuine.cells, u32::MAX]),
        14 => {
            let most = genuine.slot_bytes - FIRST.digest_bytes() as u32;
            let above = *rng.pick(&[most + 1, u32::MAX]);
            record.present_bytes[rng.below(32) as usize] = above;
        }
        15 => record.edition = no_edition(rng),
        kind => record.pending = spent_or_over(rng, kind, over),
    }
    record
}

/// A pending operation with no store left, or with more than there may be.
fn spent_or_over(rng: &mut Rng, kind: u32, over: u32) -> Pending {
    match kind {
        10 => Pending::Append {
            length: 19,
            left: 0,
        },
        11 => Pending::NewHead {
            slot: 1,
            length: 32,
            left: over,
        },
        12 => Pending::Clean {
            slot: 1,
            length: 13,
            victims: SlotMap(1),
            left: *rng.pick(&[0, over, u32::MAX]),
        },
        _ => Pending::Forget {
            slot: 1,
            length: 13,
            victims: SlotMap(1),
            left: *rng.pick(&[0, over, u32::MAX]),
        },
    }
}

/// Puts numbers into cells of an index: into none, one into all, or another into each or some.
pub fn spoil_index(rng: &mut Rng, index: &mut [u32], area_bytes: u32) {
    match rng.below(4) {
        0 => {}
        1 => index.fill(number(rng, area_bytes)),
        2 => {
            for cell in index.iter_mut() {
                *cell = number(rng, area_bytes);
            }
        }
        _ => {
            for _ in 0..8 {
                let cell = rng.below(index.len() as u32) as usize;
                index[cell] = number(rng, area_bytes);
            }
        }
    }
}
