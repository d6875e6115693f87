//! Stores that are filled until no write is accepted.

use crate::book::Operation;
use crate::testing::choices::{A, B};
use crate::{Edition, Key};

/// The lengths of values, the longest first.
pub const LENGTHS: [usize; 4] = [120, 56, 24, 8];

/// Three entries of these lengths leave ten bytes of a slot of 256, and in the second edition of one of 272, which is
/// less than a tombstone.
pub const TIGHT: [usize; 3] = [120, 56, 24];

/// A key besides [`A`] and [`B`].
pub const fn other(number: u32) -> Key {
    Key {
        table: 1,
        key: number,
    }
}

/// Bytes of such a slot.
pub const fn tight_slot(edition: Edition) -> u32 {
    match edition {
        Edition::SECOND => 272,
        _ => 256,
    }
}

/// Keys by the slots that their objects come to in a store of four such slots, which is filled with them one after
/// another in values of [`TIGHT`] lengths.
pub const SPREADS: [[Key; 9]; 4] = [
    // Every object is live.
    [
        A,
        other(0),
        other(1),
        B,
        other(2),
        other(3),
        other(4),
        other(5),
        other(6),
    ],
    // The live objects of both keys are in the head, older ones in the head and in the other slots.
    [A, B, A, B, A, B, A, B, A],
    // The live object of one key is in the first slot, that of the other in the second; both have older ones beside
    // them and elsewhere.
    [B, A, A, B, other(0), B, other(1), other(2), other(1)],
    // Older objects stand only in slots after that of the live one, or only in its own slot, once the head is cleaned.
    [other(0), A, B, other(1), B, other(2), A, other(3), other(0)],
];

/// Writes values of these lengths in turn under the keys in turn, and from the first refusal on shorter and shorter
/// ones, until the shortest is refused. `run` runs a write and tells its stores, or the number that refuses it.
/// Tells how many were written.
pub fn fill<Fault>(
    keys: &[Key],
    lengths: &[usize],
    mut run: impl FnMut(&Operation) -> Result<Result<u32, u32>, Fault>,
) -> Result<u32, Fault> {
    let mut written = 0;
    let mut write = |bytes: usize| {
        let key = keys[written as usize % keys.len()];
        let value = (0..bytes as u8).map(|i| i.wrapping_add(written as u8));
        let accepted = run(&Operation::Write(key, value.collect()))?.is_ok();
        written += u32::from(accepted);
        Ok(accepted)
    };
    for bytes in lengths.iter().copied().cycle() {
        if !write(bytes)? {
            break;
        }
    }
    for bytes in LENGTHS {
        while write(bytes)? {}
    }
    Ok(written)
}
