//! The verdict of recovery, with the largest index.

use reference::layout::CELLS;
use reference::{recover, Record, Refusal};

use crate::cause::{find, Cause};
use crate::image::Image;

/// What an accepted recovery gives.
#[derive(Clone, PartialEq, Eq, Debug)]
pub struct Recovered {
    /// The record.
    pub record: Record,
    /// The index.
    pub index: Vec<u32>,
}

/// A refused recovery.
#[derive(Clone, PartialEq, Eq, Debug)]
pub struct Refused {
    /// The number and its meaning.
    pub refusal: Refusal,
    /// What brought it about.
    pub cause: Cause,
}

/// Recovers an image, or says why it cannot be.
pub fn verdict(image: &Image) -> Result<Recovered, Refused> {
    let order: Vec<u8> = (0..image.slots as u8).collect();
    let mut index = vec![0; *CELLS.end() as usize];
    let answer = recover(
        image.slots,
        image.slot_bytes,
        &image.area,
        &mut index,
        &order,
    );
    match answer {
        Ok(record) => Ok(Recovered { record, index }),
        Err(refusal) => Err(Refused {
            refusal,
            cause: find(image),
        }),
    }
}
