//! An image of an area, and places in it.

use std::fmt;
use std::path::Path;

use reference::edition::{Layout, FIRST};
use reference::layout::{self, geometry_holds, SLOTS, SLOT_BYTES};
use reference::{Edition, SlotMap};

/// An area of N slots of S bytes; both are within their limits, and the area is exactly as long.
#[derive(Clone, PartialEq, Eq, Debug)]
pub struct Image {
    /// N.
    pub slots: u32,
    /// S.
    pub slot_bytes: u32,
    /// The bytes.
    pub area: Vec<u8>,
}

/// N and S as the user gives them.
#[derive(Clone, Copy, PartialEq, Eq, Debug)]
pub struct Geometry {
    /// N.
    pub slots: u32,
    /// S.
    pub slot_bytes: u32,
}

/// A slot and an offset in it.
#[derive(Clone, Copy, PartialEq, Eq, PartialOrd, Ord, Debug)]
pub struct Place {
    /// The slot.
    pub slot: u32,
    /// The offset in the slot.
    pub offset: usize,
}

impl fmt::Display for Place {
    fn fmt(&self, f: &mut fmt::Formatter) -> fmt::Result {
        write!(f, "slot {}, offset {}", self.slot, self.offset)
    }
}

/// The log as far as an image has one: its slots and its head.
#[derive(Clone, Copy, PartialEq, Eq, Debug)]
pub struct Log {
    /// Its slots.
    pub map: SlotMap,
    /// Its newest slot.
    pub head: u32,
}

/// The layout that a segment is read by: of the edition of its digest, and of the first where it has none.
pub fn layout_of(segment: &[u8]) -> &'static Layout {
    let edition = Edition::of_segment(segment);
    edition.and_then(Edition::layout).unwrap_or(&FIRST)
}

impl Image {
    /// The image in a file: an area alone if the geometry is told, else one after N (1 byte) and S (2 bytes).
    pub fn load(path: &Path, geometry: Option<Geometry>) -> Result<Image, String> {
        let named = |fault| format!("{}: {fault}", path.display());
        let bytes = std::fs::read(path).map_err(|fault| named(fault.to_string()))?;
        Image::from_file(bytes, geometry).map_err(named)
    }

    /// The image in the bytes of a file.
    pub fn from_file(bytes: Vec<u8>, geometry: Option<Geometry>) -> Result<Image, String> {
        if let Some(geometry) = geometry {
            return Image::new(geometry, bytes);
        }
        let Some(&[slots, low, high]) = bytes.first_chunk() else {
            return Err(format!(
                "{} bytes are too few for N, S and an area; give --slots and --size for an area alone",
                bytes.len()
            ));
        };
        let geometry = Geometry {
            slots: u32::from(slots),
            slot_bytes: u32::from(u16::from_le_bytes([low, high])),
        };
        Image::new(geometry, bytes[3..].to_vec())
            .map_err(|fault| format!("{fault}; give --slots and --size for an area alone"))
    }

    /// An area of this geometry, if the geometry is within its limits and fits the area.
    pub fn new(geometry: Geometry, area: Vec<u8>) -> Result<Image, String> {
        let Geometry { slots, slot_bytes } = geometry;
        if !SLOTS.contains(&slots) || !SLOT_BYTES.contains(&slot_bytes) {
            return Err(format!(
                "{slots} slots of {slot_bytes} bytes; there are {} to {} slots of {} to {} bytes",
                SLOTS.start(),
                SLOTS.end(),
                SLOT_BYTES.start(),
                SLOT_BYTES.end()
            ));
        }
        if !geometry_holds(slots, slot_bytes, area.len()) {
            return Err(format!(
                "{slots} slots of {slot_bytes} bytes are {} bytes, and the area has {}",
                slots * slot_bytes,
                area.len()
            ));
        }
        Ok(Image {
            slots,
            slot_bytes,
            area,
        })
    }

    /// The geometry.
    pub fn geometry(&self) -> Geometry {
        Geometry {
            slots: self.slots,
            slot_bytes: self.slot_bytes,
        }
    }

    /// The bytes of one slot.
    pub fn segment(&self, slot: u32) -> &[u8] {
        layout::segment(&self.area, self.slot_bytes, slot)
    }

    /// Slot and offset of a byte of the area.
    pub fn place(&self, at: usize) -> Place {
        let slot_bytes = self.slot_bytes as usize;
        Place {
            slot: (at / slot_bytes) as u32,
            offset: at % slot_bytes,
        }
    }

    /// Where in the area a place is.
    pub fn at(&self, place: Place) -> usize {
        place.slot as usize * self.slot_bytes as usize + place.offset
    }
}
