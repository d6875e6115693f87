//! The items of a bundle and their bytes: N (1), S (2), M (2), the length of the area
//! (4), how many of its bytes are stored (4), the lengths of the name (1) and of the
//! order list (1), and the number of keys to read (1); then the name, the order list,
//! the stored bytes, and six bytes for each key. Junk at the area's end is not stored.

use reference::Key;

use crate::image::{Image, JUNK, KEY, OTHER};

/// An image, what recovery is lent beside it, and the keys to read afterwards.
#[derive(Clone)]
pub struct Item {
    pub name: String,
    pub slots: u8,
    pub slot_bytes: u16,
    pub cells: u16,
    pub order: Vec<u8>,
    pub area: Vec<u8>,
    pub keys: Vec<Key>,
}

impl Item {
    /// An image to be recovered in ascending order with 16 cells.
    pub fn new(name: impl Into<String>, image: &Image) -> Item {
        Item {
            name: name.into(),
            slots: image.slots,
            slot_bytes: image.slot_bytes,
            cells: 16,
            order: (0..image.slots).collect(),
            area: image.area.clone(),
            keys: vec![KEY, OTHER],
        }
    }

    pub fn cells(self, cells: u16) -> Item {
        Item { cells, ..self }
    }

    pub fn order(self, order: &[u8]) -> Item {
        let order = order.to_vec();
        Item { order, ..self }
    }

    pub fn reading(self, keys: &[Key]) -> Item {
        let keys = keys.to_vec();
        Item { keys, ..self }
    }

    /// The item's bytes.
    pub fn stored(&self) -> Vec<u8> {
        let mut bytes = vec![self.slots];
        bytes.extend(self.slot_bytes.to_le_bytes());
        bytes.extend(self.cells.to_le_bytes());
        let last = self.area.iter().rposition(|&byte| byte != JUNK);
        let stored = last.map_or(0, |last| last + 1);
        bytes.extend((self.area.len() as u32).to_le_bytes());
        bytes.extend((stored as u32).to_le_bytes());
        bytes.extend([self.name.len(), self.order.len(), self.keys.len()].map(byte));
        bytes.extend(self.name.as_bytes());
        bytes.extend(&self.order);
        bytes.extend(&self.area[..stored]);
        bytes.extend(self.keys.iter().flat_map(|key| key.stored()));
        bytes
    }
}

fn byte(length: usize) -> u8 {
    u8::try_from(length).expect("a length of one byte")
}

/// The items of a bundle, or none if one is cut short.
pub fn items(mut rest: &[u8]) -> Option<Vec<Item>> {
    let mut items = Vec::new();
    while !rest.is_empty() {
        items.push(item(&mut rest)?);
    }
    Some(items)
}

fn item(rest: &mut &[u8]) -> Option<Item> {
    let &[slots, s0, s1, m0, m1] = take(rest, 5)?.first_chunk()?;
    let area = number(rest)?;
    let stored = number(rest)?;
    let &[name, order, keys] = take(rest, 3)?.first_chunk()?;
    let name = String::from_utf8(take(rest, name.into())?.to_vec()).ok()?;
    let order = take(rest, order.into())?.to_vec();
    let mut bytes = take(rest, stored)?.to_vec();
    bytes.resize(area, JUNK);
    let keys = take(rest, 6 * usize::from(keys))?;
    Some(Item {
        name,
        slots,
        slot_bytes: u16::from_le_bytes([s0, s1]),
        cells: u16::from_le_bytes([m0, m1]),
        order,
        area: bytes,
        keys: keys.chunks_exact(6).map(key).collect(),
    })
}

fn number(rest: &mut &[u8]) -> Option<usize> {
    let bytes = take(rest, 4)?.first_chunk()?;
    Some(u32::from_le_bytes(*bytes) as usize)
}

fn key(stored: &[u8]) -> Key {
    Key {
        table: u16::from_le_bytes([stored[0], stored[1]]),
        key: u32::from_le_bytes([stored[2], stored[3], stored[4], stored[5]]),
    }
}

/// Takes so many bytes off the front.
fn take<'a>(rest: &mut &'a [u8], count: usize) -> Option<&'a [u8]> {
    let (taken, left) = rest.split_at_checked(count)?;
    *rest = left;
    Some(taken)
}
