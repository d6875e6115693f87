//! What is lent: the order list, N, S, M and the area's length.

use crate::bundle::Item;
use crate::image::{object, tombstone, Digest, Image, KEY, OTHER};

pub fn items() -> Vec<Item> {
    [
        orders(),
        wrong_orders(),
        geometry(),
        cells(),
        first_faults(),
    ]
    .concat()
}

/// An image whose log is three slots, the head in slot 0.
fn image(slots: u8, slot_bytes: u16) -> Image {
    let digest = |number| Digest {
        number,
        map: 0b1011,
        next: 1,
    };
    Image::junk(slots, slot_bytes)
        .slot(1, digest(3), &[object(KEY, 1), object(OTHER, 2)])
        .slot(3, digest(4), &[tombstone(KEY, 3)])
        .slot(0, digest(5), &[object(OTHER, 4)])
}

fn orders() -> Vec<Item> {
    let image = image(4, 256);
    vec![
        Item::new("slots descending", &image).order(&[3, 2, 1, 0]),
        Item::new("slots rotated", &image).order(&[2, 3, 0, 1]),
        Item::new("slots crossed", &image).order(&[1, 3, 0, 2]),
    ]
}

fn wrong_orders() -> Vec<Item> {
    let image = image(4, 256);
    let wrong: [(&str, &[u8]); 8] = [
        ("order empty", &[]),
        ("order one short", &[0, 1, 2]),
        ("order one too long", &[0, 1, 2, 3, 0]),
        ("order twice", &[0, 1, 2, 3, 0, 1, 2, 3]),
        ("order names a slot twice", &[0, 1, 2, 2]),
        ("order names a free slot twice", &[2, 2, 0, 1]),
        ("order names slot 4", &[0, 1, 4, 3]),
        ("order names slots 32 above", &[32, 33, 34, 35]),
    ];
    wrong
        .into_iter()
        .map(|(name, order)| Item::new(name, &image).order(order))
        .collect()
}

fn geometry() -> Vec<Item> {
    let empty = Image {
        slots: 0,
        slot_bytes: 256,
        area: Vec::new(),
    };
    let mut items = vec![
        Item::new("N 0", &empty),
        Item::new("N 3", &sized(3, 256)),
        Item::new("N 33", &sized(33, 256)),
        Item::new("S 255", &sized(4, 255)),
        Item::new("S 2049", &sized(4, 2049)),
    ];
    for (name, length) in [("one short", 1023), ("one long", 1025), ("empty", 0)] {
        let mut image = image(4, 256);
        image.area.resize(length, 0);
        items.push(Item::new(format!("area {name}"), &image));
    }
    let other = Image {
        slots: 8,
        slot_bytes: 128,
        ..image(4, 256)
    };
    items.push(Item::new("N 8 and S 128", &other));
    items
}

/// An area of its N and S with a sound head in slot 0.
fn sized(slots: u8, slot_bytes: u16) -> Image {
    let digest = Digest {
        number: 1,
        map: 1,
        next: 1,
    };
    Image::junk(slots, slot_bytes).slot(0, digest, &[object(KEY, 1)])
}

fn cells() -> Vec<Item> {
    [0, 15, 16, 17, 4095, 4096, 4097, 65535]
        .into_iter()
        .map(|cells| Item::new(format!("M {cells}"), &image(4, 256)).cells(cells))
        .collect()
}

/// Two faults or more: 1, 2, 15 and 16 in this order.
fn first_faults() -> Vec<Item> {
    let none = Image::junk(4, 256);
    let mut short = none.clone();
    short.area.pop();
    vec![
        Item::new("1 before 2, 15 and 16", &short)
            .cells(15)
            .order(&[0]),
        Item::new("2 before 15 and 16", &none).cells(15).order(&[0]),
        Item::new("15 before 16", &none).order(&[0, 1, 2, 3, 3]),
    ]
}
