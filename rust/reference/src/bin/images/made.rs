//! Images as operations and cuts leave them.

use reference::book::Operation::{self, Clean, Delete, Write};
use reference::{Key, Refusal, SlotMap};

use crate::bundle::Item;
use crate::drive::Drive;
use crate::image::{key, object, tombstone, Digest, Image, KEY, OTHER};

pub fn items() -> Vec<Item> {
    [
        cases(),
        case_6(),
        case_7(),
        case_8(),
        new_head(),
        cleanings(),
        long_values(),
        odd_sizes(),
    ]
    .concat()
}

/// A write of so many bytes, each the one given.
fn write(key: Key, byte: u8, bytes: usize) -> Operation {
    Write(key, vec![byte; bytes])
}

/// An item for each count of stores after which an operation is cut.
fn cuts(name: &str, drive: &Drive, operation: &Operation, counts: &[u32]) -> Vec<Item> {
    counts
        .iter()
        .map(|&count| {
            let name = format!("{name}, cut after store {count}");
            Item::new(name, &drive.cut(operation, count))
        })
        .collect()
}

/// Cases 1 to 5 of 01.
fn cases() -> Vec<Item> {
    let fresh = Drive::fresh(4, 256);
    let first = write(KEY, 0x11, 8);
    let written = fresh.clone().after(std::slice::from_ref(&first));
    let deleted = written.clone().after(&[Delete(KEY)]);
    let clean = Clean(SlotMap(1));
    [
        vec![Item::new("case 1, fresh", &fresh.image())],
        cuts("cases 2 and 3, write", &fresh, &first, &[1, 10, 19, 20]),
        cuts("case 4, delete", &written, &Delete(KEY), &[11, 12]),
        cuts("case 5, clean", &deleted, &clean, &[1, 14, 15]),
    ]
    .concat()
}

/// Case 6: a last tombstone that ends at S.
fn case_6() -> Vec<Item> {
    let drive = Drive::fresh(4, 256).after(&[
        write(key(1), 1, 56),
        write(KEY, 2, 56),
        write(key(2), 3, 8),
        write(OTHER, 4, 8),
        write(OTHER, 5, 8),
        write(OTHER, 6, 8),
        Delete(key(1)),
        Delete(key(2)),
    ]);
    cuts("case 6, last tombstone", &drive, &Delete(KEY), &[10, 11])
}

/// Case 7: a value of 7 bytes is refused, and those of 8, 24, 56 and 120 are not.
fn case_7() -> Vec<Item> {
    let mut drive = Drive::fresh(4, 256);
    let refused = drive.start(&write(KEY, 1, 7));
    assert_eq!(refused, Err(Refusal::ValueLength));
    let drive = drive.after(&[
        write(KEY, 2, 8),
        write(OTHER, 3, 24),
        write(key(1), 4, 56),
        write(key(2), 5, 120),
    ]);
    let item = Item::new("case 7, values of 8, 24, 56 and 120 bytes", &drive.image());
    vec![item.reading(&[KEY, OTHER, key(1), key(2)])]
}

/// Case 8: a tombstone in slot 1 over an object in slot 0.
fn case_8() -> Vec<Item> {
    let digest = |number| Digest {
        number,
        map: 3,
        next: 1,
    };
    let image = Image::junk(4, 256)
        .slot(0, digest(1), &[object(KEY, 1)])
        .slot(1, digest(2), &[object(KEY, 2), tombstone(KEY, 3)]);
    let drive = Drive::on(image);
    let cleaned = |victims| drive.clone().after(&[Clean(SlotMap(victims))]).image();
    vec![
        Item::new("case 8, before the cleaning", &drive.image()),
        Item::new("case 8, slot 1 cleaned", &cleaned(0b10)),
        Item::new("case 8, both cleaned", &cleaned(0b11)),
    ]
}

/// A store whose head, slot 0, has no room for an object of kind 3, after two cleanings
/// that went round the slots. Every free slot has a stale digest.
fn went_round() -> Drive {
    let mut operations = vec![write(OTHER, 1, 8)];
    operations.extend((2..6).map(|byte| write(KEY, byte, 56)));
    operations.push(Clean(SlotMap(0b0011)));
    operations.extend((7..10).map(|byte| write(KEY, byte, 56)));
    operations.push(Clean(SlotMap(0b1100)));
    operations.extend((11..13).map(|byte| write(KEY, byte, 56)));
    Drive::fresh(4, 256).after(&operations)
}

/// Cuts of a write with a new head, in a slot with a stale digest.
fn new_head() -> Vec<Item> {
    let drive = went_round();
    let newest = write(KEY, 13, 56);
    let counts = [0, 1, 2, 5, 13, 14, 81, 82];
    let mut items = cuts("new head", &drive, &newest, &counts);
    let tombstone = Drive::on(drive.cut(&newest, 82)).after(&[Delete(KEY)]);
    items.push(Item::new(
        "new head, then a delete of the key",
        &tombstone.image(),
    ));
    items
}

/// Cuts of a cleaning that keeps entries, and stores that go on after one.
fn cleanings() -> Vec<Item> {
    let drive = went_round().after(&[write(KEY, 13, 56), Delete(OTHER)]);
    let clean = Clean(SlotMap(0b0011));
    let mut items = cuts("cleaning", &drive, &clean, &[1, 14, 81, 82]);
    let dropped = Drive::on(drive.cut(&clean, 40));
    let dropped = Drive::on(dropped.cut(&write(OTHER, 14, 24), 20));
    items.push(Item::new(
        "a cleaning and a write dropped",
        &dropped.image(),
    ));
    let written = dropped.after(&[write(OTHER, 15, 8)]);
    items.push(Item::new(
        "a write after a cleaning and a write dropped",
        &written.image(),
    ));
    items
}

/// Cuts of writes of 120 bytes, appended and into a new head, and of a cleaning that keeps one.
fn long_values() -> Vec<Item> {
    let fresh = Drive::fresh(4, 256);
    let (first, second) = (write(KEY, 1, 120), write(OTHER, 2, 120));
    let written = fresh.clone().after(std::slice::from_ref(&first));
    let both = written.clone().after(std::slice::from_ref(&second));
    let clean = Clean(SlotMap(0b01));
    [
        cuts("120 bytes", &fresh, &first, &[1, 131, 132]),
        cuts("120 bytes, new head", &written, &second, &[14, 145, 146]),
        cuts("120 bytes, cleaning", &both, &clean, &[1, 145, 146]),
    ]
    .concat()
}

/// N 5 and S 300, with an index of an odd length and the slots in another order.
fn odd_sizes() -> Vec<Item> {
    let fresh = Drive::fresh(5, 300);
    let mut operations: Vec<Operation> = (0..5).map(|byte| write(KEY, byte, 56)).collect();
    operations.push(write(OTHER, 5, 24));
    operations.push(Clean(SlotMap(0b01)));
    operations.extend((6..11).map(|byte| write(OTHER, byte, 56)));
    let used = fresh.clone().after(&operations);
    vec![
        Item::new("N 5 and S 300, fresh", &fresh.image()).cells(17),
        Item::new("N 5 and S 300, used", &used.image())
            .cells(19)
            .order(&[3, 0, 4, 1, 2]),
    ]
}
