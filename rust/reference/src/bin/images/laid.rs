//! Images laid by hand: what a log may hold, and each fault of 16 to 20, 24 and 25.

use reference::Key;

use crate::bundle::Item;
use crate::image::{
    entry, entry_length, filling, key, object, tombstone, Digest, Image, KEY, OTHER,
};

const LAST_VERSION: u32 = u32::MAX - 1;

pub fn items() -> Vec<Item> {
    [
        ends(),
        past_the_end(),
        last_bytes(),
        kinds(),
        free_slots(),
        versions(),
        digest_numbers(),
        shared_numbers(),
        maps(),
        next_versions(),
        shared_versions(),
        scattered_versions(),
        key_counts(),
        searches(),
        latest_entries(),
        outermost_keys(),
        first_digest_faults(),
        first_faults(),
        vec![largest()],
    ]
    .concat()
}

fn digest(number: u32, map: u32) -> Digest {
    Digest {
        number,
        map,
        next: 1,
    }
}

/// Slot 0 alone in the log, with these entries.
fn one_slot(entries: &[Vec<u8>]) -> Image {
    Image::junk(4, 256).slot(0, digest(1, 1), entries)
}

/// Slots 0 and 2 in the log, the head in slot 2, with these entries.
fn two_slots(first: &[Vec<u8>], second: &[Vec<u8>]) -> Image {
    Image::junk(4, 256)
        .slot(0, digest(1, 1), first)
        .slot(2, digest(2, 0b101), second)
}

/// Entries of which the last, of this kind, ends at an offset.
fn ending_at(offset: usize, kind: u8) -> Vec<Vec<u8>> {
    let mut entries = filling(offset - 13 - entry_length(kind));
    entries.push(entry(kind, KEY, 5));
    entries
}

/// The kinds that entries have.
const KINDS: [u8; 5] = [1, 2, 3, 4, 7];

/// Entries that end exactly at S, in the head and before the next slot's digest.
fn ends() -> Vec<Item> {
    let head = KINDS.map(|kind| {
        let image = one_slot(&ending_at(256, kind));
        Item::new(format!("kind {kind} ends at S"), &image)
    });
    let other = KINDS.map(|kind| {
        let image = two_slots(&ending_at(256, kind), &[object(OTHER, 9)]);
        let image = image.slot(1, digest(0, 0), &[object(KEY, 6)]);
        Item::new(format!("kind {kind} ends at S of another slot"), &image)
    });
    [head, other].concat()
}

/// Entries that would end one byte past S.
fn past_the_end() -> Vec<Item> {
    let item = |kind| {
        let mut bytes = ending_at(257, kind).concat();
        bytes.pop();
        let image = one_slot(&[bytes]);
        Item::new(format!("kind {kind} ends one past S"), &image)
    };
    KINDS.map(item).to_vec()
}

/// The last byte of a slot as a kind.
fn last_bytes() -> Vec<Item> {
    [0, 1, 4, 5, 7]
        .into_iter()
        .map(|kind| {
            let mut entries = filling(242);
            entries.push(vec![kind]);
            let name = format!("kind {kind} in the last byte");
            Item::new(name, &one_slot(&entries))
        })
        .collect()
}

/// Kinds that no entry has, and kind 7 beside them.
fn kinds() -> Vec<Item> {
    let mut items = Vec::new();
    for kind in [5, 6, 7, 8, 255] {
        let first = one_slot(&[entry(kind, KEY, 1)]);
        items.push(Item::new(format!("kind {kind} first"), &first));
        let second = one_slot(&[object(KEY, 1), entry(kind, OTHER, 2)]);
        items.push(Item::new(format!("kind {kind} second"), &second));
    }
    let other = two_slots(&[object(KEY, 1), vec![6]], &[object(OTHER, 2)]);
    items.push(Item::new("kind 6 in another slot of the log", &other));
    for kind in [5, 6, 8] {
        let mut long = entry(7, KEY, 1);
        long[0] = kind;
        let image = one_slot(&[long, object(OTHER, 2)]);
        items.push(Item::new(format!("kind {kind} as long as kind 7"), &image));
    }
    let before = one_slot(&[entry(7, KEY, 1), object(OTHER, 2)]);
    items.push(Item::new("kind 7 before an object", &before));
    items
}

/// Faults where nothing is read: after an end, and in slots outside the log.
fn free_slots() -> Vec<Item> {
    let after = one_slot(&[object(KEY, 1), vec![0], entry(255, OTHER, 0)]);
    let stale = one_slot(&[object(KEY, 2)]).slot(3, digest(0, 0), &[vec![255]]);
    let shared = two_slots(&[object(KEY, 1)], &[object(OTHER, 2)]).slot(
        1,
        digest(1, u32::MAX),
        &[object(KEY, 2), tombstone(OTHER, 2)],
    );
    vec![
        Item::new("kind 255 after the end", &after),
        Item::new("damage in a free slot", &stale),
        Item::new("versions shared with a free slot", &shared),
    ]
}

/// Versions at their limits.
fn versions() -> Vec<Item> {
    let mut items = Vec::new();
    for version in [0, 1, LAST_VERSION, u32::MAX] {
        for (name, kind) in [("an object", 1), ("a tombstone", 4)] {
            let image = two_slots(&[entry(kind, KEY, version)], &[object(OTHER, 2)]);
            items.push(Item::new(format!("version {version} of {name}"), &image));
        }
    }
    items
}

/// Digest numbers at their limits, and which of two is higher.
fn digest_numbers() -> Vec<Item> {
    let alone = |number| Image::junk(4, 256).slot(1, digest(number, 0b10), &[object(KEY, 1)]);
    let two = |low, high| {
        Image::junk(4, 256)
            .slot(0, digest(high, 0b0001), &[object(KEY, 1)])
            .slot(3, digest(low, 0b1000), &[object(OTHER, 1)])
    };
    vec![
        Item::new("digest number 0", &alone(0)),
        Item::new("digest number 4294967295", &alone(u32::MAX)),
        Item::new("digest numbers 0 and 1", &two(0, 1)),
        Item::new("digest numbers 255 and 256", &two(255, 256)),
        Item::new(
            "digest numbers 2147483647 and 2147483648",
            &two(u32::MAX >> 1, 1 << 31),
        ),
        Item::new(
            "digest numbers 4294967294 and 4294967295",
            &two(u32::MAX - 1, u32::MAX),
        ),
    ]
}

/// Digest numbers that slots share.
fn shared_numbers() -> Vec<Item> {
    let log = |first, second| {
        Image::junk(4, 256)
            .slot(0, digest(first, 0b11), &[object(KEY, 1)])
            .slot(1, digest(second, 0b11), &[object(OTHER, 2)])
    };
    vec![
        Item::new("highest number shared in the log", &log(7, 7)),
        Item::new(
            "highest number shared with a free slot",
            &log(6, 7).slot(3, digest(7, 0b1000), &[]),
        ),
        Item::new(
            "lower number shared with a free slot",
            &log(6, 7).slot(3, digest(6, 0b1000), &[]),
        ),
        Item::new(
            "lower number shared by free slots",
            &log(6, 7)
                .slot(2, digest(5, 0), &[])
                .slot(3, digest(5, 0), &[]),
        ),
        Item::new("number 0 shared", &log(0, 0)),
    ]
}

/// Maps of the head.
fn maps() -> Vec<Item> {
    let head = |map| {
        Image::junk(4, 256)
            .slot(0, digest(1, 0b1), &[object(KEY, 1)])
            .slot(1, digest(2, 0b11), &[object(OTHER, 2)])
            .slot(2, digest(3, map), &[object(OTHER, 3)])
    };
    let used = head(0b0111);
    vec![
        Item::new("map of three slots", &used),
        Item::new("map of the head alone", &head(0b0100)),
        Item::new("map without a slot of the former log", &head(0b0101)),
        Item::new("map empty", &head(0)),
        Item::new("map without the head", &head(0b0011)),
        Item::new("map names slot 4", &head(0b10111)),
        Item::new("map names slot 31", &head(0b0111 | 1 << 31)),
        Item::new(
            "map leaves no slot free",
            &head(0b1111).slot(3, digest(1, 1), &[]),
        ),
        Item::new(
            "map names a slot with 0 at byte 0",
            &used.clone().bytes(1, 0, &[0]),
        ),
        Item::new(
            "map names a slot with 4 at byte 0",
            &used.clone().bytes(0, 0, &[4]),
        ),
        Item::new(
            "digest of another log slot is nonsense",
            &used.bytes(1, 1, &[0; 12]),
        ),
        Item::new("no byte 0 is 5", &Image::junk(4, 256)),
    ]
}

/// The next version in the head's digest beside the highest version of the log.
fn next_versions() -> Vec<Item> {
    let head = |next, entries: &[Vec<u8>]| {
        let digest = Digest {
            number: 1,
            map: 1,
            next,
        };
        Image::junk(4, 256).slot(0, digest, entries)
    };
    let entries = [object(KEY, 7), tombstone(OTHER, 3)];
    vec![
        Item::new("next version 0", &head(0, &entries)),
        Item::new("next version 0 of an empty log", &head(0, &[])),
        Item::new("next version below the log's", &head(2, &entries)),
        Item::new("next version equal to the log's", &head(8, &entries)),
        Item::new("next version above the log's", &head(10, &entries)),
        Item::new("next version 4294967295", &head(u32::MAX, &entries)),
        Item::new(
            "next version 4294967295 of an empty log",
            &head(u32::MAX, &[]),
        ),
    ]
}

/// Two entries with one version.
fn shared_versions() -> Vec<Item> {
    let mut items = Vec::new();
    for (keys, second) in [("one key", KEY), ("two keys", OTHER)] {
        for (kinds, kind) in [("objects", 1), ("an object and a tombstone", 4)] {
            let pair = [object(KEY, 3), entry(kind, second, 3)];
            let name = |place| format!("one version, {kinds} of {keys} in {place}");
            items.push(Item::new(name("one slot"), &one_slot(&pair)));
            let [first, other] = pair.map(|entry| [entry]);
            items.push(Item::new(name("two slots"), &two_slots(&first, &other)));
        }
    }
    items
}

/// Versions of which the low bits are equal and the whole are not, and one that is
/// shared after another with its low bits.
fn scattered_versions() -> Vec<Item> {
    let apart: Vec<Vec<u8>> = (0..12)
        .map(|i| object(key(i), 5 + (1 << (i + 12))))
        .collect();
    let (first, second) = apart.split_at(6);
    let shared = [second, &[tombstone(KEY, 5 + (1 << 15))]].concat();
    vec![
        Item::new("versions far apart", &two_slots(first, second)).reading(&[key(0), key(11)]),
        Item::new("versions far apart, one shared", &two_slots(first, &shared)),
    ]
}

/// As many keys as M - 1, and more.
fn key_counts() -> Vec<Item> {
    let entries = |count| -> Vec<Vec<u8>> { (1..=count).map(|i| tombstone(key(i), i)).collect() };
    let full = one_slot(&entries(15));
    let over = one_slot(&entries(16));
    let repeated = one_slot(&[entries(15), vec![object(key(3), 16)]].concat());
    let split = two_slots(&entries(15), &[object(KEY, 16)]);
    vec![
        Item::new("15 keys and M 16", &full).reading(&[key(1), key(15), key(16)]),
        Item::new("16 keys and M 16", &over),
        Item::new("16 keys and M 17", &over).cells(17),
        Item::new("16 entries of 15 keys and M 16", &repeated).reading(&[key(3), key(4)]),
        Item::new("16 keys in two slots and M 16", &split),
        Item::new("16 keys in two slots and M 4096", &split).cells(4096),
    ]
}

/// Keys whose search starts at the index's last cell.
fn searches() -> Vec<Item> {
    let keys: Vec<Key> = (0..)
        .map(key)
        .filter(|key| key.hash() % 16 == 15)
        .take(6)
        .collect();
    let (held, absent) = keys.split_at(4);
    let entries: Vec<Vec<u8>> = (1..).zip(held).map(|(v, &key)| object(key, v)).collect();
    let image = one_slot(&entries);
    let read = [held, absent].concat();
    vec![Item::new("searches that go round the index", &image).reading(&read)]
}

/// Which of a key's entries is the latest.
fn latest_entries() -> Vec<Item> {
    let objects = [object(KEY, 1), object(OTHER, 2)];
    let newer = two_slots(&objects, &[object(KEY, 4), object(OTHER, 3)]);
    let older = two_slots(&[object(KEY, 9), entry(3, OTHER, 8)], &objects);
    let deleted = two_slots(&objects, &[tombstone(KEY, 3)]);
    let deleted_first = two_slots(&[tombstone(KEY, 3)], &objects);
    let written_again = two_slots(&objects, &[tombstone(KEY, 3), entry(2, KEY, 4)]);
    let unordered = one_slot(&[object(KEY, 5), tombstone(KEY, 4), object(OTHER, 6)]);
    vec![
        Item::new("newer objects in the head", &newer),
        Item::new("older objects in the head", &older),
        Item::new("tombstone in the head", &deleted),
        Item::new("tombstone before the head", &deleted_first),
        Item::new("tombstone before the head, descending", &deleted_first).order(&[3, 2, 1, 0]),
        Item::new("tombstone between two objects", &written_again),
        Item::new("tombstone older than an object before it", &unordered),
    ]
}

/// The lowest and the highest keys, and keys whose bytes are alike.
fn outermost_keys() -> Vec<Item> {
    let keys = [
        (0, 0),
        (0, 1),
        (1, 0),
        (0, 1 << 24),
        (1 << 8, 0),
        (u16::MAX, u32::MAX),
        (0, u32::MAX),
        (u16::MAX, 0),
    ];
    let keys = keys.map(|(table, key)| Key { table, key });
    let entries: Vec<Vec<u8>> = (1..).zip(keys).map(|(v, key)| object(key, v)).collect();
    vec![
        Item::new("lowest and highest keys", &one_slot(&entries)).reading(&keys),
        Item::new("lowest and highest keys absent", &one_slot(&entries[1..5])).reading(&keys),
    ]
}

/// Two faults of which 17, 24 or 25 is the first.
fn first_digest_faults() -> Vec<Item> {
    let head = |next, map| {
        let digest = Digest {
            number: 2,
            map,
            next,
        };
        Image::junk(4, 256)
            .slot(
                0,
                Digest {
                    number: 1,
                    ..digest
                },
                &[object(KEY, 1)],
            )
            .slot(2, digest, &[object(OTHER, 2)])
    };
    let shared = |map| head(1, map).slot(1, digest(2, 0b10), &[]);
    let all = |next| head(next, 0b1111).slot(3, digest(1, 1), &[]);
    let damaged = |image: Image| image.bytes(2, 13, &[9]);
    vec![
        Item::new("17, number shared, before 24", &shared(0b10101)),
        Item::new("17, number shared, before 25", &shared(0b1101)),
        Item::new("17, next version 0, before 24", &head(0, 0b0001)),
        Item::new(
            "17, next version 0, before 24, none free",
            &all(0).slot(1, digest(1, 1), &[]),
        ),
        Item::new("17, next version 0, before 25", &head(0, 0b0111)),
        Item::new("24, slot 4, before 25", &head(1, 0b10111)),
        Item::new("24, none free, before 25", &all(1)),
        Item::new("24, without the head, before 25", &head(1, 0b0011)),
        Item::new("24 before 18", &damaged(head(1, 0b10101))),
        Item::new("25 before 18", &damaged(head(1, 0b0111))),
    ]
}

/// Images with two faults or more: the first in the order of the causes is told.
fn first_faults() -> Vec<Item> {
    let many: Vec<Vec<u8>> = (1..=18).map(|i| tombstone(key(i), i)).collect();
    let shared = [many.clone(), vec![tombstone(key(1), 9)]].concat();
    let damaged = [object(OTHER, 9), vec![9]];
    let image = two_slots(&shared, &damaged);
    vec![
        Item::new(
            "17 before 18",
            &two_slots(&[vec![9]], &[]).bytes(2, 9, &[0; 4]),
        ),
        Item::new("24 before 19", &image.clone().bytes(2, 5, &[1])),
        Item::new("25 before 19", &image.clone().bytes(0, 0, &[4])),
        Item::new("18 in a later slot before 19 and 20", &image),
        Item::new("18 in a later slot, read first", &image).order(&[2, 0, 1, 3]),
        Item::new("19 before 20", &two_slots(&shared, &[])),
        Item::new("20 alone", &two_slots(&many, &[])),
    ]
}

/// N, S and M at their upper limits, with M - 1 keys. The head is slot 31, and slot 5
/// is free.
fn largest() -> Item {
    let map = !(1 << 5);
    let keys: Vec<Key> = (0..4095u32)
        .map(|i| Key {
            table: (i % 5) as u16,
            key: i.wrapping_mul(2_654_435_761),
        })
        .collect();
    let entries: Vec<Vec<u8>> = (1..)
        .zip(&keys)
        .map(|(version, &key)| entry(if version % 16 == 0 { 1 } else { 4 }, key, version))
        .collect();
    let log = (0..32).filter(|slot| map >> slot & 1 == 1);
    let image = log
        .zip(entries.chunks(133))
        .fold(Image::junk(32, 2048), |image, (slot, entries)| {
            image.slot(slot, digest(slot as u32 + 1, map), entries)
        });
    Item::new("N 32, S 2048, M 4096 and 4095 keys", &image)
        .cells(4096)
        .reading(&[keys[15], keys[4079], keys[4094], KEY])
}
