//! The read without an index (02, R-9).

use reference::rng::Rng;
use reference::testing::calls;
use reference::testing::images::{many_tombstones, Image, Shape};
use reference::{
    read, read_value, recover, scan_read, scan_read_value, Edition, Key, Refusal, Tables, Version,
};

use crate::naive::scan;

const KEY: Key = Key { table: 7, key: 9 };
const OTHER: Key = Key { table: 7, key: 10 };

/// An object of eight equal bytes, or a tombstone.
fn entry(kind: u8, key: Key, version: u32, byte: u8) -> Vec<u8> {
    let mut bytes = vec![kind];
    bytes.extend(key.stored());
    bytes.extend(version.to_le_bytes());
    bytes.extend(vec![byte; if kind == 4 { 0 } else { 8 }]);
    bytes
}

/// Slots 0 and 2 in the log, the head in slot 2, with these entries; slot 1 is free.
fn image(first: &[Vec<u8>], second: &[Vec<u8>]) -> Vec<u8> {
    let mut area = vec![0; 1024];
    for (slot, number, entries) in [(0, 1, first), (2, 2, second)] {
        let mut bytes = vec![5, number, 0, 0, 0, 0b101, 0, 0, 0, 1, 0, 0, 0];
        bytes.extend(entries.concat());
        area[slot * 256..][..bytes.len()].copy_from_slice(&bytes);
    }
    area
}

/// Version, place and length that a scan tells, held to the naive reading.
fn told(area: &[u8], tables: (u16, u16), key: Key) -> Result<(u64, usize, usize), u32> {
    told_of(4, 256, area, tables, key).map(|(version, _, place, length)| (version, place, length))
}

fn told_of(
    slots: u32,
    slot_bytes: u32,
    area: &[u8],
    (first, last): (u16, u16),
    key: Key,
) -> Result<(u64, u8, usize, usize), u32> {
    let tables = Tables { first, last };
    let value = scan_read_value(slots, slot_bytes, area, tables, key);
    let place = value.as_ptr() as usize - area.as_ptr() as usize;
    let found = scan_read(slots, slot_bytes, area, tables, key);
    let told = found.map(|found| (found.version.0, found.kind, place, value.len()));
    if told.is_err() {
        assert_eq!((place, value.len()), (0, 0));
    }
    let told = told.map_err(Refusal::number);
    assert_eq!(told, scan(slots, slot_bytes, area, (first, last), key));
    told
}

const ALL: (u16, u16) = (0, u16::MAX);

/// The highest version decides, wherever it stands.
#[test]
fn newest_entry() {
    let older = [entry(1, KEY, 1, 0x11), entry(1, OTHER, 2, 0x22)];
    let newer = [entry(1, KEY, 4, 0x44), entry(1, KEY, 3, 0x33)];
    for (first, second, place) in [(&older, &newer, 512), (&newer, &older, 0)] {
        let area = image(first, second);
        assert_eq!(told(&area, ALL, KEY), Ok((4, place + 24, 8)));
    }
}

/// A tombstone that is the newest entry makes the key absent, and an older one does not.
#[test]
fn tombstones() {
    let area = image(&[entry(1, KEY, 1, 0)], &[entry(4, KEY, 2, 0)]);
    assert_eq!(told(&area, ALL, KEY), Err(8));
    let area = image(&[entry(4, KEY, 2, 0)], &[entry(1, KEY, 1, 0)]);
    assert_eq!(told(&area, ALL, KEY), Err(8));
    let area = image(&[entry(4, KEY, 1, 0)], &[entry(1, KEY, 2, 0)]);
    assert_eq!(told(&area, ALL, KEY), Ok((2, 536, 8)));
    assert_eq!(told(&area, ALL, OTHER), Err(8));
}

/// Slots outside the log do not count, also if they have a digest and newer entries.
#[test]
fn slots_outside_the_log() {
    let mut area = image(&[entry(1, KEY, 1, 0)], &[]);
    let stale = [5, 1, 0, 0, 0, 1, 0, 0, 0, 1, 0, 0, 0];
    area[256..269].copy_from_slice(&stale);
    area[269..288].copy_from_slice(&entry(1, KEY, 9, 0));
    assert_eq!(told(&area, ALL, KEY), Ok((1, 24, 8)));
    area[269] = 255;
    assert_eq!(told(&area, ALL, KEY), Ok((1, 24, 8)));
}

/// 1, 16, 17, 24, 25, 18, 19, 22, 8: of two faults the one that stands first.
#[test]
fn causes_in_order() {
    let none = (8, 9);
    let key = KEY;
    let area = image(&[entry(1, KEY, 1, 0)], &[entry(1, OTHER, 2, 0)]);
    assert_eq!(told(&area, none, key), Err(22));
    assert_eq!(told(&area, (8, 6), key), Err(22));
    assert_eq!(told(&area, (7, 7), key), Ok((1, 24, 8)));
    let with = |changes: &[(usize, u8)]| {
        let mut area = area.clone();
        for &(place, byte) in changes {
            area[place] = byte;
        }
        told(&area, none, key)
    };
    let shared = (512 + 13 + 7, 1);
    assert_eq!(with(&[shared]), Err(19));
    assert_eq!(with(&[shared, (13, 9)]), Err(18));
    assert_eq!(with(&[shared, (13, 9), (517, 0b111)]), Err(25));
    assert_eq!(with(&[shared, (13, 9), (0, 4), (517, 0b1111)]), Err(24));
    assert_eq!(with(&[shared, (13, 9), (517, 0b1111), (521, 0)]), Err(17));
    assert_eq!(with(&[shared, (0, 4), (512, 4), (521, 0)]), Err(16));
    assert_eq!(told_of(3, 256, &area, none, key), Err(1));
    assert_eq!(told_of(4, 257, &area, none, key), Err(1));
    assert_eq!(told_of(4, 256, &area[1..], none, key), Err(1));
    assert_eq!(told_of(4, 256, &[0; 1023], none, key), Err(1));
}

/// An image with more keys than any index takes is read all the same.
#[test]
fn more_keys_than_cells() {
    let mut area = many_tombstones(185);
    let last = 30 * 2048 + 13;
    area[last..last + 19].copy_from_slice(&entry(1, KEY, 1 << 20, 0x77));
    area[last + 19] = 0;
    let order: Vec<u8> = (0..32).collect();
    let answer = recover(32, 2048, &area, &mut [0; 4096], &order);
    assert_eq!(answer, Err(Refusal::TooManyKeys));
    let found = told_of(32, 2048, &area, ALL, KEY);
    assert_eq!(found, Ok((1 << 20, 1, last + 11, 8)));
}

/// Images valid and damaged: the naive answer, and that of a read after recovery wherever there is one.
#[test]
fn images() {
    let mut rng = Rng::new(91);
    let mut met = [0; 29];
    for _ in 0..6000 {
        let edition = *rng.pick(&Edition::ALL);
        let mut shape = Shape::random(&mut rng, edition);
        shape.slot_bytes = shape.slot_bytes.min(800);
        let mut image = shape.make(&mut rng);
        for _ in 0..rng.below(3) {
            image.damage(&mut rng);
        }
        check_image(&mut rng, &image, &mut met);
    }
    for cause in [0, 8, 16, 17, 18, 19, 22, 24, 25, 28] {
        assert!(met[cause] > 10, "{cause}: {met:?}");
    }
}

fn check_image(rng: &mut Rng, image: &Image, met: &mut [u32; 29]) {
    let (slots, slot_bytes, area) = (image.slots, image.slot_bytes, &image.area);
    let mut index = vec![0; 4096];
    let record = recover(slots, slot_bytes, area, &mut index, &rng.order(slots));
    for _ in 0..4 {
        let key = image.some_key(rng);
        let tables = calls::tables(rng, key.table);
        let told = told_of(slots, slot_bytes, area, (tables.first, tables.last), key);
        met[told.err().unwrap_or(0) as usize] += 1;
        match record {
            Ok(record) => {
                let found = read(&record, area, &index, tables, key);
                let found = found.map(|found| (found.version, found.kind));
                let value = read_value(&record, area, &index, tables, key);
                let scanned = scan_read_value(slots, slot_bytes, area, tables, key);
                let told = told.map(|(version, kind, ..)| (Version(version), kind));
                assert_eq!(told, found.map_err(Refusal::number));
                assert_eq!(scanned.as_ptr_range(), value.as_ptr_range());
            }
            Err(Refusal::TooManyKeys) => assert!(matches!(told, Ok(_) | Err(8 | 22))),
            Err(refusal) => assert_eq!(told, Err(refusal.number())),
        }
    }
}
