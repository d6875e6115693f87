//! Images valid and damaged: recovery answers as the naive reading does, in any order,
//! and leaves in the index what 01 says.

use reference::edition::FIRST;
use reference::index::rule_holds;
use reference::rng::Rng;
use reference::testing::images::{Image, Shape};
use reference::{dump, read, read_value, recover, Edition, Record, Refusal, Tables};

use crate::naive::{view, View};

/// Recovers an image and holds the answer to the naive one. Gives the refusal's number.
fn recover_as_naive(rng: &mut Rng, image: &Image, cells: usize) -> u32 {
    let mut order = rng.order(image.slots);
    if rng.one_in(40) {
        let place = rng.below(image.slots) as usize;
        order[place] = rng.bits() as u8;
    }
    let expected = view(image.slots, image.slot_bytes, &image.area, cells, &order);
    let mut index = vec![7; cells];
    let (slots, slot_bytes) = (image.slots, image.slot_bytes);
    let answer = recover(slots, slot_bytes, &image.area, &mut index, &order);
    match (answer, expected) {
        (Ok(record), Ok(view)) => {
            assert_eq!(record, view.record);
            check_reads(&record, image, &index, &view);
            let map = record.map;
            assert!(rule_holds(slots, slot_bytes, map, &image.area, &index));
            0
        }
        (Err(refusal), Err(cause)) => {
            assert_eq!(refusal.number(), cause);
            let left = if refusal == Refusal::TooManyKeys {
                0
            } else {
                7
            };
            assert!(index.iter().all(|&cell| cell == left), "index, {refusal:?}");
            cause
        }
        (answer, expected) => panic!("{answer:?}, not {expected:?}"),
    }
}

fn check_reads(record: &Record, image: &Image, index: &[u32], view: &View) {
    for (key, line) in view.newest() {
        let found = read(record, &image.area, index, Tables::ALL, key);
        let value = read_value(record, &image.area, index, Tables::ALL, key);
        if line.is_object() {
            let found = found.map(|found| (found.version.0, found.kind));
            assert_eq!(found, Ok((line.version, line.bytes[0])));
            assert_eq!(value, line.value());
        } else {
            assert_eq!(found, Err(Refusal::Absent));
            assert!(value.is_empty());
        }
    }
}

#[test]
fn whole_images() {
    let mut rng = Rng::new(1);
    let mut accepted = 0;
    for _ in 0..3000 {
        let edition = *rng.pick(&Edition::ALL);
        let image = Shape::random(&mut rng, edition).make(&mut rng);
        let cells = *rng.pick(&[16, 17, 500, 4095, 4096]);
        accepted += u32::from(recover_as_naive(&mut rng, &image, cells) == 0);
    }
    assert!(accepted > 1000, "{accepted}");
}

#[test]
fn damaged_images() {
    let mut rng = Rng::new(2);
    let mut met = [0; 29];
    for _ in 0..20_000 {
        let edition = *rng.pick(&Edition::ALL);
        let mut image = Shape::random(&mut rng, edition).make(&mut rng);
        for _ in 0..rng.within(1, 6) {
            image.damage(&mut rng);
        }
        let cells = *rng.pick(&[16, 100, 4096]);
        met[recover_as_naive(&mut rng, &image, cells) as usize] += 1;
    }
    for cause in [0, 15, 17, 18, 19, 20, 24, 25, 28] {
        assert!(met[cause] > 10, "{met:?}");
    }
}

#[test]
fn random_bytes() {
    let mut rng = Rng::new(3);
    for _ in 0..3000 {
        let (slots, slot_bytes) = (rng.within(4, 32), rng.within(256, 2048));
        let mut area = vec![0; (slots * slot_bytes) as usize];
        for byte in &mut area {
            *byte = rng.below(14) as u8;
        }
        let image = Image {
            slots,
            slot_bytes,
            layout: &FIRST,
            area,
            entries: Vec::new(),
            head: 0,
        };
        recover_as_naive(&mut rng, &image, 64);
        let mut input = vec![slots as u8, slot_bytes as u8, (slot_bytes >> 8) as u8];
        input.extend(&image.area);
        assert!(dump(&input).ends_with('\n'));
    }
}

/// Full areas whose versions all collide in any filter by their low bits, with and
/// without one that is shared.
#[test]
fn shared_versions_in_full_areas() {
    let mut rng = Rng::new(4);
    let mut met = [0; 21];
    for round in 0..240 {
        let edition = Edition::ALL[(round / 2 % 2) as usize];
        let mut image = Image::with_many_keys(&mut rng, edition);
        if round % 2 == 0 {
            image.share_a_version(&mut rng);
        }
        met[recover_as_naive(&mut rng, &image, 4096) as usize] += 1;
    }
    assert!(met[0] > 50 && met[19] > 50, "{met:?}");
}
