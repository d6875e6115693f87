//! Images from one edition to the other (02, R-12).

use reference::rng::Rng;
use reference::rules::AsWritten;
use reference::testing::calls;
use reference::testing::images::{many_tombstones, Image, Shape};
use reference::{convert, read, read_value, recover, Edition, Key, Record, Refusal, Tables};

use crate::naive::{self, log};
use crate::rig::Rig;

const KEY: Key = Key { table: 7, key: 9 };
const OTHER: Key = Key { table: 7, key: 10 };

/// The highest version and the highest next version of the first edition.
const LAST: u64 = 4_294_967_294;
const SPENT: u64 = 4_294_967_295;

/// The second buffer after a conversion, which is held to the naive one; a refused conversion leaves the buffer.
fn told(slots: u32, slot_bytes: u32, source: &[u8], target_bytes: usize) -> Result<Vec<u8>, u32> {
    let mut target = vec![0x5A; target_bytes];
    let answer = convert(slots, slot_bytes, source, &mut target).map_err(Refusal::number);
    if answer.is_err() {
        assert!(target.iter().all(|&byte| byte == 0x5A), "{answer:?}");
    }
    let told = answer.map(|()| target);
    let owed = naive::convert(slots, slot_bytes, source, target_bytes);
    assert!(told == owed, "{:?}, not {:?}", told.err(), owed.err());
    told
}

/// The same of an area of four slots.
fn converted(area: &[u8]) -> Result<Vec<u8>, u32> {
    told(4, area.len() as u32 / 4, area, area.len())
}

/// The area with 0 in every byte that is no part of the log.
fn log_alone(slots: u32, slot_bytes: u32, area: &[u8]) -> Vec<u8> {
    let log = log(slots, slot_bytes, area).expect("a log");
    let mut alone = vec![0; area.len()];
    let mut keep = |place: usize, bytes: usize| {
        alone[place..place + bytes].copy_from_slice(&area[place..place + bytes]);
    };
    for slot in (0..slots).filter(|slot| log.map >> slot & 1 == 1) {
        keep((slot * slot_bytes) as usize, log.numbers.digest_bytes);
    }
    for line in &log.lines {
        keep(line.place, line.bytes.len());
    }
    alone
}

/// The record without what depends on the edition's sizes.
fn of_either(record: Record) -> Record {
    Record {
        edition: Edition::FIRST,
        end: 0,
        present_bytes: [0; 32],
        ..record
    }
}

/// Both images recover alike with any index, their keys read alike, and the way back gives the log again.
fn check_pair(rng: &mut Rng, slots: u32, slot_bytes: u32, source: &[u8], target: &[u8]) {
    let log = log(slots, slot_bytes, source).expect("a log");
    let order = rng.order(slots);
    for cells in [16, rng.within(16, 4096) as usize, 4096] {
        let mut indices = [vec![1; cells], vec![2; cells]];
        let [index, other_index] = &mut indices;
        let one = recover(slots, slot_bytes, source, index, &order);
        let other = recover(slots, slot_bytes, target, other_index, &order);
        assert_eq!(other.map(of_either), one.map(of_either));
        let (Ok(one), Ok(other)) = (one, other) else {
            assert_eq!(one, Err(Refusal::TooManyKeys));
            continue;
        };
        assert_eq!(one.edition.0 + other.edition.0, 3);
        for line in &log.lines {
            let version = |record, area, index| {
                let found = read(record, area, index, Tables::ALL, line.key);
                found.map(|found| found.version)
            };
            assert_eq!(
                version(&other, target, other_index),
                version(&one, source, index)
            );
            assert_eq!(
                read_value(&other, target, other_index, Tables::ALL, line.key),
                read_value(&one, source, index, Tables::ALL, line.key)
            );
        }
    }
    let back = told(slots, slot_bytes, target, target.len());
    assert!(back == Ok(log_alone(slots, slot_bytes, source)));
}

/// A digest of the first or second edition.
fn digest(edition: usize, number: u8, map: u8, next: u64) -> Vec<u8> {
    let (kind, width) = [(5, 4), (8, 8)][edition - 1];
    let mut bytes = vec![kind, number, 0, 0, 0, map, 0, 0, 0];
    bytes.extend(&next.to_le_bytes()[..width]);
    bytes
}

/// An object with a value of so many bytes, or a tombstone for 0.
fn entry(edition: usize, key: Key, version: u64, bytes: usize) -> Vec<u8> {
    let kinds = [[4, 1, 2, 3, 7], [13, 9, 10, 11, 12]][edition - 1];
    let place = [0, 8, 24, 56, 120].iter().position(|&one| one == bytes);
    let mut entry = vec![kinds[place.expect("a length")]];
    entry.extend(key.stored());
    entry.extend(&version.to_le_bytes()[..4 * edition]);
    entry.extend((0..bytes as u8).map(|byte| byte ^ 0xC3));
    entry
}

/// Four slots that begin with these bytes, and go on with others.
fn area(slot_bytes: usize, rest: u8, slots: [&[Vec<u8>]; 4]) -> Vec<u8> {
    let mut area = vec![rest; 4 * slot_bytes];
    for (slot, parts) in slots.into_iter().enumerate() {
        let bytes = parts.concat();
        area[slot * slot_bytes..][..bytes.len()].copy_from_slice(&bytes);
    }
    area
}

/// Slot 2 and the head, slot 1, with every kind of entry. The digests differ in all fields. Slot 0 is free and has a digest
/// of the other edition; slot 3 is free and has none. Other bytes are not 0, but for those that end the entries.
fn image(edition: usize) -> Vec<u8> {
    let end = vec![0];
    let stale = [
        digest(3 - edition, 3, 9, 5),
        entry(3 - edition, KEY, 77, 24),
        end.clone(),
    ];
    let head = [
        digest(edition, 200, 6, 60_000),
        entry(edition, KEY, 258, 120),
        entry(edition, OTHER, 3, 0),
        entry(edition, KEY, 7, 8),
        end.clone(),
    ];
    let older = [
        digest(edition, 9, 1, 4),
        entry(edition, OTHER, 2, 56),
        entry(edition, KEY, 70_000, 24),
        end,
    ];
    area(256, 0xEE, [&stale, &head, &older, &[]])
}

/// Every byte: the digests of log slots keep their fields, entries their order, and all else is 0.
#[test]
fn every_byte() {
    for edition in [1, 2] {
        let other = 3 - edition;
        let expected = area(
            256,
            0,
            [
                &[],
                &[
                    digest(other, 200, 6, 60_000),
                    entry(other, KEY, 258, 120),
                    entry(other, OTHER, 3, 0),
                    entry(other, KEY, 7, 8),
                ],
                &[
                    digest(other, 9, 1, 4),
                    entry(other, OTHER, 2, 56),
                    entry(other, KEY, 70_000, 24),
                ],
                &[],
            ],
        );
        assert_eq!(converted(&image(edition)), Ok(expected));
        let up_and_down = converted(&converted(&image(edition)).unwrap());
        assert_eq!(up_and_down, Ok(log_alone(4, 256, &image(edition))));
    }
}

/// Digest fields of an older slot are kept, whatever they are; its scan does not need them.
#[test]
fn fields_of_older_digests() {
    for edition in [1, 2] {
        let mut image = image(edition);
        image[513..521].copy_from_slice(&[1, 2, 0, 0, 0xFF, 0xFF, 0xFF, 0xFF]);
        image[521..525].fill(0);
        image[257..261].fill(0xFF);
        let target = converted(&image).unwrap();
        assert_eq!(target[513..521], image[513..521]);
        assert!(target[521..521 + 4 * (3 - edition)]
            .iter()
            .all(|&byte| byte == 0));
        assert_eq!(target[257..261], [0xFF; 4]);
    }
}

/// An edition 1 slot with these bytes of values, which takes so many bytes in edition 2.
fn entries(first_version: u64, values: &[usize]) -> (Vec<Vec<u8>>, usize) {
    let versions = first_version..;
    let entries: Vec<Vec<u8>> = versions
        .zip(values)
        .map(|(version, &bytes)| entry(1, KEY, version, bytes))
        .collect();
    let length = 17 + values.iter().map(|bytes| 15 + bytes).sum::<usize>();
    (entries, length)
}

/// Entries that fill a slot of the second edition to its last byte are converted; one byte less is 29, in the head and in
/// any other slot of the log, and in no free one.
#[test]
fn slots_too_long() {
    for values in [
        &[120, 120][..],
        &[56, 56, 56, 24],
        &[0; 16],
        &[8; 12],
        &[120, 56, 0, 24],
    ] {
        let (full, length) = entries(1, values);
        let (few, _) = entries(1000, &[8]);
        for (slot_bytes, fits) in [(length, true), (length - 1, false)] {
            let with = |map, head: &[Vec<u8>], older: &[Vec<u8>]| {
                let head = [vec![digest(1, 2, map, 1)], head.to_vec()].concat();
                let older = [vec![digest(1, 1, 1, 1)], older.to_vec()].concat();
                area(slot_bytes, 0, [&older, &[], &[], &head])
            };
            let answer = |area: &[u8]| converted(area).map(|_| ());
            let owed = if fits { Ok(()) } else { Err(29) };
            assert_eq!(answer(&with(9, &full, &few)), owed, "{values:?}");
            assert_eq!(answer(&with(9, &few, &full)), owed, "{values:?}");
            assert_eq!(answer(&with(8, &few, &full)), Ok(()), "{values:?}");
        }
    }
}

/// The head in slot 1 and slot 2 in the log, of edition 2, with these next versions and one entry each; slot 0 is free.
fn wide(next: [u64; 3], versions: [u64; 3]) -> Vec<u8> {
    let slot = |place: usize, number, map| {
        [
            digest(2, number, map, next[place]),
            entry(2, KEY, versions[place], 8),
        ]
    };
    area(
        256,
        0,
        [&slot(0, 1, 1), &slot(1, 9, 6), &slot(2, 2, 1), &[]],
    )
}

/// A version up to the first edition's last is converted, and so is a next version one above it; further ones are 30, in the
/// head and in an older slot, and not in a free one.
#[test]
fn versions_too_wide() {
    let answer = |next, versions| converted(&wide(next, versions)).map(|_| ());
    assert_eq!(answer([1; 3], [5, 6, 7]), Ok(()));
    for place in [1, 2] {
        for (version, owed) in [
            (LAST, Ok(())),
            (SPENT, Err(30)),
            (SPENT + 1, Err(30)),
            (5 << 32 | 8, Err(30)),
            (u64::MAX - 1, Err(30)),
        ] {
            let mut versions = [5, 6, 7];
            versions[place] = version;
            assert_eq!(answer([1; 3], versions), owed, "version {version}");
        }
        for (next, owed) in [
            (LAST, Ok(())),
            (SPENT, Ok(())),
            (SPENT + 1, Err(30)),
            (5 << 32 | 8, Err(30)),
            (u64::MAX, Err(30)),
        ] {
            let mut fields = [1; 3];
            fields[place] = next;
            assert_eq!(answer(fields, [5, 6, 7]), owed, "next version {next}");
        }
    }
    assert_eq!(answer([u64::MAX, 1, 1], [u64::MAX - 1, 6, 7]), Ok(()));
    // A next version of 0 is kept in an older slot, and is 17 in the head.
    assert_eq!(answer([1, 1, 0], [5, 6, 7]), Ok(()));
    assert_eq!(answer([1, 0, 1], [5, 6, 7]), Err(17));
    // The limits of edition 2 are no limits of edition 1's: upwards every version has room.
    let head = [digest(1, 1, 1, SPENT), entry(1, KEY, LAST, 8)];
    assert!(converted(&area(256, 0, [&head, &[], &[], &[]])).is_ok());
}

/// Bytes of the image with others in their place.
fn with(mut area: Vec<u8>, changes: &[(usize, u8)]) -> Vec<u8> {
    for &(place, byte) in changes {
        area[place] = byte;
    }
    area
}

/// 1, 16, 17, 24, 25, 28, 18, 19, and 29 or 30: of several faults the one that stands first. 29 is met upwards alone and 30
/// downwards, so that no image has both.
#[test]
fn causes_in_order() {
    let (full, length) = entries(1, &[120, 120]);
    let few = [digest(1, 2, 3, 1), entry(1, OTHER, 9, 8)];
    let long = area(
        length - 1,
        0,
        [&few, &[vec![digest(1, 9, 3, 1)], full].concat(), &[], &[]],
    );
    let too_wide = {
        let few = [digest(2, 2, 3, 1), entry(2, OTHER, 9, 8)];
        let head = [digest(2, 9, 3, SPENT + 1), entry(2, KEY, 1 << 40, 8)];
        area(256, 0, [&few, &head, &[], &[]])
    };
    for (image, own, cause) in [(&long, 5, 29), (&too_wide, 8, 30)] {
        let size = image.len() / 4;
        let start = if own == 5 { 13 } else { 17 };
        let shares: Vec<(usize, u8)> = (0..8)
            .take(if own == 5 { 4 } else { 8 })
            .map(|byte| (start + 7 + byte, image[size + start + 7 + byte]))
            .collect();
        let damage = (start, 99);
        let mixed = (0, 13 - own);
        let none = (0, 77);
        let full_map = (size + 5, 0x0F);
        let shared = (1, 9);
        let answer = |changes: &[(usize, u8)]| {
            let changed = with(image.clone(), &[&shares[..], changes].concat());
            converted(&changed).map(|_| ())
        };
        assert_eq!(converted(image).map(|_| ()), Err(cause));
        assert_eq!(answer(&[]), Err(19));
        assert_eq!(answer(&[damage]), Err(18));
        assert_eq!(answer(&[damage, mixed]), Err(28));
        assert_eq!(answer(&[damage, none]), Err(25));
        assert_eq!(answer(&[damage, none, full_map]), Err(24));
        assert_eq!(answer(&[damage, mixed, full_map, shared]), Err(17));
        assert_eq!(answer(&[none, (size, 0)]), Err(16));
        let changed = with(image.clone(), &[none, (size, 0)]);
        let short = told(4, size as u32, &changed, image.len() - 1);
        assert_eq!(short, Err(1));
    }
}

/// N, S and both lengths are 1, whatever the bytes are.
#[test]
fn geometry() {
    for image in [image(1), image(2), vec![0; 1024]] {
        for (source, target) in [
            (1024, 1023),
            (1024, 1025),
            (1024, 0),
            (1023, 1024),
            (0, 1024),
            (1023, 1023),
            (0, 0),
        ] {
            assert_eq!(told(4, 256, &image[..source], target), Err(1));
        }
        let longer = [&image[..], &[0]].concat();
        assert_eq!(told(4, 256, &longer, 1024), Err(1));
        assert_eq!(told(4, 256, &longer, 1025), Err(1));
        assert_eq!(told(4, 257, &image, 1028), Err(1));
        assert_eq!(told(5, 256, &image, 1280), Err(1));
        for (slots, slot_bytes) in [
            (0, 0),
            (0, 256),
            (3, 256),
            (4, 255),
            (33, 256),
            (4, 2049),
            (8, 128),
            (2, 512),
        ] {
            let bytes = (slots * slot_bytes) as usize;
            let source: Vec<u8> = image.iter().copied().cycle().take(bytes).collect();
            assert_eq!(told(slots, slot_bytes, &source, bytes), Err(1));
        }
        for (slots, slot_bytes) in [(u32::MAX, u32::MAX), (1 << 31, 2), (65536, 65536)] {
            assert_eq!(told(slots, slot_bytes, &image, 1024), Err(1));
            assert_eq!(told(slots, slot_bytes, &[], 0), Err(1));
        }
    }
}

/// What 20 would say does not matter: more keys than any index takes are converted.
#[test]
fn more_keys_than_cells() {
    let source = many_tombstones(135);
    let target = told(32, 2048, &source, source.len()).unwrap();
    let order: Vec<u8> = (0..32).collect();
    for area in [&source, &target] {
        let answer = recover(32, 2048, area, &mut [0; 4096], &order);
        assert_eq!(answer, Err(Refusal::TooManyKeys));
    }
    check_pair(&mut Rng::new(5), 32, 2048, &source, &target);
}

/// Converts an image, and counts the answer.
fn check_image(rng: &mut Rng, image: &Image, met: &mut [u32; 31]) {
    let (slots, slot_bytes, source) = (image.slots, image.slot_bytes, &image.area);
    let told = told(slots, slot_bytes, source, source.len());
    met[*told.as_ref().err().unwrap_or(&0) as usize] += 1;
    if let Ok(target) = told {
        check_pair(rng, slots, slot_bytes, source, &target);
    }
}

/// Images valid and damaged, of both editions.
#[test]
fn images() {
    let mut rng = Rng::new(121);
    let mut met = [0; 31];
    for _ in 0..4000 {
        let edition = *rng.pick(&Edition::ALL);
        let mut shape = Shape::random(&mut rng, edition);
        shape.slot_bytes = shape.slot_bytes.min(800);
        let mut image = shape.make(&mut rng);
        check_image(&mut rng, &image, &mut met);
        for _ in 0..rng.within(1, 3) {
            image.damage(&mut rng);
        }
        check_image(&mut rng, &image, &mut met);
    }
    println!("{met:?}");
    for cause in [0, 17, 18, 19, 24, 25, 28, 29, 30] {
        assert!(met[cause] > 10, "{cause}: {met:?}");
    }
}

/// Histories that are converted now and then, also during an operation: the store of the other edition is what the book says,
/// and goes on.
#[test]
fn histories() {
    let mut rng = Rng::new(122);
    let mut met = [0; 31];
    for round in 0..60 {
        let (slots, slot_bytes) = (rng.within(4, 7), rng.within(256, 600));
        let edition = Edition::ALL[round % 2];
        let junk = vec![rng.bits() as u8; (slots * slot_bytes) as usize];
        let mut rig = Rig::<AsWritten>::of(edition, slots, slot_bytes, 64, junk);
        rig.keys = (0..20).map(|_| calls::any_key(&mut rng)).collect();
        rig.strict = true;
        for _ in 0..40 {
            let operation = calls::operation(&mut rng, &rig.keys, rig.record(), 6);
            let started = rig.start(&operation).unwrap();
            if started.is_ok() && rng.one_in(4) {
                let left = rig.record().pending.left();
                for _ in 0..rng.below(left) {
                    rig.step().unwrap().unwrap();
                }
                cross_over(&mut rng, &mut rig, &mut met);
                continue;
            }
            rig.finish().unwrap();
            if rng.one_in(8) {
                cross_over(&mut rng, &mut rig, &mut met);
            }
        }
    }
    println!("{met:?}");
    assert!(met[0] > 200 && met[29] > 20, "{met:?}");
}

/// After a cut the store goes on in the other edition, if it has room there, and otherwise in its own.
fn cross_over(rng: &mut Rng, rig: &mut Rig<AsWritten>, met: &mut [u32; 31]) {
    let (slots, slot_bytes) = (rig.slots, rig.slot_bytes);
    let told = told(slots, slot_bytes, &rig.area, rig.area.len());
    met[*told.as_ref().err().unwrap_or(&0) as usize] += 1;
    rig.cut();
    if let Ok(target) = told {
        check_pair(rng, slots, slot_bytes, &rig.area, &target);
        rig.area = target;
    }
    let order = rng.order(slots);
    rig.must_recover(&order)
        .unwrap_or_else(|fault| panic!("{fault}\n{}", rig.history()));
}
