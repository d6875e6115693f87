//! Which two slots to join (02, R-7).

use reference::book::Operation;
use reference::rng::Rng;
use reference::rules::AsWritten;
use reference::testing::images::Shape;
use reference::{join, recover, Edition, Key, Pending, Record, Refusal, SlotMap};

use crate::naive::view;
use crate::rig::Rig;

/// An entry to lay out: a key and the bytes of its value, none for a tombstone.
type Entry = (u32, Option<usize>);

fn object(key: u32, bytes: usize) -> Entry {
    (key, Some(bytes))
}

fn tombstone(key: u32) -> Entry {
    (key, None)
}

/// An area whose first slots are the log, the last of them the head, with these entries; versions go up as they stand.
fn area(slots: u32, slot_bytes: u32, log: &[&[Entry]]) -> Vec<u8> {
    let mut area = vec![0; (slots * slot_bytes) as usize];
    let map = (1u32 << log.len()) - 1;
    let mut version: u32 = 0;
    for (slot, entries) in log.iter().enumerate() {
        let mut bytes = vec![5, slot as u8 + 1, 0, 0, 0];
        bytes.extend(map.to_le_bytes());
        bytes.extend(1u32.to_le_bytes());
        for (key, value) in *entries {
            version += 1;
            bytes.push(match value {
                None => 4,
                Some(8) => 1,
                Some(24) => 2,
                Some(56) => 3,
                Some(_) => 7,
            });
            bytes.extend(7u16.to_le_bytes());
            bytes.extend(key.to_le_bytes());
            bytes.extend(version.to_le_bytes());
            bytes.extend(vec![0x11; value.unwrap_or(0)]);
        }
        area[slot * slot_bytes as usize..][..bytes.len()].copy_from_slice(&bytes);
    }
    area
}

/// What is told of a store, which must be what the naive reading tells.
fn told(slots: u32, slot_bytes: u32, log: &[&[Entry]]) -> Result<(u32, u32), u32> {
    let area = area(slots, slot_bytes, log);
    let order: Vec<u8> = (0..slots as u8).collect();
    let mut index = vec![0; 64];
    let record = recover(slots, slot_bytes, &area, &mut index, &order).unwrap();
    let told = join(&record, &area, &index).map_err(Refusal::number);
    let naive = view(slots, slot_bytes, &area, 64, &order).unwrap().join();
    assert_eq!(told, naive);
    told
}

/// The lower slot decides before the higher one: 0 and 3 come before 1 and 2.
#[test]
fn first_slot_decides_first() {
    let log: [&[Entry]; 4] = [
        &[object(1, 120), object(2, 56)],
        &[object(3, 56), object(4, 24), object(5, 8)],
        &[object(6, 56), object(7, 24), object(8, 8)],
        &[object(9, 24)],
    ];
    assert_eq!(told(5, 256, &log), Ok((0, 3)));
    // Without the last slot they are 1 and 2; the head is one of them.
    assert_eq!(told(5, 256, &log[..3]), Ok((1, 2)));
}

/// A slot that what is kept fills to the last byte is enough, and one byte less is not.
#[test]
fn exact_fit() {
    let log: [&[Entry]; 2] = [&[object(1, 120)], &[object(2, 120)]];
    assert_eq!(told(4, 275, &log), Ok((0, 1)));
    assert_eq!(told(4, 274, &log), Err(23));
}

/// A tombstone whose only object elsewhere is in the other slot goes with it; with a further object in a third slot it
/// stays. So what each keeps alone is not to be added up.
#[test]
fn tombstones_of_the_other_slot() {
    let older: &[Entry] = &[object(1, 8), object(2, 8), object(3, 8), object(4, 56)];
    let newer: &[Entry] = &[
        object(5, 120),
        object(6, 24),
        tombstone(1),
        tombstone(2),
        tombstone(3),
    ];
    assert_eq!(told(4, 256, &[older, newer]), Ok((0, 1)));
    assert_eq!(told(4, 256, &[newer, older]), Err(23), "not deleted");
    // Two of the three have an object in a third slot too: 67 + 131 + 35 + 22 do not fit 243.
    let third: &[Entry] = &[object(1, 8), object(2, 8), object(7, 120), object(8, 56)];
    assert_eq!(told(4, 256, &[third, older, newer]), Err(23));
    // One of them: 67 + 131 + 35 + 11 do not fit by a byte, and do with 8 bytes less.
    let third: &[Entry] = &[object(1, 8), object(7, 120), object(8, 56)];
    assert_eq!(told(4, 256, &[third, older, newer]), Err(23));
    assert_eq!(told(4, 257, &[third, older, newer]), Ok((1, 2)));
}

/// Older objects and tombstones that an older tombstone or a newer object makes nothing of are not kept.
#[test]
fn what_no_longer_counts() {
    let first: &[Entry] = &[object(1, 120), tombstone(1), object(2, 56)];
    let second: &[Entry] = &[object(1, 56), object(2, 120), object(3, 24)];
    assert_eq!(told(4, 256, &[first, second]), Ok((0, 1)));
}

#[test]
fn fewer_than_two_slots() {
    assert_eq!(told(4, 256, &[&[]]), Err(23));
    assert_eq!(told(4, 256, &[&[object(1, 8)]]), Err(23));
    assert_eq!(told(4, 256, &[&[], &[]]), Ok((0, 1)));
}

fn key(key: u32) -> Key {
    Key { table: 7, key }
}

/// A store of four slots of 256 bytes, three of them used, whose head is full, and which has one pair.
fn full() -> Rig<AsWritten> {
    let mut rig = Rig::new(4, 256, 16, vec![0xEE; 1024]);
    rig.strict = true;
    for number in [0, 1, 2, 0, 3, 4, 0, 1, 3] {
        let bytes = if number == 4 { 24 } else { 56 };
        rig.run(&Operation::Write(key(number), vec![1; bytes]))
            .unwrap()
            .expect("accepted");
    }
    rig
}

/// 4 before 5, 5 before 23. The digest number plays no part.
#[test]
fn causes_in_order() {
    let mut rig = full();
    let write = Operation::Write(key(5), vec![2; 120]);
    assert_eq!(rig.run(&write).unwrap(), Err(Refusal::SlotsFull));
    assert_eq!(rig.join().unwrap(), Ok((0, 1)));
    let genuine = rig.record();
    let with = |change: fn(&mut Record), area: usize, cells: usize| {
        let mut record = genuine;
        change(&mut record);
        join(&record, &rig.area[..area], &rig.index[..cells])
    };
    assert_eq!(with(|_| (), 1024, 16), Ok((0, 1)));
    assert_eq!(
        with(|record| record.digest.0 = u32::MAX, 1024, 16),
        Ok((0, 1))
    );
    let pending = |record: &mut Record| {
        record.pending = Pending::Append {
            length: 19,
            left: 20,
        }
    };
    assert_eq!(with(pending, 1024, 16), Err(Refusal::Pending));
    assert_eq!(with(pending, 1023, 16), Err(Refusal::Record));
    assert_eq!(with(pending, 1024, 15), Err(Refusal::Record));
    assert_eq!(
        with(|record| record.keys = 16, 1024, 16),
        Err(Refusal::Record)
    );
    rig.start(&Operation::Clean(SlotMap(1))).unwrap().unwrap();
    assert_eq!(rig.join().unwrap(), Err(Refusal::Pending));
}

/// The write that met 12 is accepted after the join, at the highest digest number that leaves room for both, and
/// refused with 10 at the next.
#[test]
fn write_after_a_join() {
    for (number, answer) in [
        (u32::MAX - 2, Ok(146)),
        (u32::MAX - 1, Err(Refusal::DigestsSpent)),
    ] {
        let mut rig = full();
        let head = (rig.record().head * 256) as usize;
        rig.area[head + 1..head + 5].copy_from_slice(&number.to_le_bytes());
        rig.must_recover(&[0, 1, 2, 3]).unwrap();
        let write = Operation::Write(key(5), vec![2; 120]);
        assert_eq!(rig.run(&write).unwrap(), Err(Refusal::SlotsFull));
        let (first, second) = rig.join().unwrap().unwrap();
        let clean = Operation::Clean(SlotMap(1 << first | 1 << second));
        rig.run(&clean).unwrap().expect("accepted");
        assert_eq!(rig.run(&write).unwrap(), answer);
    }
}

/// Images of every kind, with many tombstones: the pair is the naive one.
#[test]
fn random_images() {
    let mut rng = Rng::new(77);
    let (mut pairs, mut none) = (0, 0);
    for _ in 0..1500 {
        let edition = *rng.pick(&Edition::ALL);
        let mut shape = Shape::random(&mut rng, edition);
        shape.slots = rng.within(4, 9);
        shape.slot_bytes = rng.within(256, 420);
        shape.keys = *rng.pick(&[3, 15, 40, 90]);
        let image = shape.make(&mut rng);
        let order = rng.order(image.slots);
        let (slots, slot_bytes) = (image.slots, image.slot_bytes);
        let mut index = vec![0; 128];
        let Ok(record) = recover(slots, slot_bytes, &image.area, &mut index, &order) else {
            continue;
        };
        let told = join(&record, &image.area, &index).map_err(Refusal::number);
        let naive = view(slots, slot_bytes, &image.area, 128, &order);
        assert_eq!(told, naive.unwrap().join());
        pairs += u32::from(told.is_ok());
        none += u32::from(told.is_err());
    }
    println!("{pairs} pairs, {none} images without");
    assert!(pairs > 100 && none > 50, "{pairs} {none}");
}
