//! Stores that are full of entries (02, R-4): every key can still be deleted, with a cut after every store, until
//! nothing is left.

use reference::book::Operation;
use reference::rng::Rng;
use reference::rules::AsWritten;
use reference::testing::choices::{Choice, A, B, ORDERS};
use reference::testing::full::{other, tight_slot, LENGTHS, SPREADS, TIGHT};
use reference::{Edition, Key, Pending, Record, Refusal, SlotMap, Version};

use crate::rig::Rig;
use crate::short_histories::{cut_everywhere, Explorer};

/// A store of four slots that is filled with values of these lengths.
fn filled(
    edition: Edition,
    slot_bytes: u32,
    cells: usize,
    keys: &[Key],
    lengths: &[usize],
) -> Rig<AsWritten> {
    let area = vec![0xEE; 4 * slot_bytes as usize];
    let mut rig = Rig::of(edition, 4, slot_bytes, cells, area);
    rig.keys = keys.to_vec();
    rig.strict = true;
    rig.fill(lengths).unwrap();
    assert_eq!(rig.record().map.count(), 3);
    rig
}

/// A store of four slots, none of which has room for a tombstone.
fn tight_of(edition: Edition, keys: &[Key]) -> Rig<AsWritten> {
    let slot_bytes = tight_slot(edition);
    let rig = filled(edition, slot_bytes, 16, keys, &TIGHT);
    assert_eq!(rig.record().end, slot_bytes - 10);
    rig
}

/// One of the first edition.
fn tight(keys: &[Key]) -> Rig<AsWritten> {
    tight_of(Edition::FIRST, keys)
}

/// Deletes the keys one after another, cut before and after every store; tells how many of the deletes were done as a
/// cleaning.
fn delete_all(rig: &mut Rig<AsWritten>, keys: &[Key]) -> usize {
    let mut forgotten = 0;
    for &key in keys {
        let mut tried = rig.clone();
        tried.start(&Operation::Delete(key)).unwrap().unwrap();
        forgotten += usize::from(is_forget(tried.record()));
        cut_everywhere(rig, Choice::Delete(key), &ORDERS, |_| Ok(()))
            .unwrap_or_else(|(history, fault)| panic!("{fault} after\n{history}"));
        rig.check_book().unwrap();
    }
    forgotten
}

fn is_forget(record: Record) -> bool {
    matches!(record.pending, Pending::Forget { .. })
}

/// Nothing is left, and a write is accepted again, if need be after a cleaning, which then keeps nothing.
fn is_empty_again(rig: &mut Rig<AsWritten>) {
    assert!(rig.book.keys.is_empty());
    let mut cleaned = rig.clone();
    let all = Operation::Clean(rig.record().map);
    let digest = match rig.record().edition {
        Edition::SECOND => 17,
        _ => 13,
    };
    assert_eq!(cleaned.run(&all).unwrap(), Ok(digest + 2));
    let write = Operation::Write(A, vec![1; 120]);
    cleaned.run(&write).unwrap().unwrap();
    cleaned.check_book().unwrap();
    if let Err(refusal) = rig.run(&write).unwrap() {
        assert_eq!(refusal, Refusal::SlotsFull);
    }
}

/// Every key that is present, in this order and in the opposite one.
fn both_ways(rig: &Rig<AsWritten>) -> [Vec<Key>; 2] {
    let keys: Vec<Key> = rig.book.keys.keys().copied().collect();
    [keys.clone(), keys.into_iter().rev().collect()]
}

#[test]
fn every_key_of_a_tight_store() {
    for (edition, spread) in Edition::ALL
        .into_iter()
        .flat_map(|edition| SPREADS.map(|spread| (edition, spread)))
    {
        let rig = tight_of(edition, &spread);
        for order in both_ways(&rig) {
            let mut rig = rig.clone();
            assert!(delete_all(&mut rig, &order) > 0);
            is_empty_again(&mut rig);
        }
    }
}

#[test]
fn every_key_of_stores_of_one_length() {
    let keys: Vec<Key> = (0..40).map(other).collect();
    for bytes in LENGTHS {
        for (edition, slot_bytes, used) in [
            (Edition::FIRST, 256, 40),
            (Edition::FIRST, 256, 3),
            (Edition::FIRST, 300, 17),
            (Edition::SECOND, 256, 40),
            (Edition::SECOND, 257, 3),
        ] {
            let rig = filled(edition, slot_bytes, 64, &keys[..used], &[bytes]);
            for order in both_ways(&rig) {
                let mut rig = rig.clone();
                delete_all(&mut rig, &order);
                is_empty_again(&mut rig);
            }
        }
    }
}

/// Full stores of many sizes and lengths, whose keys are deleted in any order.
#[test]
fn every_key_of_random_full_stores() {
    let mut forgotten = 0;
    for seed in 0..120 {
        let mut rng = Rng::new(seed);
        let slot_bytes = match rng.below(2) {
            0 => 256,
            _ => rng.within(256, 420),
        };
        let used = rng.within(2, 50);
        let keys: Vec<Key> = (0..used).map(other).collect();
        let lengths: Vec<usize> = (0..rng.within(1, 6)).map(|_| *rng.pick(&LENGTHS)).collect();
        let edition = Edition::ALL[(seed % 2) as usize];
        let mut rig = filled(edition, slot_bytes, 64, &keys, &lengths);
        let [mut order, _] = both_ways(&rig);
        for last in (1..order.len()).rev() {
            order.swap(last, rng.below(last as u32 + 1) as usize);
        }
        forgotten += delete_all(&mut rig, &order);
        is_empty_again(&mut rig);
    }
    assert!(forgotten > 150, "{forgotten}");
}

/// Every history of up to three operations from a tight store, cut after every store.
fn explore(spread: &[Key]) {
    for edition in Edition::ALL {
        explore_from(tight_of(edition, spread));
    }
}

fn explore_from(mut rig: Rig<AsWritten>) {
    rig.strict = false;
    rig.events.clear();
    let mut explorer = Explorer {
        choices: vec![
            Choice::Delete(A),
            Choice::Delete(B),
            Choice::Write(A, 8),
            Choice::CleanHead,
        ],
        histories: 0,
        switches: false,
    };
    if let Err((history, fault)) = explorer.explore(&rig, 3, false) {
        panic!("{fault} after\n{history}");
    }
    assert!(explorer.histories > 84);
}

#[test]
fn short_histories_with_every_object_live() {
    explore(&SPREADS[0]);
}

#[test]
fn short_histories_with_live_objects_in_the_head() {
    explore(&SPREADS[1]);
}

#[test]
fn short_histories_with_older_objects_beside() {
    explore(&SPREADS[2]);
}

#[test]
fn short_histories_with_older_objects_elsewhere() {
    explore(&SPREADS[3]);
}

/// What the work buffer holds after a start.
fn started(rig: &mut Rig<AsWritten>, key: Key) -> (u32, Vec<u8>) {
    let stores = rig.start(&Operation::Delete(key)).unwrap().unwrap();
    match rig.record().pending {
        Pending::Forget { length, .. } => (stores, rig.work[..length as usize].to_vec()),
        other => panic!("{other:?}"),
    }
}

/// The object of a slot at an offset, as it stands in the area.
fn entry(rig: &Rig<AsWritten>, slot: usize, offset: usize, bytes: usize) -> Vec<u8> {
    rig.area[slot * 256 + offset..][..11 + bytes].to_vec()
}

/// Nothing stands in the place of the only object of its key. The digest has the next version after the operation,
/// which no entry tells.
#[test]
fn nothing_stands_for_the_only_object() {
    let mut rig = tight(&SPREADS[0]);
    let kept = [entry(&rig, 1, 144, 56), entry(&rig, 1, 211, 24)];
    let (stores, work) = started(&mut rig, B);
    let digest = vec![5, 4, 0, 0, 0, 0b1101, 0, 0, 0, 11, 0, 0, 0];
    assert_eq!(work, [&digest[..], &kept[0], &kept[1]].concat());
    assert_eq!(stores, 13 + 67 + 35 + 2);
    rig.finish().unwrap();
    let record = rig.record();
    assert_eq!((record.head, record.map), (3, SlotMap(0b1101)));
    assert_eq!((record.next, record.keys), (Version(11), 8));
    rig.cut();
    rig.must_recover(&ORDERS[2]).unwrap();
    assert_eq!(rig.record().next, Version(11));
}

/// A tombstone stands where the live object stood, between the entries kept before and after it. Older objects of the
/// key in the victim go.
#[test]
fn a_tombstone_stands_in_the_place_of_the_live_object() {
    let mut rig = tight(&SPREADS[3]);
    // A has version 2 in slot 0, and its live object, version 7, is the first of slot 2, the head.
    let kept = [entry(&rig, 2, 144, 56), entry(&rig, 2, 211, 24)];
    let (stores, work) = started(&mut rig, A);
    let digest = vec![5, 4, 0, 0, 0, 0b1011, 0, 0, 0, 11, 0, 0, 0];
    let tombstone = vec![4, 0, 0, 0, 0, 0, 0, 10, 0, 0, 0];
    assert_eq!(work, [&digest[..], &tombstone, &kept[0], &kept[1]].concat());
    assert_eq!(stores, 13 + 11 + 67 + 35 + 2);
    rig.finish().unwrap();
    assert_eq!(rig.record().map, SlotMap(0b1011));

    let mut beside = tight(&SPREADS[2]);
    // A has versions 2 and 3 in slot 0 alone: both go with nothing in their place.
    let kept_b = entry(&beside, 1, 144, 56);
    let (_, work) = started(&mut beside, A);
    assert_eq!(work.len(), 13, "version 1 of B is not its live object");
    beside.must_recover(&ORDERS[0]).unwrap();
    // B has versions 4 and 6 in slot 1, and version 1 in slot 0.
    let (_, work) = started(&mut beside, B);
    let tombstone = vec![4, 0xFF, 0xFF, 0xFF, 0xFF, 0xFF, 0xFF, 10, 0, 0, 0];
    assert_eq!(work[13..], [kept_b, tombstone].concat());
    beside.finish().unwrap();
    beside.check_book().unwrap();
}

/// With two slots free, or with room in the head, a delete is what it was.
#[test]
fn with_room_a_tombstone_is_appended() {
    let mut rig = tight(&SPREADS[1]);
    assert_eq!(rig.run(&Operation::Clean(SlotMap(0b1))).unwrap(), Ok(15));
    rig.start(&Operation::Delete(A)).unwrap().unwrap();
    assert!(matches!(rig.record().pending, Pending::Append { .. }));
    rig.finish().unwrap();

    let mut two = Rig::<AsWritten>::new(5, 256, 16, vec![0; 5 * 256]);
    two.keys = SPREADS[0].to_vec();
    two.strict = true;
    for (key, bytes) in SPREADS[0].into_iter().zip(TIGHT.into_iter().cycle()) {
        two.run(&Operation::Write(key, vec![1; bytes]))
            .unwrap()
            .unwrap();
    }
    two.start(&Operation::Delete(B)).unwrap().unwrap();
    assert!(matches!(two.record().pending, Pending::NewHead { .. }));
}
