//! The checker of the index rule takes every layout that the rule allows and no other.

use reference::book::Operation;
use reference::index::rule_holds;
use reference::rng::Rng;
use reference::rules::AsWritten;
use reference::{recover, Key, SlotMap};

use crate::rig::Rig;

/// Keys whose search starts at one cell of 16.
fn keys_from(home: u32, count: usize) -> Vec<Key> {
    (0..)
        .map(|key| Key { table: 2, key })
        .filter(|key| key.hash() % 16 == home)
        .take(count)
        .collect()
}

/// Three keys that start at the last cell, one at the first; one is deleted.
fn store() -> Rig<AsWritten> {
    let mut rig = Rig::new(4, 256, 16, vec![0; 1024]);
    rig.keys = keys_from(15, 3);
    rig.keys.extend(keys_from(0, 1));
    for &key in &rig.keys.clone() {
        rig.run(&Operation::Write(key, vec![1; 8]))
            .unwrap()
            .unwrap();
    }
    let gone = rig.keys[1];
    rig.run(&Operation::Delete(gone)).unwrap().unwrap();
    rig
}

fn holds(rig: &Rig<AsWritten>, index: &[u32]) -> bool {
    rule_holds(4, 256, rig.record().map, &rig.area, index)
}

#[test]
fn every_allowed_layout_is_taken() {
    let rig = store();
    let marks = [14, 1 + 13 + 4 * 19, 1 + 13 + 2 * 19, 1 + 13 + 3 * 19];
    let mut allowed = 0;
    let mut rng = Rng::new(8);
    for _ in 0..2000 {
        let mut index = [0; 16];
        let order = rng.order(4);
        for (cell, mark) in [15, 0, 1, 2].into_iter().zip(order) {
            index[cell] = marks[usize::from(mark)];
        }
        // Only the key that starts at cell 0 may not stand at cell 15.
        let is_allowed = index[15] != marks[3];
        assert_eq!(holds(&rig, &index), is_allowed, "{index:?}");
        allowed += u32::from(is_allowed);
    }
    assert!(allowed > 0);
}

#[test]
fn any_altered_cell_is_found() {
    let rig = store();
    assert!(holds(&rig, &rig.index));
    for cell in 0..16 {
        for mark in [0, 1, 14, 33, 90, 1024, u32::MAX] {
            let mut index = rig.index.clone();
            index[cell] = mark;
            assert_eq!(holds(&rig, &index), index == rig.index, "{index:?}");
        }
    }
    assert!(!holds(&rig, &[]));
    assert!(!rule_holds(4, 256, SlotMap(1), &[], &rig.index));
}

#[test]
fn the_order_of_recovery_decides_no_more_than_the_layout() {
    let mut rng = Rng::new(9);
    let mut rig = store();
    for round in 0..30 {
        let key = *rng.pick(&rig.keys);
        rig.run(&Operation::Write(key, vec![round; 56]))
            .unwrap()
            .ok();
        let victim = SlotMap(1 << rng.below(4));
        rig.run(&Operation::Clean(victim)).unwrap().ok();
        for _ in 0..8 {
            let mut index = vec![9; 16];
            let order = rng.order(4);
            let record = recover(4, 256, &rig.area, &mut index, &order);
            assert_eq!(record, Ok(rig.record()));
            assert!(holds(&rig, &index));
        }
    }
}
