//! Stores in service that are carried over to the second edition (02, R-13), side by side: full ones, with a cut after every
//! store; ways over that are open, and one that is not; and a store that cannot go on.

use compare::pair::Pair;
use compare::Fault;
use reference::book::Operation;
use reference::rng::Rng;
use reference::testing::choices::ORDERS;
use reference::testing::full::other;
use reference::{Edition, Key, SlotMap, Version};

fn must<T>(pair: &mut Pair, done: Result<T, Fault>) -> T {
    done.unwrap_or_else(|fault| panic!("{fault} after\n{}", pair.history()))
}

fn write(key: Key, bytes: usize) -> Operation {
    Operation::Write(key, vec![0x11; bytes])
}

fn clean(slot: u32) -> Operation {
    Operation::Clean(SlotMap::EMPTY.with(slot))
}

/// Starts an operation and, if it is accepted, makes all its stores.
fn run(pair: &mut Pair, operation: &Operation) -> Result<Result<u32, u32>, Fault> {
    let answer = pair.begin(operation)?;
    pair.finish()?;
    Ok(answer)
}

/// The same, cut before and after every store, and with every key read.
fn run_cut(
    pair: &mut Pair,
    operation: &Operation,
    keys: &[Key],
) -> Result<Result<u32, u32>, Fault> {
    let answer = pair.begin(operation)?;
    for done in 0..=answer.unwrap_or(0) {
        let mut copy = pair.clone();
        copy.cut();
        copy.must_recover(&ORDERS[done as usize % ORDERS.len()])?;
        for key in keys {
            let _ = copy.read(*key)?;
        }
        if done < answer.unwrap_or(0) {
            let _ = pair.step()?;
        }
    }
    Ok(answer)
}

/// Random operations on a store that was full of live objects when it was switched.
#[test]
fn switched_when_full() {
    let (mut deletes, mut cleanings, mut mixed) = (0, 0, 0);
    for seed in 0..300 {
        let mut rng = Rng::new(seed);
        let (slots, slot_bytes) = (rng.within(4, 6), rng.within(256, 300));
        let area = vec![0xEE; (slots * slot_bytes) as usize];
        let mut pair = Pair::unrecovered(slots, slot_bytes, 128, &area);
        let keys: Vec<Key> = (0..90).map(other).collect();
        let mut go = || -> Result<(), Fault> {
            let _ = pair.format(slots, slot_bytes, Edition::FIRST)?;
            let spent = u64::from(u32::MAX);
            pair.age_next(Version(*rng.pick(&[1, spent - 70, spent - 50])));
            pair.must_recover(&rng.order(slots))?;
            let lengths = *rng.pick(&[&[8][..], &[8, 24], &[24]]);
            pair.fill(&keys, lengths)?;
            for _ in 0..80 {
                if rng.one_in(8) {
                    pair.cut();
                    pair.must_recover(&rng.order(slots))?;
                }
                if rng.one_in(2) {
                    let _ = pair.switch()?;
                }
                let operation = match rng.below(4) {
                    0 => clean(rng.below(slots)),
                    1 => write(*rng.pick(&keys), *rng.pick(&[8, 24, 56])),
                    _ => Operation::Delete(*rng.pick(&keys)),
                };
                let _ = pair.join()?;
                match (&operation, run(&mut pair, &operation)?) {
                    (Operation::Delete(_), Err(12)) => deletes += 1,
                    (Operation::Clean(_), Err(14)) => cleanings += 1,
                    _ => {}
                }
                let is_mixed = pair.record().edition == Edition::SECOND;
                mixed += u32::from(is_mixed && !pair.old_slots().is_empty());
                let _ = pair.scan_in(reference::Tables::ALL, *rng.pick(&keys))?;
            }
            Ok(())
        };
        let done = go();
        must(&mut pair, done);
    }
    println!("{deletes} deletes met 12, {cleanings} cleanings 14; {mixed} times both editions");
    assert!(deletes > 100 && cleanings > 100 && mixed > 1000);
}

/// Whether each slot of the log, cleaned alone in a switched store, is accepted, as a firmware finds out: nothing is changed.
fn way_is_open(pair: &mut Pair) -> Result<bool, Fault> {
    let (before, area) = (pair.record(), pair.area().to_vec());
    let mut open = before.digest.0 <= u32::MAX - before.map.count();
    for slot in before.map.slots() {
        assert_eq!(pair.switch()?, Ok(()));
        open &= pair.begin(&clean(slot))?.is_ok();
        pair.must_recover(&pair.ascending())?;
    }
    assert_eq!((pair.record(), pair.area()), (before, &area[..]));
    Ok(open)
}

/// Cleans the old slots one after the other, each cut after every store; each cleaning is accepted.
fn carry_over(pair: &mut Pair, keys: &[Key]) -> Result<(), Fault> {
    assert_eq!(pair.switch()?, Ok(()));
    for slot in pair.old_slots() {
        if let Err(refusal) = run_cut(pair, &clean(slot), keys)? {
            return Err(format!("cleaning of slot {slot} refused: {refusal}"));
        }
    }
    assert_eq!(pair.old_slots(), []);
    Ok(())
}

/// Stores of any filling: where the way is open it leads to the end.
#[test]
fn open_ways() {
    let (mut open, mut closed) = (0, 0);
    for seed in 0..150 {
        let mut rng = Rng::new(seed);
        let (slots, slot_bytes) = (4, rng.within(256, 320));
        let area = vec![0xEE; (slots * slot_bytes) as usize];
        let pair = Pair::fresh(Edition::FIRST, slots, slot_bytes, 64, &area);
        let mut pair = pair.unwrap_or_else(|fault| panic!("{fault}"));
        let keys: Vec<Key> = (0..30).map(other).collect();
        let mut go = || -> Result<bool, Fault> {
            for _ in 0..rng.within(1, 60) {
                let key = *rng.pick(&keys);
                let operation = match rng.below(3) {
                    0 => Operation::Delete(key),
                    _ => write(key, *rng.pick(&[8, 24, 56, 120])),
                };
                let _ = run(&mut pair, &operation)?;
            }
            let is_open = way_is_open(&mut pair)?;
            if is_open {
                carry_over(&mut pair, &keys)?;
            }
            Ok(is_open)
        };
        let done = go();
        match must(&mut pair, done) {
            true => open += 1,
            false => closed += 1,
        }
    }
    println!("{open} ways open, {closed} not");
    assert!(open > 20 && closed > 5, "{open} {closed}");
}

/// Ten slots of the first edition, full of 24 keys each, and two free ones.
fn ten_full_slots() -> Result<(Pair, Vec<Key>), Fault> {
    let mut pair = Pair::fresh(Edition::FIRST, 12, 470, 512, &[0xEE; 12 * 470])?;
    let keys: Vec<Key> = (0..240).map(other).collect();
    for &key in &keys {
        let _ = run(&mut pair, &write(key, 8))?;
    }
    let record = pair.record();
    assert_eq!((record.map, record.end), (SlotMap(0x3FF), 469));
    Ok((pair, keys))
}

/// A store within the letter of the rules that cannot go on: once it is switched and three keys of each slot are deleted, every
/// write and delete is 12, the joining call 23, and every cleaning 14 but the head's own, which gains nothing.
#[test]
fn a_store_that_cannot_go_on() {
    let (mut pair, keys) = ten_full_slots().unwrap_or_else(|fault| panic!("{fault}"));
    let mut go = || -> Result<(), Fault> {
        assert!(!way_is_open(&mut pair)?);
        assert_eq!(pair.switch()?, Ok(()));
        for &key in keys.iter().filter(|key| key.key % 24 < 3) {
            assert!(run(&mut pair, &Operation::Delete(key))?.is_ok());
        }
        is_stuck(&mut pair, &keys)?;
        pair.cut();
        pair.must_recover(&pair.ascending())?;
        is_stuck(&mut pair, &keys)?;
        let head = pair.record().head;
        assert!(run(&mut pair, &clean(head))?.is_ok());
        is_stuck(&mut pair, &keys)
    };
    let done = go();
    must(&mut pair, done);
}

fn is_stuck(pair: &mut Pair, keys: &[Key]) -> Result<(), Fault> {
    let record = pair.record();
    assert_eq!((record.map.count(), record.end), (11, 17 + 30 * 15));
    for &key in keys {
        for bytes in [8, 24, 56, 120] {
            assert_eq!(pair.begin(&write(key, bytes))?, Err(12));
        }
        let cause = if pair.read(key)?.is_ok() { 12 } else { 8 };
        assert_eq!(pair.begin(&Operation::Delete(key))?, Err(cause));
    }
    assert_eq!(pair.join()?, Err(23));
    for victims in (1..1 << 12).map(SlotMap) {
        if victims.is_within(record.map) && victims != SlotMap::EMPTY.with(record.head) {
            assert_eq!(pair.begin(&Operation::Clean(victims))?, Err(14));
        }
    }
    let mut copy = pair.clone();
    assert_eq!(copy.begin(&clean(record.head))?, Ok(17 + 30 * 15 + 2));
    Ok(())
}

/// The same ten slots, unswitched, thinned out until they fit: the way is open, and leads to the end.
#[test]
fn room_made_before_the_switch() {
    let (mut pair, keys) = ten_full_slots().unwrap_or_else(|fault| panic!("{fault}"));
    let mut go = || -> Result<(), Fault> {
        for &key in keys.iter().filter(|key| key.key % 24 < 5) {
            assert!(run(&mut pair, &Operation::Delete(key))?.is_ok());
        }
        for slot in (0..12).chain(0..12) {
            if pair.record().map.has(slot) {
                assert!(run(&mut pair, &clean(slot))?.is_ok());
            }
        }
        assert!(way_is_open(&mut pair)?);
        assert_eq!(pair.switch()?, Ok(()));
        for slot in pair.old_slots() {
            assert!(run(&mut pair, &clean(slot))?.is_ok());
        }
        assert_eq!(pair.old_slots(), []);
        pair.cut();
        pair.must_recover(&pair.ascending())?;
        let present = keys.iter().filter(|key| pair.version(**key).0 > 0).count();
        assert_eq!(present, 190);
        Ok(())
    };
    let done = go();
    must(&mut pair, done);
}
