//! A store in service that is carried over to the second edition (02, R-13): the switch, old heads and new ones, what a
//! log of both editions refuses, whether the way over is open, and wrong readings of all this.

use reference::book::Operation;
use reference::recovery::recover_by;
use reference::rng::Rng;
use reference::rules::{AsWritten, Rules};
use reference::testing::choices::{Choice, A, B, ORDERS};
use reference::testing::forged;
use reference::testing::full::{other, SPREADS, TIGHT};
use reference::{convert, fewest, switch, Edition, Key, Record, Refusal, SlotMap, Version};

use crate::rig::{Fault, Rig};
use crate::short_histories::cut_everywhere;

/// The next version at which edition 1 has no version left.
const SPENT: u64 = 4_294_967_295;

/// A store of the first edition with these slots and this next version, held to the naive reading.
fn store_by<R: Rules>(slots: u32, slot_bytes: u32, next: u64) -> Rig<R> {
    let mut area = vec![0xEE; (slots * slot_bytes) as usize];
    reference::format(slots, slot_bytes, Edition::FIRST, &mut area).unwrap();
    area[9..13].copy_from_slice(&(next as u32).to_le_bytes());
    let mut rig = Rig::unrecovered(slots, slot_bytes, 1024, area);
    rig.book.next = Version(next);
    rig.strict = true;
    rig.must_recover(&rig.ascending()).unwrap();
    rig
}

fn store(slots: u32, slot_bytes: u32) -> Rig<AsWritten> {
    store_by(slots, slot_bytes, 1)
}

/// Four slots of 256 bytes, three of them full but for ten bytes, with this next version once they are.
fn tight_by<R: Rules>(keys: &[Key], next: u64) -> Rig<R> {
    let mut rig = store_by(4, 256, next - 9);
    rig.keys = keys.to_vec();
    rig.fill(&TIGHT).unwrap();
    assert_eq!((rig.record().end, rig.record().next), (246, Version(next)));
    rig
}

fn tight(keys: &[Key]) -> Rig<AsWritten> {
    tight_by(keys, 10)
}

fn write(key: Key, bytes: usize) -> Operation {
    Operation::Write(key, vec![0x11; bytes])
}

fn clean(slot: u32) -> Operation {
    Operation::Clean(SlotMap::EMPTY.with(slot))
}

/// Runs an operation; tells its stores, or the number that refuses it.
fn run<R: Rules>(rig: &mut Rig<R>, operation: &Operation) -> Result<u32, u32> {
    let answer = rig.run(operation).unwrap_or_else(|fault| panic!("{fault}"));
    answer.map_err(Refusal::number)
}

fn switched<R: Rules>(mut rig: Rig<R>) -> Rig<R> {
    rig.switch().unwrap().unwrap();
    rig
}

fn cut_and_recover(rig: &mut Rig<AsWritten>) {
    rig.cut();
    rig.must_recover(&rig.ascending()).unwrap();
}

/// The slots of the log that are of the first edition.
fn old_slots<R: Rules>(rig: &Rig<R>) -> Vec<u32> {
    let byte_0 = |slot: u32| rig.area[(slot * rig.slot_bytes) as usize];
    let slots = rig.record().map.slots();
    slots.filter(|&slot| byte_0(slot) == 5).collect()
}

/// 4 for any number out of range, then 5. The record alone is changed: its flag, once, and only under an old head.
#[test]
fn the_switch() {
    let mut rig = store(4, 256);
    let before = rig.record();
    let after = Record {
        switched: true,
        ..before
    };
    assert_eq!(switch(before), (after, Ok(())));
    assert_eq!(switch(after), (after, Ok(())));
    let mut rng = Rng::new(13);
    for genuine in [before, after] {
        for _ in 0..2000 {
            let record = forged::out_of_range(&mut rng, genuine);
            assert_eq!(switch(record), (record, Err(Refusal::Record)));
        }
    }
    rig.start(&write(A, 8)).unwrap().unwrap();
    let pending = rig.record();
    assert_eq!(switch(pending), (pending, Err(Refusal::Pending)));
    let unfit = Record { end: 12, ..pending };
    assert_eq!(switch(unfit), (unfit, Err(Refusal::Record)));

    let second = Rig::<AsWritten>::of(Edition::SECOND, 4, 256, 16, vec![0; 1024]).record();
    assert_eq!((second.edition, second.switched), (Edition::SECOND, false));
    assert_eq!(switch(second), (second, Ok(())));
}

/// An old head takes appends; the first new head is of the second edition, and stays what recovery finds. Before it, a
/// recovery forgets the switch; a refused one does not.
#[test]
fn old_head_then_new_ones() {
    let mut rig = switched(store(4, 256));
    rig.keys = vec![A, B];
    assert_eq!(run(&mut rig, &write(A, 120)), Ok(132));
    assert_eq!(rig.area[13], 7);
    rig.recover(3, &ORDERS[0]).unwrap().unwrap_err();
    assert!(rig.record().switched);
    assert_eq!(run(&mut rig, &Operation::Delete(A)), Ok(12));
    assert_eq!(rig.area[144], 4);
    cut_and_recover(&mut rig);
    let record = rig.record();
    assert_eq!((record.edition, record.switched), (Edition::FIRST, false));

    let mut rig = switched(rig);
    assert_eq!(run(&mut rig, &write(B, 120)), Ok(17 + 135 + 2));
    assert_eq!((rig.area[256], rig.area[256 + 17]), (8, 12));
    let record = rig.record();
    assert_eq!((record.edition, record.switched), (Edition::SECOND, true));
    assert_eq!((record.end, record.present_bytes[1]), (152, 135));
    assert_eq!(run(&mut rig, &write(A, 8)), Ok(24));
    cut_and_recover(&mut rig);
    let record = rig.record();
    assert_eq!((record.edition, record.switched), (Edition::SECOND, false));
    // With or without the switch, a head of the second edition is followed by one of the second.
    for switch_again in [false, true] {
        let mut rig = rig.clone();
        if switch_again {
            rig.switch().unwrap().unwrap();
        }
        assert_eq!(run(&mut rig, &write(A, 120)), Ok(17 + 135 + 2));
        assert_eq!(rig.area[512], 8);
    }
}

/// Kept entries are rewritten, and count as many bytes as they take in their own slot.
#[test]
fn rewritten_entries() {
    let mut rig = store(4, 256);
    rig.keys = vec![A, B, other(1), other(2)];
    for (key, bytes) in [(A, 8), (B, 24), (other(1), 56), (other(2), 8)] {
        run(&mut rig, &write(key, bytes)).unwrap();
    }
    assert_eq!(rig.record().present_bytes[0], 19 + 35 + 67 + 19);
    let mut rig = switched(rig);
    assert_eq!(run(&mut rig, &clean(0)), Ok(17 + 23 + 39 + 71 + 23 + 2));
    let kinds = [0, 17, 40, 79, 150, 173].map(|offset| rig.area[256 + offset]);
    assert_eq!(kinds, [8, 9, 10, 11, 9, 0]);
    assert_eq!(rig.area[256 + 17 + 7..256 + 32], [1, 0, 0, 0, 0, 0, 0, 0]);
    assert_eq!(rig.record().present_bytes[..2], [0, 23 + 39 + 71 + 23]);
    assert_eq!(old_slots(&rig), []);
    cut_and_recover(&mut rig);
}

/// Past edition 1's versions an entry does not fit an old head: it needs a new one, for which a write needs two free slots.
/// Unswitched the store is at its end, and so it is at edition 2's limit once it is switched.
#[test]
fn versions_past_the_first_edition() {
    for past in [0, 1] {
        let mut rig = switched(store_by::<AsWritten>(4, 256, SPENT - 1 + past));
        rig.keys = vec![A, B];
        let (stores, head) = [(20, 0), (17 + 23 + 2, 1)][past as usize];
        assert_eq!(run(&mut rig, &write(A, 8)), Ok(stores));
        assert_eq!(rig.record().head, head);
        assert_eq!(rig.book.version(A), Version(SPENT - 1 + past));
        for version in SPENT + past..SPENT + 3 {
            run(&mut rig, &write(B, 8)).unwrap();
            assert_eq!(rig.book.version(B), Version(version));
        }
        cut_and_recover(&mut rig);
        assert_eq!(rig.record().next, Version(SPENT + 3));
    }
    let mut rig = store_by::<AsWritten>(4, 256, SPENT - 1);
    run(&mut rig, &write(A, 8)).unwrap();
    assert_eq!(run(&mut rig, &write(A, 8)), Err(9));
    assert_eq!(run(&mut rig, &Operation::Delete(A)), Err(9));
    // The switch gives versions again; the old head takes none of them, though it has room.
    let mut rig = switched(rig);
    assert_eq!(run(&mut rig, &Operation::Delete(A)), Ok(17 + 15 + 2));
    assert_eq!(rig.record().edition, Edition::SECOND);
}

/// With one slot free and no version left, an old head with room takes neither a write (12) nor a tombstone: the delete is
/// done as a cleaning, and its digest has the version after it.
#[test]
fn no_version_and_one_slot_free() {
    let keys: Vec<Key> = (0..5).map(other).collect();
    let mut rig = store_by::<AsWritten>(4, 256, SPENT - 5);
    rig.keys = keys.clone();
    for (&key, bytes) in keys.iter().zip([120, 56, 120, 120, 8]) {
        run(&mut rig, &write(key, bytes)).unwrap();
    }
    let record = rig.record();
    assert_eq!((record.map.count(), record.end), (3, 13 + 131 + 19));
    assert_eq!(run(&mut rig, &Operation::Delete(keys[0])), Err(9));
    let mut rig = switched(rig);
    assert_eq!(run(&mut rig, &write(keys[0], 8)), Err(12));
    let stores = run(&mut rig, &Operation::Delete(keys[0]));
    assert_eq!(stores, Ok(17 + 71 + 2));
    let head = (rig.record().head * 256) as usize;
    assert_eq!(rig.area[head + 9..head + 17], (SPENT + 1).to_le_bytes());
    cut_and_recover(&mut rig);
    assert_eq!(rig.record().next, Version(SPENT + 1));
}

/// 12 comes back to a full delete where its rewritten victim does not fit, and before 10; one old victim meets 14.
#[test]
fn rewritten_victim_too_long() {
    let keys: Vec<Key> = (0..36).map(other).collect();
    let mut rig = store(4, 256);
    rig.keys = keys.clone();
    for &key in &keys {
        run(&mut rig, &write(key, 8)).unwrap();
    }
    // Twelve objects fill a slot, and behind those of the head there is room for one tombstone.
    run(&mut rig, &Operation::Delete(keys[0])).unwrap();
    let delete = Operation::Delete(keys[30]);
    for (number, unswitched) in [(3, Ok(13 + 11 * 19 + 11 + 2)), (u32::MAX, Err(10))] {
        let mut rig = rig.clone();
        rig.area[513..517].copy_from_slice(&number.to_le_bytes());
        rig.must_recover(&ORDERS[0]).unwrap();
        assert_eq!(run(&mut rig.clone(), &delete), unswitched);
        let mut rig = switched(rig);
        assert_eq!(run(&mut rig, &delete), Err(12));
        assert_eq!(run(&mut rig, &write(keys[0], 8)), Err(12));
        for slot in 0..3 {
            assert_eq!(run(&mut rig, &clean(slot)), Err(14));
        }
    }
}

/// Three full slots of the first edition. The second has so many objects of 8 bytes besides the live one of the key, of
/// which an older one is in the first or none is.
fn full_around(key: Key, slot_bytes: u32, besides: u32, has_older: bool) -> Rig<AsWritten> {
    let mut rig = store(4, slot_bytes);
    rig.keys = vec![key];
    let filler = other(100);
    run(&mut rig, &write(if has_older { key } else { filler }, 8)).unwrap();
    while rig.record().end + 19 <= slot_bytes {
        run(&mut rig, &write(filler, 8)).unwrap();
    }
    for number in 0..besides {
        run(&mut rig, &write(other(number), 8)).unwrap();
    }
    run(&mut rig, &write(key, 8)).unwrap();
    assert_eq!(
        (rig.record().head, rig.record().end),
        (1, 13 + 19 * (besides + 1))
    );
    run(&mut rig, &write(filler, 120)).unwrap();
    while run(&mut rig, &write(other(101), 8)).is_ok() {}
    if rig.record().end + 11 <= slot_bytes {
        run(&mut rig, &Operation::Delete(other(101))).unwrap();
    }
    assert_eq!(rig.record().map, SlotMap(7));
    rig
}

/// 12 counts the rewritten entries, and the tombstone where one stands.
#[test]
fn full_delete_that_just_fits() {
    for (besides, has_older) in [(11, false), (10, true)] {
        let kept = 17 + besides * 23 + if has_older { 15 } else { 0 };
        for (slot_bytes, answer) in [
            (kept + 1, Ok(kept + 2)),
            (kept, Ok(kept + 1)),
            (kept - 1, Err(12)),
        ] {
            let mut rig = switched(full_around(A, slot_bytes, besides, has_older));
            assert_eq!(run(&mut rig, &Operation::Delete(A)), answer);
            assert_eq!(rig.record().edition.0, if answer.is_ok() { 2 } else { 1 });
            cut_and_recover(&mut rig);
        }
    }
}

/// The joining call counts sizes as the new head would have them.
#[test]
fn join_counts_rewritten_sizes() {
    for (slot_bytes, unswitched, told) in [
        (274, Err(23), Err(23)),
        (275, Ok((0, 1)), Err(23)),
        (286, Ok((0, 1)), Err(23)),
        (287, Ok((0, 1)), Ok((0, 1))),
    ] {
        let mut area = vec![0; 4 * slot_bytes as usize];
        for (slot, key) in [(0u8, A), (1, B)] {
            let digest = [5, slot + 1, 0, 0, 0, 3, 0, 0, 0, 1, 0, 0, 0];
            let leading = [&[7][..], &key.stored(), &[slot + 1, 0, 0, 0]].concat();
            let bytes = [&digest[..], &leading, &[0x11; 120]].concat();
            area[slot as usize * slot_bytes as usize..][..bytes.len()].copy_from_slice(&bytes);
        }
        let mut rig = Rig::<AsWritten>::unrecovered(4, slot_bytes, 16, area);
        rig.book.next = Version(3);
        rig.must_recover(&ORDERS[0]).unwrap();
        assert_eq!(rig.join().unwrap().map_err(Refusal::number), unswitched);
        let mut rig = switched(rig);
        assert_eq!(rig.join().unwrap().map_err(Refusal::number), told);
        let cleaned = run(&mut rig, &Operation::Clean(SlotMap(3)));
        assert_eq!(cleaned.is_ok(), told.is_ok());
    }
}

/// The bench's conversion refuses a log of both editions, whichever the head is of.
#[test]
fn no_conversion_on_the_way() {
    let mut rig = switched(tight(&SPREADS[0]));
    let mut target = vec![1; 1024];
    assert_eq!(
        convert(4, 256, &rig.area, &mut target),
        Err(Refusal::SlotTooLong)
    );
    run(&mut rig, &Operation::Delete(A)).unwrap();
    assert_eq!(old_slots(&rig).len(), 2);
    assert_eq!(
        convert(4, 256, &rig.area, &mut target),
        Err(Refusal::Editions)
    );
    assert_eq!(target, [1; 1024]);
}

/// Present bytes may reach S - 13 in an old slot under a new head.
#[test]
fn present_bytes_of_an_old_slot() {
    let mut rig = store(4, 275);
    rig.keys = vec![A, B];
    run(&mut rig, &write(A, 120)).unwrap();
    run(&mut rig, &write(B, 120)).unwrap();
    let mut rig = switched(rig);
    run(&mut rig, &write(other(1), 8)).unwrap();
    let record = rig.record();
    assert_eq!(record.edition, Edition::SECOND);
    assert_eq!(record.present_bytes[..2], [275 - 13, 23]);
    assert_eq!(fewest(&record), Ok(1));
    cut_and_recover(&mut rig);
}

/// Random operations on stores that were full of live objects when they were switched, with cuts: deletes meet 12, and cleanings
/// of one slot 14, as long as old slots are too full.
#[test]
fn switched_when_full() {
    let (mut deletes, mut cleanings, mut mixed) = (0, 0, 0);
    for seed in 0..120 {
        let mut rng = Rng::new(seed);
        let (slots, slot_bytes) = (rng.within(4, 6), rng.within(256, 300));
        let mut rig = store_by::<AsWritten>(slots, slot_bytes, *rng.pick(&[1, SPENT - 70]));
        rig.keys = (0..90).map(other).collect();
        let lengths = *rng.pick(&[&[8][..], &[8, 24], &[24]]);
        rig.fill(lengths).unwrap();
        for _ in 0..80 {
            if rng.one_in(8) {
                rig.cut();
                rig.must_recover(&rng.order(slots)).unwrap();
            }
            if !rig.record().switched && rng.one_in(2) {
                rig.switch().unwrap().unwrap();
            }
            let operation = match rng.below(4) {
                0 => clean(rng.below(slots)),
                1 => write(*rng.pick(&rig.keys), 8),
                _ => Operation::Delete(*rng.pick(&rig.keys)),
            };
            rig.join().unwrap().ok();
            match (&operation, run(&mut rig, &operation)) {
                (Operation::Delete(_), Err(12)) => deletes += 1,
                (Operation::Clean(_), Err(14)) => cleanings += 1,
                _ => {}
            }
            mixed +=
                u32::from(rig.record().edition == Edition::SECOND && !old_slots(&rig).is_empty());
        }
        rig.cut();
        rig.must_recover(&rng.order(slots)).unwrap();
    }
    println!("{deletes} deletes met 12, {cleanings} cleanings 14; {mixed} times both editions");
    assert!(deletes > 50 && cleanings > 50 && mixed > 500);
}

/// What a firmware asks before it switches for good: each slot of the log, cleaned alone, is accepted in a switched store, and
/// there is a digest number for each. A start stores nothing, and the recovery after it forgets start and switch.
fn way_is_open(rig: &mut Rig<AsWritten>) -> bool {
    let (before, area) = (rig.record(), rig.area.clone());
    assert_eq!(before.edition, Edition::FIRST);
    let fits = |slot| {
        rig.switch().unwrap().unwrap();
        let answer = rig.start(&clean(slot)).unwrap();
        rig.must_recover(&rig.ascending()).unwrap();
        answer.is_ok()
    };
    let fits: Vec<bool> = before.map.slots().map(fits).collect();
    assert_eq!((rig.record(), &rig.area), (before, &area));
    fits.into_iter().all(|fits| fits) && before.digest.0 <= u32::MAX - before.map.count()
}

/// Cleans the old slots one after the other; each cleaning is accepted, and none is left.
fn carry_over(rig: &mut Rig<AsWritten>) {
    for slot in old_slots(rig) {
        run(rig, &clean(slot)).unwrap();
        rig.check_book().unwrap();
    }
    assert_eq!(old_slots(rig), []);
}

/// Stores of any filling: where the way is open it leads to the end. Where it is not, an old slot mostly stays; it does not if
/// other cleanings take away what its tombstones stand for.
#[test]
fn open_and_closed_ways() {
    let (mut open, mut stayed) = (0, 0);
    for seed in 0..200 {
        let mut rng = Rng::new(seed);
        let (slots, slot_bytes) = (rng.within(4, 9), rng.within(256, 320));
        let mut rig = store(slots, slot_bytes);
        rig.keys = (0..60).map(other).collect();
        let lengths = *rng.pick(&[&[8, 24][..], &[120, 56], &[56, 8], &[24, 120, 8]]);
        for _ in 0..rng.within(1, 160) {
            let key = *rng.pick(&rig.keys);
            let operation = match rng.below(3) {
                0 => Operation::Delete(key),
                _ => write(key, *rng.pick(lengths)),
            };
            run(&mut rig, &operation).ok();
        }
        if rng.one_in(8) {
            let number = u32::MAX - rng.below(slots + 1);
            let at = (rig.record().head * slot_bytes) as usize + 1;
            rig.area[at..at + 4].copy_from_slice(&number.to_le_bytes());
            rig.must_recover(&rig.ascending()).unwrap();
        }
        if way_is_open(&mut rig) {
            open += 1;
            let mut rig = switched(rig);
            carry_over(&mut rig);
            cut_and_recover(&mut rig);
        } else {
            let mut rig = switched(rig);
            for slot in old_slots(&rig) {
                let answer = run(&mut rig, &clean(slot));
                assert!(matches!(answer, Ok(_) | Err(14 | 10)));
            }
            stayed += u32::from(!old_slots(&rig).is_empty());
        }
    }
    assert!(open > 20 && stayed > 20, "{open} open, {stayed} stayed");
}

/// Ten slots of the first edition, full of 24 keys each; the eleventh and the twelfth are free.
fn ten_full_slots() -> Rig<AsWritten> {
    let mut rig = store(12, 470);
    rig.strict = false;
    rig.keys = (0..240).map(other).collect();
    for key in rig.keys.clone() {
        run(&mut rig, &write(key, 8)).unwrap();
    }
    let record = rig.record();
    assert_eq!((record.map, record.end), (SlotMap(0x3FF), 469));
    assert_eq!(record.present_bytes[..10], [24 * 19; 10]);
    rig
}

/// These slots, switched, once keys of each are deleted: the tombstones fill a head of the second edition.
fn stuck() -> Rig<AsWritten> {
    let mut rig = switched(ten_full_slots());
    for key in rig.keys.clone().into_iter().filter(|key| key.key % 24 < 3) {
        run(&mut rig, &Operation::Delete(key)).unwrap();
    }
    let record = rig.record();
    assert_eq!((record.edition, record.head), (Edition::SECOND, 10));
    assert_eq!((record.map, record.end), (SlotMap(0x7FF), 17 + 30 * 15));
    rig
}

/// Nothing is accepted but a cleaning of the head alone.
fn is_stuck(rig: &Rig<AsWritten>) {
    let mut strict = rig.clone();
    strict.strict = true;
    assert_eq!(run(&mut strict, &write(other(0), 8)), Err(12));
    assert_eq!(run(&mut strict, &Operation::Delete(other(239))), Err(12));
    assert_eq!(strict.join().unwrap(), Err(Refusal::NoPair));
    let mut rig = rig.clone();
    for key in rig.keys.clone() {
        for bytes in [8, 24, 56, 120] {
            assert_eq!(run(&mut rig, &write(key, bytes)), Err(12));
        }
        let gone = !rig.book.keys.contains_key(&key);
        let cause = if gone { 8 } else { 12 };
        assert_eq!(run(&mut rig, &Operation::Delete(key)), Err(cause));
    }
    let (record, mut work) = (rig.record(), rig.work.clone());
    let head = SlotMap::EMPTY.with(record.head);
    for victims in (1..1 << 12).map(SlotMap) {
        if !victims.is_within(record.map) {
            continue;
        }
        let (_, answer) = reference::clean(record, &rig.area, &rig.index, &mut work, victims);
        let owed = match victims == head {
            true => Ok(17 + 30 * 15 + 2),
            false => Err(Refusal::KeptLength),
        };
        assert_eq!(answer, owed, "{:#b}", victims.0);
    }
}

/// A store that cannot go on, and how it is kept out of: it was known before the switch that its slots do not fit.
#[test]
fn a_store_that_cannot_go_on() {
    let mut rig = stuck();
    is_stuck(&rig);
    rig.cut();
    rig.must_recover(&rig.ascending()).unwrap();
    is_stuck(&rig);
    let head = rig.record().head;
    run(&mut rig, &clean(head)).unwrap();
    assert_eq!(rig.record().end, 17 + 30 * 15);
    is_stuck(&rig);
    assert!(!way_is_open(&mut ten_full_slots()));
}

/// The same ten slots, unswitched, can be thinned out until they fit, and then the way is open.
#[test]
fn room_made_before_the_switch() {
    let mut rig = ten_full_slots();
    for key in rig.keys.clone().into_iter().filter(|key| key.key % 24 < 5) {
        run(&mut rig, &Operation::Delete(key)).unwrap();
    }
    assert!(!way_is_open(&mut rig));
    // A cleaning of each slot drops the dead objects and with the last of them the tombstones.
    for slot in rig.record().map.slots().chain(rig.record().map.slots()) {
        if rig.record().map.has(slot) {
            run(&mut rig, &clean(slot)).unwrap();
        }
    }
    assert!(way_is_open(&mut rig));
    let mut rig = switched(rig);
    carry_over(&mut rig);
    cut_and_recover(&mut rig);
    assert_eq!(rig.book.keys.len(), 190);
}

/// A history that the right rules pass and wrong ones do not.
fn told(what: &str, right: Result<(), Fault>, wrong: Result<(), Fault>) {
    assert_eq!(right, Ok(()), "{what}");
    println!("{what}: {}", wrong.expect_err(what));
}

/// Fails unless a call is refused with this number.
fn refused<R: Rules>(rig: &mut Rig<R>, operation: &Operation, cause: u32) -> Result<(), Fault> {
    match rig.start(operation)?.map_err(Refusal::number) {
        Err(number) if number == cause => Ok(()),
        answer => Err(format!("{answer:?}, not {cause}")),
    }
}

/// A store that nobody has switched gets new heads of its own edition, also after a recovery.
#[test]
fn switch_kept_over_a_recovery() {
    struct Wrong;
    impl Rules for Wrong {
        const SWITCH_KEPT_OVER_RECOVERY: bool = true;
    }
    fn history<R: Rules>() -> Result<(), Fault> {
        let mut rig = Rig::<R>::new(4, 256, 16, vec![0; 1024]);
        rig.switch()?.ok();
        rig.must_recover(&ORDERS[0])?;
        for key in [A, B] {
            rig.run(&write(key, 120))?.ok();
        }
        match rig.area[256] {
            5 => Ok(()),
            byte => Err(format!("a new head of kind {byte}")),
        }
    }
    told("switch kept", history::<AsWritten>(), history::<Wrong>());
}

#[test]
fn switch_during_an_operation() {
    struct Wrong;
    impl Rules for Wrong {
        const SWITCH_WHILE_PENDING: bool = true;
    }
    // The start has laid a digest of the first edition, whose length the steps no longer believe.
    fn history<R: Rules>() -> Result<(), Fault> {
        let mut rig = Rig::<R>::new(4, 256, 16, vec![0; 1024]);
        rig.keys = vec![A, B];
        rig.run(&write(A, 120))?.ok();
        rig.start(&write(B, 120))?.ok();
        let (record, _) = reference::switching::switch_by::<R>(rig.record());
        rig.record = Some(record);
        rig.finish()?;
        rig.check_book()?;
        rig.must_recover(&ORDERS[0])
    }
    told("late switch", history::<AsWritten>(), history::<Wrong>());
}

/// An append past edition 1's versions into an old head: its version is one that no entry there may have.
#[test]
fn append_past_the_versions() {
    struct Wrong;
    impl Rules for Wrong {
        const APPEND_PAST_VERSIONS: bool = true;
    }
    fn history<R: Rules>() -> Result<(), Fault> {
        let mut rig = switched(store_by::<R>(4, 256, SPENT));
        rig.strict = false;
        rig.run(&write(A, 8))?.ok();
        rig.cut();
        rig.must_recover(&ORDERS[0])
    }
    told("append past", history::<AsWritten>(), history::<Wrong>());
}

/// Old bytes under a digest of the second edition are damage.
#[test]
fn old_bytes_copied() {
    struct Wrong;
    impl Rules for Wrong {
        const OLD_BYTES_COPIED: bool = true;
    }
    fn history<R: Rules>() -> Result<(), Fault> {
        let mut rig = Rig::<R>::new(4, 256, 16, vec![0; 1024]);
        rig.keys = vec![A];
        rig.run(&write(A, 8))?.ok();
        rig.switch()?.ok();
        cut_everywhere(&mut rig, Choice::CleanAll, &ORDERS[..1], |_| Ok(()))
            .map_err(|(_, fault)| fault)
    }
    told("old bytes", history::<AsWritten>(), history::<Wrong>());
}

/// A store of the first edition that is full of live objects but for one: none of its slots fits once it is rewritten.
fn full_of_old<R: Rules>() -> Result<Rig<R>, Fault> {
    let mut rig = Rig::<R>::new(4, 256, 64, vec![0; 1024]);
    rig.keys = (0..36).map(other).collect();
    rig.fill(&[8])?;
    rig.run(&Operation::Delete(other(0)))?.ok();
    Ok(rig)
}

/// A full delete is never refused with 14.
#[test]
fn full_delete_refused_as_a_cleaning() {
    struct Wrong;
    impl Rules for Wrong {
        const FULL_DELETE_MEETS_14: bool = true;
    }
    fn history<R: Rules>() -> Result<(), Fault> {
        let mut rig = full_of_old::<R>()?;
        rig.switch()?.ok();
        refused(&mut rig, &Operation::Delete(other(30)), 12)
    }
    told("14 of a delete", history::<AsWritten>(), history::<Wrong>());
}

/// Such a delete is refused with 12 though no digest number is left either.
#[test]
fn digest_numbers_before_room() {
    struct Wrong;
    impl Rules for Wrong {
        const DIGESTS_SPENT_BEFORE_ROOM: bool = true;
    }
    fn history<R: Rules>() -> Result<(), Fault> {
        let mut rig = full_of_old::<R>()?;
        let at = (rig.record().head * 256) as usize + 1;
        rig.area[at..at + 4].copy_from_slice(&u32::MAX.to_le_bytes());
        rig.must_recover(&ORDERS[0])?;
        rig.switch()?.ok();
        refused(&mut rig, &Operation::Delete(other(30)), 12)
    }
    told("10 before 12", history::<AsWritten>(), history::<Wrong>());
}

/// A store on its way over recovers.
#[test]
fn old_slot_under_a_new_head() {
    struct Wrong;
    impl Rules for Wrong {
        const EDITIONS_NEVER_MIXED: bool = true;
    }
    fn history<R: Rules>() -> Result<(), Fault> {
        let mut rig = Rig::<R>::new(4, 256, 16, vec![0; 1024]);
        rig.keys = vec![A, B];
        rig.run(&write(A, 120))?.ok();
        rig.switch()?.ok();
        rig.run(&write(B, 120))?.ok();
        rig.cut();
        rig.must_recover(&ORDERS[0])
    }
    told("28 on the way", history::<AsWritten>(), history::<Wrong>());
    // A slot of the second edition under a head of the first is 28 by either.
    let mut area = vec![0; 1024];
    area[..10].copy_from_slice(&[5, 2, 0, 0, 0, 3, 0, 0, 0, 1]);
    area[256..266].copy_from_slice(&[8, 1, 0, 0, 0, 2, 0, 0, 0, 1]);
    let refused = Err(Refusal::Editions);
    let order = &ORDERS[0];
    let right = recover_by::<AsWritten>(4, 256, &area, &mut [0; 16], order);
    let wrong = recover_by::<Wrong>(4, 256, &area, &mut [0; 16], order);
    assert_eq!((right, wrong), (refused, refused));
}
