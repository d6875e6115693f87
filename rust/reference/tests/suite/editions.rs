//! The second edition (02, R-11): its bytes, sizes and limits, which digest is the head's where there are both kinds, and
//! 28 in the order of causes.

use reference::book::Operation;
use reference::recovery::recover_by;
use reference::rules::{AsWritten, Rules};
use reference::{
    dump, fewest, join, read, recover, scan_read, write_expecting, Edition, Key, Record, Refusal,
    SlotMap, Tables, Version,
};

use crate::rig::Rig;

const KEY: Key = Key { table: 7, key: 9 };
const OTHER: Key = Key { table: 7, key: 10 };
const ORDER: [u8; 4] = [0, 1, 2, 3];

/// The highest version and next version of each edition.
const LAST: [u64; 2] = [4_294_967_294, 18_446_744_073_709_551_614];
const SPENT: [u64; 2] = [4_294_967_295, 18_446_744_073_709_551_615];

/// A store of four slots of 256 bytes of the second edition, whose digest has this next version.
fn store(next: u64) -> Rig<AsWritten> {
    let mut rig = Rig::of(Edition::SECOND, 4, 256, 16, vec![0xEE; 1024]);
    rig.area[9..17].copy_from_slice(&next.to_le_bytes());
    rig.book.next = Version(next);
    rig.keys = vec![KEY, OTHER];
    rig.strict = true;
    rig.must_recover(&ORDER).unwrap();
    rig
}

fn write(key: Key, bytes: usize) -> Operation {
    Operation::Write(key, vec![0x11; bytes])
}

fn run(rig: &mut Rig<AsWritten>, operation: &Operation) -> Result<u32, Refusal> {
    rig.run(operation).unwrap_or_else(|fault| panic!("{fault}"))
}

/// A digest of the first or second edition.
fn digest(edition: u32, number: u8, map: u8, next: u64) -> Vec<u8> {
    let (kind, width) = [(5, 4), (8, 8)][edition as usize - 1];
    let mut bytes = vec![kind, number, 0, 0, 0, map, 0, 0, 0];
    bytes.extend(&next.to_le_bytes()[..width]);
    bytes
}

/// The start of an entry of the second edition.
fn leading(kind: u8, key: Key, version: u64) -> Vec<u8> {
    [&[kind][..], &key.stored(), &version.to_le_bytes()].concat()
}

fn object(key: Key, version: u64) -> Vec<u8> {
    [leading(9, key, version), vec![0x11; 8]].concat()
}

fn tombstone(key: Key, version: u64) -> Vec<u8> {
    leading(13, key, version)
}

/// Four slots of 256 bytes, each beginning with these bytes.
fn slots(slots: [&[Vec<u8>]; 4]) -> Vec<u8> {
    let mut area = vec![0; 1024];
    for (slot, parts) in slots.into_iter().enumerate() {
        let bytes = parts.concat();
        area[slot * 256..][..bytes.len()].copy_from_slice(&bytes);
    }
    area
}

/// Slots 0 and 1 in the log, slot 1 the head, with these entries.
fn two_slots(first: &[Vec<u8>], second: &[Vec<u8>]) -> Vec<u8> {
    let with = |number, entries: &[Vec<u8>]| [vec![digest(2, number, 3, 1)], entries.to_vec()];
    slots([
        &with(1, first).concat(),
        &with(2, second).concat(),
        &[],
        &[],
    ])
}

fn recovered(area: &[u8]) -> Result<Record, u32> {
    recover(4, 256, area, &mut [0; 16], &ORDER).map_err(Refusal::number)
}

/// The number with which recovery, and a scan for a key in a table of nobody, refuse an image.
fn refused(area: &[u8]) -> u32 {
    let cause = recovered(area).expect_err("refused");
    let nobody = Tables { first: 1, last: 0 };
    let scanned = scan_read(4, 256, area, nobody, KEY).map_err(Refusal::number);
    assert_eq!(scanned, Err(if cause == 20 { 22 } else { cause }));
    cause
}

/// What a read after recovery and a scan tell of the key.
fn version(area: &[u8], order: [u8; 4]) -> Result<u64, u32> {
    let mut index = [0; 16];
    let record = recover(4, 256, area, &mut index, &order).map_err(Refusal::number)?;
    let found = read(&record, area, &index, Tables::ALL, KEY);
    assert_eq!(scan_read(4, 256, area, Tables::ALL, KEY), found);
    found.map(|found| found.version.0).map_err(Refusal::number)
}

/// Cases 1, 2, 4 and 5 of 01 in the second edition.
#[test]
fn worked_cases() {
    let mut rig = store(1);
    let fresh = [8, 1, 0, 0, 0, 1, 0, 0, 0, 1, 0, 0, 0, 0, 0, 0, 0, 0];
    assert_eq!(rig.area[..18], fresh);
    assert!(rig.area[18..256].iter().all(|&byte| byte == 0xEE));
    assert_eq!([rig.area[256], rig.area[512], rig.area[768]], [0, 0, 0]);

    assert_eq!(run(&mut rig, &write(KEY, 8)), Ok(24));
    let entry = [9, 7, 0, 9, 0, 0, 0, 1, 0, 0, 0, 0, 0, 0, 0];
    assert_eq!(rig.area[17..32], entry);
    assert_eq!(rig.area[32..40], [0x11; 8]);
    assert_eq!(rig.area[40..42], [0, 0xEE]);

    assert_eq!(run(&mut rig, &Operation::Delete(KEY)), Ok(16));
    let entry = [13, 7, 0, 9, 0, 0, 0, 2, 0, 0, 0, 0, 0, 0, 0, 0];
    assert_eq!(rig.area[40..56], entry);

    assert_eq!(run(&mut rig, &Operation::Clean(SlotMap(1))), Ok(19));
    let head = [8, 2, 0, 0, 0, 2, 0, 0, 0, 3, 0, 0, 0, 0, 0, 0, 0, 0];
    assert_eq!(rig.area[256..274], head);
    rig.cut();
    rig.must_recover(&ORDER).unwrap();
    let record = rig.record();
    assert_eq!((record.edition, record.end), (Edition::SECOND, 17));
    assert_eq!((record.next, record.keys), (Version(3), 0));
}

/// Each length of a value: its kind, its stores, and where the value lies.
#[test]
fn kinds_and_totals() {
    for (bytes, kind, total) in [(8, 9, 23), (24, 10, 39), (56, 11, 71), (120, 12, 135)] {
        let mut rig = store(1);
        assert_eq!(run(&mut rig, &write(KEY, bytes)), Ok(total + 1));
        assert_eq!(rig.area[17], kind);
        let record = rig.record();
        assert_eq!((record.end, record.present_bytes[0]), (17 + total, total));
        let value = reference::read_value(&record, &rig.area, &rig.index, Tables::ALL, KEY);
        assert_eq!(value.as_ptr(), rig.area[32..].as_ptr());
        assert_eq!(value, vec![0x11; bytes]);
    }
    assert_eq!(
        run(&mut store(1), &write(KEY, 16)),
        Err(Refusal::ValueLength)
    );
}

/// An object of 8, four of 24 and four tombstones fill 17 to 256 exactly.
#[test]
fn a_slot_filled_exactly() {
    let keys: Vec<Key> = (0..5).map(|key| Key { table: 1, key }).collect();
    let mut rig = store(1);
    rig.keys.extend(&keys);
    run(&mut rig, &write(keys[0], 8)).unwrap();
    for &key in &keys[1..] {
        run(&mut rig, &write(key, 24)).unwrap();
    }
    for &key in &keys[..3] {
        assert_eq!(run(&mut rig, &Operation::Delete(key)), Ok(16));
    }
    assert_eq!(rig.record().end, 241);
    assert_eq!(run(&mut rig, &Operation::Delete(keys[3])), Ok(15));
    assert_eq!(rig.record().end, 256);
    rig.cut();
    rig.must_recover(&[2, 3, 0, 1]).unwrap();
    assert_eq!(rig.record().end, 256);
}

/// Versions go on above 32 bits, up to the last of 64; then 9.
#[test]
fn versions_to_their_limit() {
    let mut rig = store(SPENT[0] - 1);
    for version in SPENT[0] - 1..SPENT[0] + 3 {
        run(&mut rig, &write(KEY, 8)).unwrap();
        assert_eq!(rig.book.version(KEY), Version(version));
        rig.cut();
        rig.must_recover(&ORDER).unwrap();
    }
    let mut rig = store(LAST[1]);
    run(&mut rig, &write(KEY, 8)).unwrap();
    assert_eq!(rig.book.version(KEY), Version(LAST[1]));
    assert_eq!(rig.record().next, Version(SPENT[1]));
    assert_eq!(run(&mut rig, &write(KEY, 8)), Err(Refusal::VersionsSpent));
    let delete = Operation::Delete(KEY);
    assert_eq!(run(&mut rig, &delete), Err(Refusal::VersionsSpent));
    assert_eq!(
        run(&mut rig, &Operation::Clean(SlotMap(1))),
        Ok(17 + 23 + 2)
    );
    rig.cut();
    rig.must_recover(&ORDER).unwrap();
    assert_eq!(rig.record().next, Version(SPENT[1]));
    assert_eq!(run(&mut rig, &write(OTHER, 8)), Err(Refusal::VersionsSpent));
}

/// The last version can still be a full delete's, whose digest then has the next version after it.
#[test]
fn last_version_of_a_full_delete() {
    let mut rig = Rig::<AsWritten>::of(Edition::SECOND, 4, 272, 16, vec![0; 4 * 272]);
    rig.strict = true;
    let next = LAST[1] - 9;
    rig.area[9..17].copy_from_slice(&next.to_le_bytes());
    rig.book.next = Version(next);
    rig.must_recover(&ORDER).unwrap();
    let keys: Vec<Key> = (0..9).map(|key| Key { table: 1, key }).collect();
    for (&key, bytes) in keys.iter().zip([120, 56, 24].into_iter().cycle()) {
        run(&mut rig, &write(key, bytes)).unwrap();
    }
    assert_eq!(run(&mut rig, &write(KEY, 8)), Err(Refusal::SlotsFull));
    assert_eq!(
        run(&mut rig, &Operation::Delete(keys[0])),
        Ok(17 + 71 + 39 + 2)
    );
    let head = (rig.record().head * 272) as usize;
    assert_eq!(rig.area[head + 9..head + 17], [0xFF; 8]);
    assert_eq!(rig.record().next, Version(SPENT[1]));
    let delete = Operation::Delete(keys[1]);
    assert_eq!(run(&mut rig, &delete), Err(Refusal::VersionsSpent));
}

/// Expected versions are compared whole.
#[test]
fn expected_versions() {
    let mut rig = store(1 << 32 | 5);
    run(&mut rig, &write(KEY, 8)).unwrap();
    let expecting = |key, expected| {
        let (record, mut work) = (rig.record(), rig.work.clone());
        let (area, index) = (&rig.area, &rig.index);
        let version = Version(expected);
        let (_, answer) = write_expecting(
            record,
            area,
            index,
            &mut work,
            Tables::ALL,
            key,
            version,
            &[1; 8],
        );
        answer.map_err(Refusal::number)
    };
    assert_eq!(expecting(KEY, 1 << 32 | 5), Ok(24));
    for expected in [0, 5, 2 << 32 | 5, 1 << 32 | 6, 1 << 32, u64::MAX] {
        assert_eq!(expecting(KEY, expected), Err(21));
    }
    assert_eq!(expecting(OTHER, 0), Ok(24));
    assert_eq!(expecting(OTHER, 1 << 32), Err(21));
}

/// 17 where 13 stood for the end and for what is kept; the present bytes may reach S - 13, as in a slot of the first
/// edition. The edition is 1 or 2, and its limit is the next version's.
#[test]
fn records_out_of_range() {
    let mut rig = store(1);
    run(&mut rig, &write(KEY, 8)).unwrap();
    let genuine = rig.record();
    let answer = |change: &dyn Fn(&mut Record)| {
        let mut record = genuine;
        change(&mut record);
        let told = fewest(&record).map(|_| ()).map_err(Refusal::number);
        let found = read(&record, &rig.area, &rig.index, Tables::ALL, KEY);
        assert_eq!(found.map(|_| ()).map_err(Refusal::number), told);
        told
    };
    assert_eq!(answer(&|_| ()), Ok(()));
    for (end, told) in [
        (0, Err(4)),
        (13, Err(4)),
        (16, Err(4)),
        (17, Ok(())),
        (256, Ok(())),
        (257, Err(4)),
    ] {
        assert_eq!(answer(&|record| record.end = end), told, "end {end}");
    }
    for slot in 0..32 {
        for (bytes, told) in [(239, Ok(())), (243, Ok(())), (244, Err(4))] {
            let told_now = answer(&|record| record.present_bytes[slot] = bytes);
            assert_eq!(told_now, told, "{bytes} in slot {slot}");
        }
    }
    for edition in [0, 3, 5, 8, 256, 258, u32::MAX] {
        assert_eq!(answer(&|record| record.edition = Edition(edition)), Err(4));
    }
    for (next, told) in [
        (0, Err(4)),
        (1, Ok(())),
        (SPENT[0] + 1, Ok(())),
        (SPENT[1], Ok(())),
    ] {
        assert_eq!(
            answer(&|record| record.next = Version(next)),
            told,
            "next {next}"
        );
    }
    let first = |next| {
        let mut record = Rig::<AsWritten>::new(4, 256, 16, vec![0; 1024]).record();
        record.next = Version(next);
        fewest(&record).map_err(Refusal::number)
    };
    assert_eq!(
        [first(0), first(SPENT[0] + 1), first(SPENT[1])],
        [Err(4); 3]
    );
    assert_eq!([first(1), first(SPENT[0])], [Ok(0); 2]);
}

/// Kept entries fit a slot if 17 and they do, in a cleaning and for a join.
#[test]
fn kept_bytes() {
    let longest = |key, version| [leading(12, key, version), vec![1; 120]].concat();
    for (slot_bytes, fits) in [(287, true), (286, false)] {
        let mut area = vec![0; 4 * slot_bytes];
        for (slot, key) in [KEY, OTHER].into_iter().enumerate() {
            let number = slot as u8 + 1;
            let bytes = [digest(2, number, 3, 1), longest(key, u64::from(number))].concat();
            area[slot * slot_bytes..][..bytes.len()].copy_from_slice(&bytes);
        }
        let mut rig = Rig::<AsWritten>::unrecovered(4, slot_bytes as u32, 16, area);
        rig.strict = true;
        rig.book.next = Version(3);
        rig.must_recover(&ORDER).unwrap();
        let told = join(&rig.record(), &rig.area, &rig.index);
        let cleaned = run(&mut rig, &Operation::Clean(SlotMap(3)));
        if fits {
            assert_eq!((told, cleaned), (Ok((0, 1)), Ok(288)));
        } else {
            assert_eq!(
                (told, cleaned),
                (Err(Refusal::NoPair), Err(Refusal::KeptLength))
            );
        }
    }
}

/// A segment holds the kinds of its own edition only.
#[test]
fn kinds_of_the_other_edition() {
    for kind in 0..=255 {
        let entry = [leading(kind, KEY, 1), vec![0; 120]].concat();
        let accepted = kind == 0 || (9..=13).contains(&kind);
        let answer = recovered(&two_slots(&[entry], &[]));
        assert_eq!(
            answer.map(|_| ()),
            if accepted { Ok(()) } else { Err(18) },
            "{kind}"
        );
        let first = [vec![kind, 7, 0, 9, 0, 0, 0, 1, 0, 0, 0], vec![0; 124]].concat();
        let accepted = [0, 1, 2, 3, 4, 7].contains(&kind);
        let area = slots([&[digest(1, 1, 1, 1), first], &[], &[], &[]]);
        let answer = recovered(&area);
        assert_eq!(
            answer.map(|_| ()),
            if accepted { Ok(()) } else { Err(18) },
            "{kind}"
        );
    }
}

/// 18 by the edition's own limits: every version of 64 bits but the first and the last.
#[test]
fn versions_of_entries() {
    let with = |version| {
        recovered(&two_slots(&[tombstone(KEY, version)], &[])).map(|record| record.next.0)
    };
    assert_eq!([with(0), with(SPENT[1])], [Err(18); 2]);
    for version in [1, LAST[0], SPENT[0], 1 << 32, 5 << 32, LAST[1]] {
        assert_eq!(with(version), Ok(version + 1));
    }
}

/// Versions differ, and the highest decides, by all their bits: in the index and in a scan, in any order of slots.
#[test]
fn versions_compared_whole() {
    let wide = 1 << 32;
    for (lower, higher) in [
        (2, wide | 1),
        (wide | 2, wide << 1),
        (SPENT[0], wide),
        (LAST[1] - 1, LAST[1]),
    ] {
        let keys = [object(KEY, lower), object(KEY, higher)];
        for (first, second) in [(0, 1), (1, 0)] {
            let area = two_slots(&keys[first..=first], &keys[second..=second]);
            for order in [ORDER, [1, 0, 3, 2]] {
                assert_eq!(version(&area, order), Ok(higher));
            }
        }
        let deleted = two_slots(&[object(KEY, lower)], &[tombstone(KEY, higher)]);
        assert_eq!(version(&deleted, ORDER), Err(8));
        let written = two_slots(&[tombstone(KEY, lower)], &[object(KEY, higher)]);
        assert_eq!(version(&written, ORDER), Ok(higher));
    }
    for version in [7, wide | 7, LAST[1]] {
        let shared = two_slots(&[object(KEY, version)], &[object(OTHER, version)]);
        assert_eq!(refused(&shared), 19);
    }
    let apart = two_slots(
        &[object(KEY, 7), object(OTHER, wide | 7)],
        &[object(KEY, 2 << 32 | 7)],
    );
    assert_eq!(version(&apart, ORDER), Ok(2 << 32 | 7));
}

/// The next version is the greater of the digest's and the one above the log's, by all bits.
#[test]
fn next_version() {
    let with = |field, highest| {
        let head = [digest(2, 1, 1, field), tombstone(KEY, highest)];
        recovered(&slots([&head, &[], &[], &[]])).map(|record| record.next.0)
    };
    assert_eq!(with(1 << 32, 7), Ok(1 << 32));
    assert_eq!(with(8, 1 << 32), Ok((1 << 32) + 1));
    assert_eq!(with(SPENT[1], 1), Ok(SPENT[1]));
    assert_eq!(with(1, LAST[1]), Ok(SPENT[1]));
    assert_eq!(with(0, 1), Err(17));
    // The field has 8 bytes: its low half alone may be 0.
    assert_eq!(with(3 << 32, 1), Ok(3 << 32));
}

/// Digests of both editions count for 16, for the head and for a shared number, in free slots too.
#[test]
fn digests_of_both_editions() {
    assert_eq!(
        refused(&slots([&[vec![6]], &[vec![7]], &[vec![4]], &[vec![9]]])),
        16
    );
    let first = |number, map| vec![digest(1, number, map, 1)];
    let second = |number, map| vec![digest(2, number, map, 1)];
    for (area, edition, head) in [
        (slots([&second(1, 1), &[], &[], &[]]), 2, 0),
        (slots([&first(1, 1), &second(2, 2), &[], &[]]), 2, 1),
        (slots([&first(3, 1), &second(2, 2), &[], &[]]), 1, 0),
        (slots([&second(3, 1), &first(2, 2), &[], &[]]), 2, 0),
    ] {
        let record = recovered(&area).unwrap();
        assert_eq!((record.edition, record.head), (Edition(edition), head));
    }
    for area in [
        slots([&first(3, 1), &second(3, 2), &[], &[]]),
        slots([&second(3, 1), &first(3, 2), &[], &[]]),
        slots([&second(3, 1), &[], &second(3, 2), &[]]),
        slots([&first(3, 1), &second(0, 1), &[], &second(3, 0)]),
        slots([&second(0, 1), &[], &[], &[]]),
    ] {
        assert_eq!(refused(&area), 17);
    }
    // A number below the highest may be shared.
    for map in [4, 6] {
        let area = slots([&first(2, 1), &second(2, 1), &second(3, map), &[]]);
        assert_eq!(recovered(&area).map(|record| record.head), Ok(2));
    }
}

/// A log of both editions; the head is of the second, in slot 1, or of the first.
fn mixed(head: u32) -> Vec<u8> {
    let other = 3 - head;
    let slot = |edition, number| vec![digest(edition, number, 3, 1)];
    slots([&slot(other, 1), &slot(head, 2), &[], &[]])
}

/// Bytes of the image with others in their place.
fn with(mut area: Vec<u8>, changes: &[(usize, u8)]) -> Vec<u8> {
    for &(place, byte) in changes {
        area[place] = byte;
    }
    area
}

/// An entry of the first edition.
fn older(kind: u8, key: Key, version: u32, value: usize) -> Vec<u8> {
    let leading = [&[kind][..], &key.stored(), &version.to_le_bytes()].concat();
    [leading, vec![0; value]].concat()
}

/// 28 after 17, 24 and 25, and before 18, 19 and 22, and only for a slot of the second edition under a head of the first:
/// under a head of the second, slots of both are a store on its way over.
#[test]
fn log_slots_of_both_editions() {
    for head in [1, 2] {
        let mixed = || mixed(head);
        for (first, second, changes) in [
            (28, 0, &[][..]),
            (17, 17, &[(265, 0)]),
            (17, 17, &[(257, 1)]),
            (24, 24, &[(261, 0x13)]),
            (24, 24, &[(261, 1)]),
            (24, 24, &[(261, 0x0F), (512, 5), (768, 8)]),
            (25, 25, &[(261, 7)]),
            (25, 25, &[(261, 7), (13, 1)]),
            (28, 0, &[(261, 7), (512, 5)]),
            (28, 0, &[(261, 7), (512, 8)]),
            (28, 18, &[(13, 255), (17, 255)]),
            (28, 18, &[(256 + 13, 255), (256 + 17, 255)]),
        ] {
            let area = with(mixed(), changes);
            match [first, second][head as usize - 1] {
                0 => assert_eq!(recovered(&area).map(|record| record.edition.0), Ok(2)),
                cause => assert_eq!(refused(&area), cause, "{changes:?}"),
            }
        }
        // A free slot of the other edition does not matter.
        let free = with(mixed(), &[(261, 2)]);
        assert_eq!(recovered(&free).map(|record| record.edition.0), Ok(head));
    }
    // Versions are compared over slots of both editions.
    let both = |version| {
        let first = [digest(1, 1, 3, 1), older(1, KEY, 5, 8)];
        let second = [digest(2, 2, 3, 1), object(OTHER, version)];
        slots([&first, &second, &[], &[]])
    };
    assert_eq!(refused(&both(5)), 19);
    for version in [4, 6, 1 << 32 | 5] {
        assert_eq!(recovered(&both(version)).map(|_| ()), Ok(()));
    }
}

/// Each slot is read by its own edition's kinds and limits, and a key's newest entry is found over both.
#[test]
fn slots_read_by_their_own_edition() {
    let with = |older: Vec<u8>, newer: Vec<u8>| {
        let head = [digest(2, 2, 3, 1), newer];
        slots([&[digest(1, 1, 3, 1), older], &head, &[], &[]])
    };
    for kind in 0..=255 {
        let first = with(older(kind, OTHER, 1, 120), object(KEY, 7));
        let accepted = [0, 1, 2, 3, 4, 7].contains(&kind);
        assert_eq!(recovered(&first).is_ok(), accepted, "{kind} in the first");
        let entry = [leading(kind, OTHER, 1), vec![0; 120]].concat();
        let second = with(older(1, KEY, 7, 8), entry);
        let accepted = kind == 0 || (9..=13).contains(&kind);
        assert_eq!(recovered(&second).is_ok(), accepted, "{kind} in the second");
    }
    for (version, cause) in [(u32::MAX, Err(18)), (u32::MAX - 1, Ok(SPENT[0]))] {
        let area = with(older(4, OTHER, version, 0), object(KEY, 1));
        assert_eq!(recovered(&area).map(|record| record.next.0), cause);
    }
    for order in [ORDER, [1, 0, 3, 2]] {
        let newer = with(older(1, KEY, 5, 8), object(KEY, 1 << 32));
        assert_eq!(version(&newer, order), Ok(1 << 32));
        let older_wins = with(older(2, KEY, 5, 24), object(KEY, 4));
        assert_eq!(version(&older_wins, order), Ok(5));
        let deleted = with(older(3, KEY, 5, 56), tombstone(KEY, 6));
        assert_eq!(version(&deleted, order), Err(8));
        let deleted_before = with(older(4, KEY, 6, 0), object(KEY, 5));
        assert_eq!(version(&deleted_before, order), Err(8));
    }
    // Present bytes are those that an object takes in its own slot.
    let area = with(
        [older(7, KEY, 5, 120), older(1, OTHER, 3, 8)].concat(),
        object(OTHER, 9),
    );
    let record = recovered(&area).unwrap();
    assert_eq!(record.present_bytes[..2], [131, 23]);
}

/// Wrong readings of these rules tell something else of an image.
#[test]
fn wrong_readings() {
    fn told<R: Rules>(area: &[u8]) -> Result<u32, u32> {
        let answer = recover_by::<R>(4, 256, area, &mut [0; 16], &ORDER);
        answer.map(|record| record.head).map_err(Refusal::number)
    }
    struct FirstAlone;
    impl Rules for FirstAlone {
        const FIRST_DIGESTS_ALONE: bool = true;
    }
    struct Apart;
    impl Rules for Apart {
        const SHARED_WITHIN_AN_EDITION: bool = true;
    }
    struct Late;
    impl Rules for Late {
        const EDITIONS_AFTER_ENTRIES: bool = true;
    }
    let second = slots([&[digest(2, 1, 1, 1)], &[], &[], &[]]);
    let shared = slots([&[digest(1, 3, 1, 1)], &[digest(2, 3, 2, 1)], &[], &[]]);
    let damaged = with(mixed(1), &[(13, 255), (17, 255)]);
    let same = [&second, &shared, &damaged].map(|area| {
        let right = told::<AsWritten>(area);
        [
            told::<FirstAlone>(area) == right,
            told::<Apart>(area) == right,
            told::<Late>(area) == right,
        ]
    });
    assert_eq!(
        same,
        [
            [false, true, true],
            [false, false, true],
            [true, true, false]
        ]
    );
}

/// `dump` prints kinds 9 to 12 and versions of up to 20 digits.
#[test]
fn dumped() {
    let mut rig = store(LAST[1] - 3);
    for (key, bytes) in [(3, 8), (2, 24), (1, 56)] {
        run(&mut rig, &write(Key { table: 65535, key }, bytes)).unwrap();
    }
    run(
        &mut rig,
        &write(
            Key {
                table: 0,
                key: u32::MAX,
            },
            120,
        ),
    )
    .unwrap();
    let input = [&[4, 0, 1][..], &rig.area].concat();
    let expected = "next 18446744073709551615 digest 2 keys 4\n\
                    0 4294967295 18446744073709551614 12\n\
                    65535 1 18446744073709551613 11\n\
                    65535 2 18446744073709551612 10\n\
                    65535 3 18446744073709551611 9\n";
    assert_eq!(dump(&input), expected);
    for (head, told) in [(1, "refused 28\n"), (2, "next 1 digest 2 keys 0\n")] {
        let input = [&[4, 0, 1][..], &mixed(head)].concat();
        assert_eq!(dump(&input), told);
    }
}
