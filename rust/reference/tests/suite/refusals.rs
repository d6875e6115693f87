//! Every refusal of 01's table, reached by each call that knows it, with nothing
//! changed but what the table names; and the order of the checks.

use reference::book::Operation;
use reference::recovery::recover_by;
use reference::rules::{AsWritten, Rules};
use reference::{
    clean, delete, format, read, read_value, recover, step, write, write_expecting, Edition, Key,
    Pending, Record, Refusal, SlotMap, Started, Tables, Version,
};

use crate::rig::Rig;

const ORDER: [u8; 4] = [0, 1, 2, 3];

/// The highest version and next version of the first edition.
const LAST: Version = Version(4_294_967_294);
const SPENT: Version = Version(4_294_967_295);

fn key(key: u32) -> Key {
    Key { table: 7, key }
}

fn write_of(number: u32, bytes: usize) -> Operation {
    Operation::Write(key(number), vec![0x11; bytes])
}

/// A store of four slots of 256 bytes whose digest has the given number and next
/// version.
fn store(cells: usize, number: u32, next: u32) -> Rig<AsWritten> {
    let mut rig = Rig::new(4, 256, cells, vec![0xEE; 1024]);
    rig.area[1..5].copy_from_slice(&number.to_le_bytes());
    rig.area[9..13].copy_from_slice(&next.to_le_bytes());
    rig.book.next.0 = next.into();
    rig.must_recover(&ORDER).unwrap();
    rig
}

fn fresh() -> Rig<AsWritten> {
    store(16, 1, 1)
}

fn run(rig: &mut Rig<AsWritten>, operations: &[Operation]) {
    for operation in operations {
        rig.run(operation).unwrap().expect("accepted");
    }
}

/// The number with which a start is refused; it must leave all as it was.
fn refused_with(rig: &Rig<AsWritten>, operation: &Operation, work_bytes: usize) -> u32 {
    refused_in(rig, Tables::ALL, operation, work_bytes)
}

/// The same for a caller with these tables.
fn refused_in(
    rig: &Rig<AsWritten>,
    tables: Tables,
    operation: &Operation,
    work_bytes: usize,
) -> u32 {
    let (record, area, index) = (rig.record(), &rig.area, &rig.index);
    refused_start(rig, work_bytes, |work| match operation {
        Operation::Write(key, value) => write(record, area, index, work, tables, *key, value),
        Operation::Delete(key) => delete(record, area, index, work, tables, *key),
        Operation::Clean(victims) => clean(record, area, index, work, *victims),
    })
}

fn refused_start(
    rig: &Rig<AsWritten>,
    work_bytes: usize,
    start: impl FnOnce(&mut [u8]) -> Started,
) -> u32 {
    let record = rig.record();
    let mut work = rig.work[..work_bytes].to_vec();
    let (after, answer) = start(&mut work);
    assert_eq!(after.pending == record.pending, answer.is_err());
    let Err(refusal) = answer else { return 0 };
    assert_eq!(after, record);
    assert_eq!(work, rig.work[..work_bytes]);
    refusal.number()
}

fn refused(rig: &Rig<AsWritten>, operation: &Operation) -> u32 {
    refused_with(rig, operation, rig.work.len())
}

/// The number with which a write of so many bytes is refused that expects a version.
fn refused_expecting(rig: &Rig<AsWritten>, number: u32, expected: u64, bytes: usize) -> u32 {
    refused_expecting_in(rig, Tables::ALL, number, expected, bytes)
}

/// The same for a caller with these tables.
fn refused_expecting_in(
    rig: &Rig<AsWritten>,
    tables: Tables,
    number: u32,
    expected: u64,
    bytes: usize,
) -> u32 {
    let (record, area, index) = (rig.record(), &rig.area, &rig.index);
    let (key, expected, value) = (key(number), Version(expected), vec![0x11; bytes]);
    refused_start(rig, rig.work.len(), |work| {
        write_expecting(record, area, index, work, tables, key, expected, &value)
    })
}

/// The one version that a write of 8 bytes may expect, of all that are worth a try; the others
/// are refused with 21.
fn accepted_expectation(rig: &Rig<AsWritten>, number: u32) -> u64 {
    let next = rig.record().next.0;
    let wide = |low: u64| low | 1 << 32;
    let accepted: Vec<u64> = (0..20)
        .chain(next.saturating_sub(3)..=next)
        .chain([LAST.0, SPENT.0, u64::MAX])
        .chain((0..20).chain([next]).map(wide))
        .filter(
            |&expected| match refused_expecting(rig, number, expected, 8) {
                0 => true,
                cause => {
                    assert_eq!(cause, 21, "{expected}");
                    false
                }
            },
        )
        .collect();
    assert!(accepted.windows(2).all(|pair| pair[0] == pair[1]));
    accepted[0]
}

fn refused_read(rig: &Rig<AsWritten>, key: Key) -> u32 {
    refused_read_in(rig, Tables::ALL, key)
}

fn refused_read_in(rig: &Rig<AsWritten>, tables: Tables, key: Key) -> u32 {
    let record = rig.record();
    let value = read_value(&record, &rig.area, &rig.index, tables, key);
    match read(&record, &rig.area, &rig.index, tables, key) {
        Ok(_) => 0,
        Err(refusal) => {
            assert_eq!(value.len(), 0);
            assert_eq!(value.as_ptr(), rig.area.as_ptr());
            refusal.number()
        }
    }
}

fn refused_step(rig: &Rig<AsWritten>, work_bytes: usize) -> u32 {
    let record = rig.record();
    let (mut area, mut index) = (rig.area.clone(), rig.index.clone());
    let (after, answer) = step(record, &mut area, &mut index, &rig.work[..work_bytes]);
    let Err(refusal) = answer else { return 0 };
    assert_eq!(after, record);
    assert_eq!((area, index), (rig.area.clone(), rig.index.clone()));
    refusal.number()
}

/// The number with which a recovery is refused, 0 if it is not.
fn refused_recovery(slots: u32, slot_bytes: u32, area: &[u8], cells: usize, order: &[u8]) -> u32 {
    let mut index = vec![77; cells];
    let Err(refusal) = recover(slots, slot_bytes, area, &mut index, order) else {
        return 0;
    };
    let left = if refusal == Refusal::TooManyKeys {
        0
    } else {
        77
    };
    assert!(index.iter().all(|&cell| cell == left));
    refusal.number()
}

/// Recovery of an image of four slots of 256 bytes.
fn refused_image(area: &[u8]) -> u32 {
    refused_recovery(4, 256, area, 16, &ORDER)
}

/// Two slots in the log, slot 1 the head, and the given entries in them.
fn two_slots(first: &[&[u8]], second: &[&[u8]]) -> Vec<u8> {
    let mut area = vec![0; 1024];
    for (slot, entries) in [first, second].into_iter().enumerate() {
        let mut bytes = vec![5, slot as u8 + 1, 0, 0, 0, 3, 0, 0, 0, 1, 0, 0, 0];
        bytes.extend(entries.concat());
        area[slot * 256..][..bytes.len()].copy_from_slice(&bytes);
    }
    area
}

fn tombstone(key: u8, version: u32) -> Vec<u8> {
    let [a, b, c, d] = version.to_le_bytes();
    vec![4, 7, 0, key, 0, 0, 0, a, b, c, d]
}

#[test]
fn numbers_and_causes_agree() {
    for (place, refusal) in Refusal::ALL.into_iter().enumerate() {
        assert_eq!(refusal.number(), place as u32 + 1);
        assert_eq!(Refusal::from_number(place as u32 + 1), Some(refusal));
    }
    assert_eq!(Refusal::from_number(0), None);
    assert_eq!(Refusal::from_number(31), None);
}

#[test]
fn cause_1_geometry() {
    let wrong: [(u32, u32, usize); 7] = [
        (3, 256, 768),
        (33, 256, 33 * 256),
        (4, 255, 1020),
        (4, 2049, 4 * 2049),
        (4, 256, 1023),
        (4, 256, 1025),
        (u32::MAX, u32::MAX, 1),
    ];
    for (slots, slot_bytes, bytes) in wrong {
        let mut area = vec![0xEE; bytes];
        for edition in Edition::ALL {
            let answer = format(slots, slot_bytes, edition, &mut area);
            assert_eq!(answer, Err(Refusal::Geometry));
        }
        assert!(area.iter().all(|&byte| byte == 0xEE));
        // Before 2 and 15.
        assert_eq!(refused_recovery(slots, slot_bytes, &area, 3, &[]), 1);
    }
    for (slots, slot_bytes) in [(4, 256), (32, 2048), (32, 256), (4, 2048)] {
        let mut area = vec![0xEE; (slots * slot_bytes) as usize];
        for edition in [0, 3, 5, 8, 256, 257, u32::MAX] {
            let answer = format(slots, slot_bytes, Edition(edition), &mut area);
            assert_eq!(answer, Err(Refusal::Geometry));
            assert!(area.iter().all(|&byte| byte == 0xEE));
        }
        for edition in Edition::ALL {
            assert_eq!(format(slots, slot_bytes, edition, &mut area), Ok(()));
        }
    }
}

#[test]
fn cause_2_index_length() {
    let area = fresh().area;
    for cells in [0, 15, 4097] {
        assert_eq!(refused_recovery(4, 256, &area, cells, &[]), 2);
    }
    for cells in [16, 4096] {
        assert_eq!(refused_recovery(4, 256, &area, cells, &ORDER), 0);
    }
}

#[test]
fn causes_3_5_and_6_work_buffer_and_pending() {
    let mut rig = fresh();
    run(&mut rig, &[write_of(1, 8)]);
    let operations = [
        write_of(2, 7),
        Operation::Delete(key(2)),
        Operation::Clean(SlotMap(0)),
    ];
    for operation in &operations {
        assert_eq!(refused_with(&rig, operation, 255), 3);
        assert!(refused_with(&rig, operation, 256) > 6);
    }
    assert_eq!(refused_step(&rig, 255), 3);
    assert_eq!(refused_step(&rig, 256), 6);
    rig.start(&write_of(1, 24)).unwrap().unwrap();
    for operation in &operations {
        assert_eq!(refused_with(&rig, operation, 255), 3);
        assert_eq!(refused_with(&rig, operation, 256), 5);
    }
    assert_eq!(refused_step(&rig, 255), 3);
    assert_eq!(refused_step(&rig, 256), 0);
}

#[test]
fn cause_4_comes_first() {
    let mut rig = fresh();
    run(&mut rig, &[write_of(1, 8)]);
    let mut record = rig.record();
    record.pending = Pending::Append {
        length: 19,
        left: 258,
    };
    rig.record = Some(record);
    assert_eq!(refused_read(&rig, key(1)), 4);
    assert_eq!(refused_with(&rig, &write_of(1, 7), 0), 4);
    assert_eq!(refused_with(&rig, &Operation::Delete(key(2)), 0), 4);
    assert_eq!(refused_with(&rig, &Operation::Clean(SlotMap(0)), 0), 4);
    assert_eq!(refused_step(&rig, 0), 4);
    record.pending = Pending::Append {
        length: 19,
        left: 257,
    };
    rig.record = Some(record);
    assert_eq!(refused_read(&rig, key(1)), 0);
}

#[test]
fn cause_7_value_length() {
    let rig = store(16, 1, u32::MAX);
    for bytes in [0, 7, 9, 23, 25, 55, 57, 119, 121, 131, 300] {
        assert_eq!(refused(&rig, &write_of(1, bytes)), 7);
    }
    for bytes in [8, 24, 56, 120] {
        assert_eq!(refused(&rig, &write_of(1, bytes)), 9);
        assert_eq!(refused(&fresh(), &write_of(1, bytes)), 0);
    }
}

#[test]
fn cause_8_absent() {
    let mut rig = fresh();
    run(&mut rig, &[write_of(1, 8), Operation::Delete(key(1))]);
    for absent in [key(1), key(2), Key { table: 8, key: 1 }] {
        assert_eq!(refused_read(&rig, absent), 8);
        assert_eq!(refused(&rig, &Operation::Delete(absent)), 8);
    }
}

#[test]
fn cause_9_versions_spent() {
    let mut rig = store(16, 1, u32::MAX - 1);
    run(&mut rig, &[write_of(1, 8)]);
    assert_eq!(rig.book.version(key(1)), LAST);
    assert_eq!(refused(&rig, &write_of(1, 8)), 9);
    assert_eq!(refused(&rig, &Operation::Delete(key(1))), 9);
    assert_eq!(refused(&rig, &Operation::Delete(key(2))), 8);
    run(&mut rig, &[Operation::Clean(SlotMap(1))]);
    rig.cut();
    rig.must_recover(&ORDER).unwrap();
    assert_eq!(refused(&rig, &write_of(2, 8)), 9);
}

#[test]
fn cause_10_digests_spent() {
    let mut rig = store(16, u32::MAX, 1);
    for _ in 0..3 {
        run(&mut rig, &[write_of(1, 56)]);
    }
    assert_eq!(refused(&rig, &write_of(1, 56)), 10);
    assert_eq!(refused(&rig, &Operation::Clean(SlotMap(1))), 10);
    assert_eq!(refused(&rig, &Operation::Clean(SlotMap(2))), 13);
    run(&mut rig, &[Operation::Delete(key(1)), write_of(1, 8)]);
    assert_eq!(refused(&rig, &Operation::Delete(key(1))), 0);
    run(&mut rig, &[Operation::Delete(key(1))]);
    assert_eq!(rig.record().end, 255);
    assert_eq!(refused(&rig, &write_of(1, 8)), 10);
}

#[test]
fn cause_11_keys_full() {
    let mut rig = Rig::<AsWritten>::new(32, 256, 16, vec![0; 32 * 256]);
    for number in 0..15 {
        run(&mut rig, &[write_of(number, 8)]);
    }
    run(&mut rig, &[Operation::Delete(key(3))]);
    assert_eq!(refused(&rig, &write_of(99, 8)), 11);
    assert_eq!(refused(&rig, &write_of(99, 9)), 7);
    assert_eq!(refused(&rig, &write_of(3, 8)), 0);
    // Slot 0 holds the object of key 3, slot 1 its tombstone; both go.
    run(&mut rig, &[Operation::Clean(SlotMap(1))]);
    assert_eq!(refused(&rig, &write_of(99, 8)), 11);
    run(&mut rig, &[Operation::Clean(SlotMap(2))]);
    assert_eq!(refused(&rig, &write_of(99, 8)), 0);
}

#[test]
fn cause_12_slots_full() {
    // Three slots used, the head full to 42 bytes.
    let mut rig = store(16, u32::MAX - 2, 1);
    for _ in 0..9 {
        run(&mut rig, &[write_of(1, 56)]);
    }
    assert_eq!(rig.record().map, SlotMap(0b111));
    assert_eq!(refused(&rig, &write_of(1, 56)), 12);
    assert_eq!(refused(&rig, &write_of(1, 24)), 0);
    run(&mut rig, &[write_of(1, 24)]);
    // 7 bytes are left, and the digest number is spent as well: 12 comes before 10. A delete is never refused with 12.
    assert_eq!(rig.record().digest.0, u32::MAX);
    assert_eq!(refused(&rig, &write_of(1, 8)), 12);
    assert_eq!(refused(&rig, &Operation::Delete(key(1))), 10);
    assert_eq!(refused(&rig, &Operation::Delete(key(2))), 8);
    assert_eq!(refused(&rig, &Operation::Clean(SlotMap(1))), 10);
}

/// A delete on a full store has the other causes of a delete, in their order.
#[test]
fn full_store_refuses_a_delete_with_the_other_causes() {
    let mut rig = store(16, u32::MAX - 3, u32::MAX - 11);
    for _ in 0..9 {
        run(&mut rig, &[write_of(1, 56)]);
    }
    run(&mut rig, &[write_of(1, 24)]);
    let delete = Operation::Delete(key(1));
    assert_eq!(rig.record().next, LAST);
    assert_eq!(refused_with(&rig, &delete, 255), 3);
    assert_eq!(refused_in(&rig, tables(8, 9), &delete, 256), 22);
    assert_eq!(refused(&rig, &Operation::Delete(key(2))), 8);
    assert_eq!(refused(&rig, &delete), 0);
    let mut last = rig.clone();
    run(&mut last, std::slice::from_ref(&delete));
    assert_eq!(last.record().next, SPENT);
    assert_eq!(last.record().digest.0, u32::MAX);
    last.cut();
    last.must_recover(&ORDER).unwrap();
    assert_eq!(refused(&last, &write_of(2, 8)), 9);

    // The head's next version at its limit.
    let mut record = rig.record();
    record.next = SPENT;
    rig.record = Some(record);
    assert_eq!(refused(&rig, &delete), 9);
    rig.start(&Operation::Clean(SlotMap(1))).unwrap().unwrap();
    assert_eq!(refused(&rig, &delete), 5);
}

#[test]
fn with_two_slots_free_a_write_gets_a_new_head() {
    let mut rig = fresh();
    for _ in 0..6 {
        run(&mut rig, &[write_of(1, 56)]);
    }
    assert_eq!(rig.record().map, SlotMap(0b11));
    assert_eq!(rig.run(&write_of(1, 56)).unwrap(), Ok(82));
    assert_eq!(rig.record().map, SlotMap(0b111));
}

#[test]
fn causes_13_and_14_victims() {
    let mut rig = store(16, u32::MAX - 1, 1);
    for number in 0..6 {
        run(&mut rig, &[write_of(number, 56)]);
    }
    for victims in [0, 4, 7, 8, 1 << 31, u32::MAX] {
        assert_eq!(refused(&rig, &Operation::Clean(SlotMap(victims))), 13);
    }
    // Six objects of 67 bytes do not fit; the digest number is spent too.
    assert_eq!(rig.record().digest.0, u32::MAX);
    assert_eq!(refused(&rig, &Operation::Clean(SlotMap(3))), 14);
    assert_eq!(refused(&rig, &Operation::Clean(SlotMap(1))), 10);
}

#[test]
fn cause_15_order() {
    let area = vec![0; 1024];
    let wrong: [&[u8]; 6] = [
        &[],
        &[0, 1, 2],
        &[0, 1, 2, 3, 3],
        &[0, 1, 2, 2],
        &[0, 1, 2, 4],
        &[0, 1, 2, 255],
    ];
    for order in wrong {
        assert_eq!(refused_recovery(4, 256, &area, 16, order), 15);
    }
    assert_eq!(refused_recovery(4, 256, &area, 16, &[3, 0, 2, 1]), 16);
}

#[test]
fn cause_16_no_digest() {
    assert_eq!(refused_image(&[0; 1024]), 16);
    assert_eq!(refused_image(&[4; 1024]), 16);
}

/// Two slots in the log, slot 1 the head, with some bytes changed.
fn with_bytes(changes: &[(usize, u8)]) -> Vec<u8> {
    let mut area = two_slots(&[], &[]);
    for &(place, byte) in changes {
        area[place] = byte;
    }
    area
}

#[test]
fn causes_17_24_and_25_head_digest() {
    let with = |changes: &[(usize, u8)]| refused_image(&with_bytes(changes));
    assert_eq!(with(&[]), 0);
    assert_eq!(with(&[(1, 0), (257, 0)]), 17, "highest number 0");
    assert_eq!(with(&[(1, 2)]), 17, "shared in the log");
    assert_eq!(with(&[(512, 5), (513, 2)]), 17, "shared outside the log");
    assert_eq!(with(&[(512, 5), (513, 1)]), 0, "a lower number shared");
    assert_eq!(with(&[(265, 0)]), 17, "next version 0");
    assert_eq!(with(&[(261, 0x13)]), 24, "slot not below N");
    assert_eq!(with(&[(264, 0x80)]), 24, "slot not below N");
    assert_eq!(with(&[(261, 1)]), 24, "lacks the head");
    assert_eq!(with(&[(261, 0)]), 24, "empty");
    assert_eq!(
        with(&[(261, 15), (512, 5), (768, 5)]),
        24,
        "leaves none free"
    );
    assert_eq!(with(&[(261, 7)]), 25, "names a slot without a digest");
    assert_eq!(with(&[(0, 4)]), 25, "names a slot without a digest");
    assert_eq!(with(&[(5, 0), (9, 0)]), 0, "other digests do not count");
}

/// Bytes to be changed, each by its place.
type Bytes = &'static [(usize, u8)];

/// Images with two faults, by the numbers of both; the first is told.
const TWO_FAULTS: [(u32, u32, Bytes); 15] = [
    (17, 24, &[(1, 2), (261, 0x13)]),
    (17, 24, &[(265, 0), (261, 1)]),
    (17, 24, &[(265, 0), (261, 15), (512, 5), (768, 5)]),
    (17, 24, &[(512, 5), (513, 2), (261, 1)]),
    (17, 25, &[(265, 0), (0, 4)]),
    (17, 25, &[(265, 0), (261, 7)]),
    (17, 25, &[(512, 5), (513, 2), (0, 0)]),
    (24, 25, &[(261, 15)]),
    (24, 25, &[(264, 0x80), (0, 4)]),
    (24, 25, &[(261, 1), (0, 4)]),
    (17, 18, &[(265, 0), (269, 9)]),
    (24, 18, &[(261, 0x13), (269, 9)]),
    (24, 18, &[(261, 15), (512, 5), (768, 5), (13, 9)]),
    (25, 18, &[(261, 7), (269, 9)]),
    (25, 18, &[(0, 4), (13, 255)]),
];

#[test]
fn causes_17_24_25_and_18_in_order() {
    for (first, second, changes) in TWO_FAULTS {
        let told = refused_image(&with_bytes(changes));
        assert_eq!(told, first, "{first} and {second}: {changes:?}");
    }
}

/// Wrong orders of these causes tell another number of some of these images.
#[test]
fn wrong_orders_of_17_24_and_25() {
    fn is_caught<R: Rules>() -> bool {
        TWO_FAULTS.into_iter().any(|(first, _, changes)| {
            let area = with_bytes(changes);
            let answer = recover_by::<R>(4, 256, &area, &mut [0; 16], &ORDER);
            answer.map_err(Refusal::number) != Err(first)
        })
    }
    struct MapFirst;
    impl Rules for MapFirst {
        const MAP_BEFORE_NEXT_VERSION: bool = true;
    }
    struct SlotsFirst;
    impl Rules for SlotsFirst {
        const LOG_SLOTS_BEFORE_MAP: bool = true;
    }
    struct FullMap;
    impl Rules for FullMap {
        const FULL_MAP_IS_17: bool = true;
    }
    assert!(is_caught::<MapFirst>());
    assert!(is_caught::<SlotsFirst>());
    assert!(is_caught::<FullMap>());
    assert!(!is_caught::<AsWritten>());
}

#[test]
fn cause_18_entries() {
    for kind in 5..=255 {
        assert_eq!(refused_image(&two_slots(&[&[kind]], &[])), 18);
        let mut entry = tombstone(1, 1);
        entry[0] = kind;
        entry.resize(131, 0);
        let cause = if kind == 7 { 0 } else { 18 };
        assert_eq!(refused_image(&two_slots(&[&entry], &[])), cause);
    }
    let version_0 = tombstone(1, 0);
    let version_last = tombstone(1, u32::MAX);
    assert_eq!(refused_image(&two_slots(&[&version_0], &[])), 18);
    assert_eq!(refused_image(&two_slots(&[&version_last], &[])), 18);
    let highest = tombstone(1, u32::MAX - 1);
    assert_eq!(refused_image(&two_slots(&[&highest], &[])), 0);
    // 22 tombstones leave one byte of the slot: a kind 0 ends them, any other is damage.
    let entries: Vec<Vec<u8>> = (1..=22).map(|version| tombstone(1, version)).collect();
    let mut slices: Vec<&[u8]> = entries.iter().map(Vec::as_slice).collect();
    assert_eq!(refused_image(&two_slots(&slices, &[])), 0);
    slices.push(&[4]);
    assert_eq!(refused_image(&two_slots(&slices, &[])), 18);
}

#[test]
fn causes_18_19_and_20_in_order_over_the_whole_log() {
    let keys: Vec<Vec<u8>> = (1..=16).map(|key| tombstone(key, u32::from(key))).collect();
    let slices: Vec<&[u8]> = keys.iter().map(Vec::as_slice).collect();
    let shared = tombstone(1, 2);
    assert_eq!(refused_image(&two_slots(&slices, &[])), 20);
    assert_eq!(refused_image(&two_slots(&slices[1..], &[])), 0);
    assert_eq!(refused_image(&two_slots(&slices, &[&shared])), 19);
    assert_eq!(refused_image(&two_slots(&slices, &[&shared, &[9]])), 18);
    let area = two_slots(&slices, &[&shared, &[9]]);
    assert_eq!(refused_recovery(4, 256, &area, 16, &[1, 0, 2, 3]), 18);
    let first = two_slots(&[&[9]], &[&shared, &shared]);
    assert_eq!(refused_recovery(4, 256, &first, 16, &[1, 2, 3, 0]), 18);
}

/// A key's version is that of its object, and 0 where it was never written or is deleted.
#[test]
fn cause_21_other_version() {
    let mut rig = fresh();
    assert_eq!(accepted_expectation(&rig, 1), 0);
    run(&mut rig, &[write_of(1, 8), write_of(2, 8), write_of(1, 24)]);
    assert_eq!(accepted_expectation(&rig, 1), 3);
    assert_eq!(accepted_expectation(&rig, 2), 2);
    run(&mut rig, &[Operation::Delete(key(1))]);
    assert_eq!(accepted_expectation(&rig, 1), 0, "not its tombstone's 4");
    run(&mut rig, &[Operation::Clean(SlotMap(1))]);
    assert_eq!(accepted_expectation(&rig, 1), 0);
    assert_eq!(accepted_expectation(&rig, 2), 2);
    // Nothing is compared in a write that expects nothing.
    assert_eq!(refused(&rig, &write_of(2, 8)), 0);
    rig.cut();
    rig.must_recover(&ORDER).unwrap();
    assert_eq!(accepted_expectation(&rig, 2), 2);
}

/// 21 after 3, 5 and 7, and before 9, 11, 12 and 10.
#[test]
fn cause_21_in_order() {
    let mut rig = fresh();
    assert_eq!(refused_expecting(&rig, 1, 5, 9), 7);
    rig.start(&write_of(1, 8)).unwrap().unwrap();
    assert_eq!(refused_expecting(&rig, 1, 5, 9), 5);

    let mut spent = store(16, 1, u32::MAX - 1);
    run(&mut spent, &[write_of(1, 8)]);
    for (Version(expected), cause) in [(LAST, 9), (SPENT, 21), (Version::NONE, 21)] {
        assert_eq!(refused_expecting(&spent, 1, expected, 8), cause);
    }
    assert_eq!(refused_expecting(&spent, 2, 0, 8), 9);
    assert_eq!(refused_expecting(&spent, 2, 1, 8), 21);

    let mut full = Rig::<AsWritten>::new(32, 256, 16, vec![0; 32 * 256]);
    for number in 0..15 {
        run(&mut full, &[write_of(number, 8)]);
    }
    assert_eq!(refused_expecting(&full, 99, 0, 8), 11);
    assert_eq!(refused_expecting(&full, 99, 1, 8), 21);
    assert_eq!(accepted_expectation(&full, 3), 4);
}

/// An expectation counts also where the entry needs a new head: 21 before 12 and 10.
#[test]
fn cause_21_with_a_new_head() {
    let mut rig = store(16, u32::MAX - 2, 1);
    for _ in 0..3 {
        run(&mut rig, &[write_of(1, 56)]);
    }
    assert_eq!(refused_expecting(&rig, 1, 2, 56), 21);
    assert_eq!(refused_expecting(&rig, 1, 3, 56), 0);
    for _ in 0..6 {
        run(&mut rig, &[write_of(1, 56)]);
    }
    assert_eq!(refused_expecting(&rig, 1, 8, 56), 21);
    assert_eq!(refused_expecting(&rig, 1, 9, 56), 12);
    let mut last = store(16, u32::MAX, 1);
    for _ in 0..3 {
        run(&mut last, &[write_of(1, 56)]);
    }
    assert_eq!(refused_expecting(&last, 1, 0, 56), 21);
    assert_eq!(refused_expecting(&last, 1, 3, 56), 10);
}

const fn tables(first: u16, last: u16) -> Tables {
    Tables { first, last }
}

/// Both ends are allowed; a range whose first table is above its last has none.
#[test]
fn cause_22_outside_tables() {
    let mut rig = fresh();
    let lowest = Key { table: 0, key: 1 };
    let highest = Key {
        table: u16::MAX,
        key: 1,
    };
    for key in [lowest, key(1), highest] {
        run(&mut rig, &[Operation::Write(key, vec![1; 8])]);
        let table = key.table;
        let write = Operation::Write(key, vec![2; 8]);
        let (above, below) = (table.saturating_add(1), table.saturating_sub(1));
        for range in [
            (table, table),
            (0, table),
            (table, u16::MAX),
            (below, above),
        ] {
            let range = tables(range.0, range.1);
            assert_eq!(refused_read_in(&rig, range, key), 0);
            assert_eq!(refused_in(&rig, range, &write, 256), 0);
            assert_eq!(refused_in(&rig, range, &Operation::Delete(key), 256), 0);
        }
    }
    for range in [(0, 6), (8, u16::MAX), (8, 6), (7, 6), (8, 7), (u16::MAX, 0)] {
        let range = tables(range.0, range.1);
        assert_eq!(refused_read_in(&rig, range, key(1)), 22);
        assert_eq!(refused_in(&rig, range, &write_of(1, 8), 256), 22);
        assert_eq!(refused_expecting_in(&rig, range, 1, 2, 8), 22);
        assert_eq!(refused_in(&rig, range, &Operation::Delete(key(1)), 256), 22);
        assert_eq!(
            refused_in(&rig, range, &Operation::Clean(SlotMap(1)), 256),
            0
        );
    }
}

/// 22 after 4, and before all else: before 3, 5, 7, 21, 9 and 8.
#[test]
fn cause_22_in_order() {
    let other = tables(8, 9);
    let mut rig = store(16, 1, u32::MAX);
    assert_eq!(refused_read_in(&rig, other, key(1)), 22);
    for operation in [write_of(1, 7), Operation::Delete(key(1))] {
        assert_eq!(refused_in(&rig, other, &operation, 256), 22);
        assert_eq!(refused_in(&rig, other, &operation, 255), 22);
    }
    assert_eq!(refused_expecting_in(&rig, other, 1, 5, 7), 22);
    let genuine = rig.record();
    for (left, cause) in [(20, 22), (0, 4)] {
        let pending = Pending::Append { length: 19, left };
        rig.record = Some(Record { pending, ..genuine });
        assert_eq!(refused_read_in(&rig, other, key(1)), cause);
        assert_eq!(refused_in(&rig, other, &write_of(1, 7), 0), cause);
        assert_eq!(
            refused_in(&rig, other, &Operation::Delete(key(1)), 0),
            cause
        );
        assert_eq!(refused_expecting_in(&rig, other, 1, 5, 7), cause);
    }
}

/// A recovery that is refused with 15 leaves a pending operation pending; one that is
/// accepted drops it, and what it stored stays in the area.
#[test]
fn recoveries_in_the_middle_of_an_operation() {
    let mut rig = fresh();
    rig.keys = vec![key(1), key(2)];
    rig.strict = true;
    rig.start(&write_of(1, 56)).unwrap().unwrap();
    for _ in 0..40 {
        rig.step().unwrap().unwrap();
    }
    assert_eq!(rig.recover(16, &[0]).unwrap(), Err(Refusal::Order));
    let mut dropped = rig.clone();
    rig.finish().unwrap();
    rig.check_book().unwrap();

    dropped.must_recover(&[3, 2, 1, 0]).unwrap();
    assert_eq!(dropped.area[13..24], [0, 7, 0, 1, 0, 0, 0, 1, 0, 0, 0]);
    run(&mut dropped, &[write_of(2, 8)]);
    dropped.check_book().unwrap();
    dropped.cut();
    dropped.must_recover(&ORDER).unwrap();
}
