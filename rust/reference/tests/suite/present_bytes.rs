//! The present bytes of each slot and the slot with the fewest (02, R-5).

use reference::book::Operation;
use reference::rules::AsWritten;
use reference::{fewest, read, DigestNumber, Key, Pending, Record, Refusal, SlotMap, Tables};

use crate::rig::Rig;

fn key(key: u32) -> Key {
    Key { table: 7, key }
}

fn write(number: u32, bytes: usize) -> Operation {
    Operation::Write(key(number), vec![0x11; bytes])
}

fn delete(number: u32) -> Operation {
    Operation::Delete(key(number))
}

fn clean(victims: u32) -> Operation {
    Operation::Clean(SlotMap(victims))
}

/// A store of four slots of 256 bytes after these operations, each record held to the whole log.
fn after(operations: &[Operation]) -> Rig<AsWritten> {
    let mut rig = Rig::new(4, 256, 16, vec![0xEE; 1024]);
    rig.strict = true;
    for operation in operations {
        rig.run(operation).unwrap().expect("accepted");
    }
    rig
}

/// The numbers of the four slots; those of slots not below N are 0.
fn numbers(rig: &Rig<AsWritten>) -> [u32; 4] {
    let bytes = rig.record().present_bytes;
    assert!(bytes[4..].iter().all(|&bytes| bytes == 0));
    [bytes[0], bytes[1], bytes[2], bytes[3]]
}

#[test]
fn whole_entries_of_present_objects() {
    let mut rig = after(&[]);
    let mut run = |operation: Operation, expected| {
        rig.run(&operation).unwrap().expect("accepted");
        assert_eq!(numbers(&rig), expected, "{operation:?}");
    };
    run(write(1, 8), [19, 0, 0, 0]);
    run(write(2, 24), [54, 0, 0, 0]);
    run(write(3, 56), [121, 0, 0, 0]);
    // Over an object of the same slot.
    run(write(2, 8), [105, 0, 0, 0]);
    // Into a new head, over an object of another slot: two numbers change.
    run(write(1, 120), [86, 131, 0, 0]);
    run(write(3, 56), [19, 198, 0, 0]);
    run(delete(2), [0, 198, 0, 0]);
    // A tombstone does not count, neither in its slot nor in the new head.
    run(clean(0b10), [0, 0, 198, 0]);
    run(clean(0b101), [0, 0, 0, 198]);
    run(delete(1), [0, 0, 0, 67]);
    run(write(1, 8), [0, 0, 0, 86]);
}

#[test]
fn numbers_during_an_operation_are_those_before_it() {
    let mut rig = after(&[write(1, 8), write(2, 56)]);
    for operation in [write(1, 24), delete(2), clean(1)] {
        let before = rig.record().present_bytes;
        rig.start(&operation).unwrap().expect("accepted");
        while rig.record().pending.left() > 0 {
            assert_eq!(rig.record().present_bytes, before);
            assert_eq!(fewest(&rig.record()), Ok(0));
            rig.step().unwrap().expect("accepted");
        }
        assert_ne!(rig.record().present_bytes, before);
    }
    assert_eq!(fewest(&rig.record()), Ok(1));
}

/// A delete that is done as a cleaning: the victim's number goes, and the rest of it is the new head's.
#[test]
fn full_delete() {
    let fill: Vec<Operation> = (0..9)
        .map(|i| write(i, [120, 56, 24][i as usize % 3]))
        .collect();
    let mut rig = after(&fill);
    assert_eq!(numbers(&rig), [233, 233, 233, 0]);
    rig.run(&delete(4)).unwrap().expect("accepted");
    assert_eq!(numbers(&rig), [233, 0, 233, 166]);
    rig.cut();
    rig.must_recover(&[2, 0, 3, 1]).unwrap();
    assert_eq!(numbers(&rig), [233, 0, 233, 166]);
}

/// A record in range that has these numbers.
fn with_numbers(map: u32, head: u32, numbers: &[(usize, u32)]) -> Record {
    let mut record = after(&[]).record();
    record.map = SlotMap(map);
    record.head = head;
    for &(slot, bytes) in numbers {
        record.present_bytes[slot] = bytes;
    }
    record
}

/// The lowest slot on a tie, and none outside the log. The numbers are taken as they stand.
#[test]
fn fewest_by_the_record() {
    assert_eq!(fewest(&with_numbers(0b0111, 2, &[])), Ok(0));
    assert_eq!(fewest(&with_numbers(0b0110, 2, &[])), Ok(1));
    let numbers = [(0, 9), (1, 7), (2, 7)];
    assert_eq!(fewest(&with_numbers(0b0111, 2, &numbers)), Ok(1));
    assert_eq!(fewest(&with_numbers(0b0101, 2, &numbers)), Ok(2));
    assert_eq!(fewest(&with_numbers(0b1101, 2, &numbers)), Ok(3));
    assert_eq!(fewest(&with_numbers(0b1000, 3, &[(3, 243)])), Ok(3));
    assert_eq!(
        fewest(&with_numbers(0b0011, 0, &[(0, 243), (1, 242)])),
        Ok(1)
    );
}

/// Any of the 32 numbers above S - 13 is 4 to every call, S - 13 itself is not.
#[test]
fn numbers_out_of_range() {
    let rig = after(&[write(1, 8)]);
    let genuine = rig.record();
    let told = |record: &Record| read(record, &rig.area, &rig.index, Tables::ALL, key(1));
    for slot in 0..32 {
        let mut record = genuine;
        record.present_bytes[slot] = 243;
        assert!(told(&record).is_ok());
        assert_eq!(fewest(&record), Ok(0));
        for above in [244, 256, 1 << 16, u32::MAX] {
            record.present_bytes[slot] = above;
            assert_eq!(told(&record), Err(Refusal::Record));
            assert_eq!(fewest(&record), Err(Refusal::Record));
        }
    }
}

#[test]
fn fewest_refuses_every_record_out_of_range() {
    let genuine = after(&[write(1, 8)]).record();
    let changes: [fn(&mut Record); 14] = [
        |record| record.slots = 3,
        |record| record.slot_bytes = 255,
        |record| record.cells = 15,
        |record| record.map = SlotMap(0b10001),
        |record| record.map = SlotMap(0b10),
        |record| record.map = SlotMap(0b1111),
        |record| record.end = 12,
        |record| record.end = 257,
        |record| record.digest = DigestNumber(0),
        |record| record.next.0 = 0,
        |record| record.next.0 = 1 << 32,
        |record| record.next.0 = u64::MAX,
        |record| record.keys = 16,
        |record| {
            record.pending = Pending::Append {
                length: 19,
                left: 0,
            }
        },
    ];
    assert_eq!(fewest(&genuine), Ok(0));
    for (number, change) in changes.into_iter().enumerate() {
        let mut record = genuine;
        change(&mut record);
        assert_eq!(fewest(&record), Err(Refusal::Record), "{number}");
    }
}
