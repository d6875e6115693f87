//! The next store told before the step that makes it.

use reference::book::Operation;
use reference::rules::AsWritten;
use reference::{next_store, Key, Pending, Refusal, SlotMap, Store};

use crate::rig::Rig;

const KEY: Key = Key { table: 7, key: 9 };

fn fresh() -> Rig<AsWritten> {
    Rig::new(4, 256, 16, vec![0xEE; 1024])
}

/// The stores that are told one after another up to the end of an operation. After each step the copy that gets
/// only what was told is the area.
fn told(rig: &mut Rig<AsWritten>, operation: &Operation) -> Vec<(usize, u8)> {
    let stores = rig.start(operation).unwrap().expect("accepted");
    let mut device = rig.area.clone();
    let told: Vec<(usize, u8)> = (0..stores)
        .map(|_| {
            let Store { place, byte } = next_store(&rig.record(), &rig.area, &rig.work).unwrap();
            rig.step().unwrap().expect("accepted");
            device[place] = byte;
            assert_eq!(device, rig.area);
            (place, byte)
        })
        .collect();
    assert_eq!(rig.record().pending, Pending::None);
    told
}

/// Cases 2, 4 and 5 of 01, store by store.
#[test]
fn worked_cases() {
    let mut rig = fresh();
    let entry = [1, 7, 0, 9, 0, 0, 0, 1, 0, 0, 0];
    let written = told(&mut rig, &Operation::Write(KEY, vec![0x11; 8]));
    let mut expected: Vec<(usize, u8)> = (1..11).map(|at| (13 + at, entry[at])).collect();
    expected.extend((24..32).map(|place| (place, 0x11)));
    expected.extend([(32, 0), (13, 1)]);
    assert_eq!(written, expected);

    let tombstone = [4, 7, 0, 9, 0, 0, 0, 2, 0, 0, 0];
    let mut expected: Vec<(usize, u8)> = (1..11).map(|at| (32 + at, tombstone[at])).collect();
    expected.extend([(43, 0), (32, 4)]);
    assert_eq!(told(&mut rig, &Operation::Delete(KEY)), expected);

    let digest = [5, 2, 0, 0, 0, 2, 0, 0, 0, 3, 0, 0, 0];
    let mut expected = vec![(256, 0)];
    expected.extend((1..13).map(|at| (256 + at, digest[at])));
    expected.extend([(269, 0), (256, 5)]);
    assert_eq!(told(&mut rig, &Operation::Clean(SlotMap(1))), expected);
}

/// 4 before 3, and 3 before 6. The index is not lent, so that its length is no cause.
#[test]
fn causes_in_order() {
    let mut rig = fresh();
    let ask = |rig: &Rig<AsWritten>, area: usize, work: usize| {
        let area = [&rig.area[..], &[0]].concat()[..area].to_vec();
        next_store(&rig.record(), &area, &rig.work[..work])
    };
    assert_eq!(ask(&rig, 1024, 256), Err(Refusal::NonePending));
    assert_eq!(ask(&rig, 1024, 255), Err(Refusal::WorkLength));
    for area in [0, 1023, 1025] {
        assert_eq!(ask(&rig, area, 255), Err(Refusal::Record));
    }
    rig.start(&Operation::Write(KEY, vec![1; 8]))
        .unwrap()
        .expect("accepted");
    assert_eq!(ask(&rig, 1024, 256), Ok(Store { place: 14, byte: 7 }));
    assert_eq!(ask(&rig, 1024, 255), Err(Refusal::WorkLength));
    assert_eq!(ask(&rig, 1023, 256), Err(Refusal::Record));
    let mut record = rig.record();
    record.present_bytes[31] = 244;
    rig.record = Some(record);
    assert_eq!(ask(&rig, 1024, 255), Err(Refusal::Record));
}

/// An idle record is told nothing, also right after the last step.
#[test]
fn nothing_after_the_last_step() {
    let mut rig = fresh();
    rig.run(&Operation::Write(KEY, vec![1; 8]))
        .unwrap()
        .expect("accepted");
    let told = next_store(&rig.record(), &rig.area, &rig.work);
    assert_eq!(told, Err(Refusal::NonePending));
}
