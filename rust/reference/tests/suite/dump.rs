//! The dump program's output.

use reference::book::Operation;
use reference::dump;
use reference::rules::AsWritten;
use reference::Key;

use crate::rig::Rig;

fn input(slots: u8, slot_bytes: u16, area: &[u8]) -> Vec<u8> {
    let mut input = vec![slots];
    input.extend(slot_bytes.to_le_bytes());
    input.extend(area);
    input
}

fn store(writes: &[(u16, u32, usize)]) -> Rig<AsWritten> {
    let mut rig = Rig::new(4, 256, 16, vec![0; 1024]);
    for &(table, key, bytes) in writes {
        let key = Key { table, key };
        rig.run(&Operation::Write(key, vec![0x11; bytes]))
            .unwrap()
            .unwrap();
    }
    rig
}

#[test]
fn after_case_2() {
    let rig = store(&[(7, 9, 8)]);
    let expected = "next 2 digest 1 keys 1\n7 9 1 1\n";
    assert_eq!(dump(&input(4, 256, &rig.area)), expected);
}

#[test]
fn sorted_by_table_then_key_without_the_deleted() {
    let mut rig = store(&[
        (9, 1, 8),
        (0, u32::MAX, 24),
        (0, 3, 8),
        (65535, 0, 56),
        (0, 3, 24),
        (8, 8, 120),
    ]);
    rig.run(&Operation::Delete(Key { table: 9, key: 1 }))
        .unwrap()
        .unwrap();
    let expected = "next 8 digest 2 keys 4\n0 3 5 2\n0 4294967295 2 2\n8 8 6 7\n65535 0 4 3\n";
    assert_eq!(dump(&input(4, 256, &rig.area)), expected);
}

#[test]
fn refused_inputs() {
    let area = store(&[]).area;
    assert_eq!(dump(&[]), "refused 1\n");
    assert_eq!(dump(&[4, 0]), "refused 1\n");
    assert_eq!(dump(&[4, 0, 1]), "refused 1\n");
    assert_eq!(dump(&input(4, 256, &area[1..])), "refused 1\n");
    assert_eq!(dump(&input(3, 256, &area[..768])), "refused 1\n");
    assert_eq!(dump(&input(255, 256, &area)), "refused 1\n");
    assert_eq!(dump(&input(4, 256, &[0; 1024])), "refused 16\n");
    assert_eq!(dump(&input(4, 256, &area)), "next 1 digest 1 keys 0\n");
}
