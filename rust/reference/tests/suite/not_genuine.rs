//! Records, indexes and work buffers that no start or recovery gave: no call panics or
//! runs on, a start stores nothing, and a step alters at most one byte of the area.

use reference::rng::Rng;
use reference::testing::images::Shape;
use reference::testing::{calls, forged};
use reference::{
    clean, delete, join, next_store, read, read_value, recover, step, write, write_expecting,
    Edition, Key, Record, Refusal, SlotMap, Tables, Version,
};

/// Every call once on what was forged.
fn call_all(rng: &mut Rng, record: Record, area: &mut [u8], index: &mut [u32], work: &mut [u8]) {
    let key = Key {
        table: rng.below(3) as u16,
        key: rng.below(20),
    };
    let tables = calls::tables(rng, key.table);
    let value = vec![3; *rng.pick(&[8, 24, 56, 120, 0, 130])];
    let _ = read(&record, area, index, tables, key);
    assert!(read_value(&record, area, index, tables, key).len() <= 120);
    let _ = write(record, area, index, work, tables, key, &value);
    let expected = Version(*rng.pick(&[0, 1, record.next.0, u64::MAX]));
    let _ = write_expecting(record, area, index, work, tables, key, expected, &value);
    let _ = delete(record, area, index, work, tables, key);
    let victims = match rng.below(3) {
        0 => record.map,
        1 => SlotMap(record.map.0 & rng.bits() as u32),
        _ => SlotMap(rng.bits() as u32),
    };
    let _ = clean(record, area, index, work, victims);
    let _ = join(&record, area, index);
    let before = area.to_vec();
    let store = next_store(&record, area, work);
    let (_, answer) = step(record, area, index, work);
    let altered: Vec<usize> = (0..area.len())
        .filter(|&place| area[place] != before[place])
        .collect();
    assert!(altered.len() <= 1, "{record:?}");
    // What is told is stored there, or the step is refused.
    match (store, answer) {
        (Ok(store), Ok(_)) => {
            assert_eq!(area[store.place], store.byte);
            assert!(altered.iter().all(|&place| place == store.place));
        }
        (Ok(store), Err(_)) => assert!(altered.iter().all(|&place| place == store.place)),
        (Err(refusal), answer) => {
            let own = index.len() == record.cells as usize;
            let cause = if own { refusal } else { Refusal::Record };
            assert_eq!(answer, Err(cause));
            assert!(altered.is_empty());
        }
    }
    if let Err(refusal) = answer {
        assert!([3, 4, 6].contains(&refusal.number()));
    }
}

#[test]
fn no_call_panics_or_alters_more_than_a_byte() {
    let mut rng = Rng::new(5);
    let mut rounds = 0;
    while rounds < 30_000 {
        let edition = *rng.pick(&Edition::ALL);
        let mut shape = Shape::random(&mut rng, edition);
        shape.slot_bytes = shape.slot_bytes.min(600);
        let mut image = shape.make(&mut rng);
        let order = rng.order(image.slots);
        let mut index = vec![0; *rng.pick(&[16, 50, 4096])];
        let (slots, slot_bytes) = (image.slots, image.slot_bytes);
        let Ok(genuine) = recover(slots, slot_bytes, &image.area, &mut index, &order) else {
            continue;
        };
        for _ in 0..10 {
            rounds += 1;
            let record = forged::record(&mut rng, genuine);
            forged::spoil_index(&mut rng, &mut index, slots * slot_bytes);
            if rng.one_in(3) {
                image.damage(&mut rng);
            }
            let mut work = vec![0; slot_bytes as usize + rng.below(2) as usize];
            rng.fill(&mut work);
            call_all(&mut rng, record, &mut image.area, &mut index, &mut work);
        }
    }
}

/// An area or index of another length than the record's is refused before it is read.
#[test]
fn lengths_not_the_records_own_are_refused() {
    let mut rng = Rng::new(6);
    let image = Shape::random(&mut rng, Edition::FIRST).make(&mut rng);
    let order = rng.order(image.slots);
    let mut index = vec![0; 4096];
    let (slots, slot_bytes) = (image.slots, image.slot_bytes);
    let record = recover(slots, slot_bytes, &image.area, &mut index, &order).unwrap();
    let key = Key { table: 0, key: 0 };
    let short = &image.area[1..];
    assert_eq!(
        read(&record, short, &index, Tables::ALL, key)
            .unwrap_err()
            .number(),
        4
    );
    let answer = read(&record, &image.area, &index[1..], Tables::ALL, key);
    assert_eq!(answer.unwrap_err().number(), 4);
    assert!(read_value(&record, &[], &index, Tables::ALL, key).is_empty());
}
