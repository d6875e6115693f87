//! What `inspect` says of an image is what the proved store says: the verdict, and each entry that it calls present.

use compare::translate;
use inspect::entries::Reason;
use inspect::image::{Geometry, Image};
use inspect::report::Report;
use kurdavel::Tables;
use reference::rng::Rng;
use reference::testing::images::{Image as Made, Shape};
use reference::Edition;

/// Holds the report of an image to the proved store. Gives 0 or the refusal.
fn inspect(rng: &mut Rng, made: Made) -> usize {
    let geometry = Geometry {
        slots: made.slots,
        slot_bytes: made.slot_bytes,
    };
    let image = Image::new(geometry, made.area).expect("the generators keep the limits");
    let report = Report::of(&image);
    let mut index = vec![0; 4096];
    let order = rng.order(image.slots);
    let (slots, slot_bytes) = (image.slots, image.slot_bytes);
    let answer = kurdavel::recover(slots, slot_bytes, &order, &image.area, &mut index);
    let told = report.verdict.as_ref();
    let told = told.map(|_| ()).map_err(|told| told.refusal.number());
    match answer {
        Err(refusal) => {
            assert_eq!(told, Err(refusal.number()));
            refusal.number() as usize
        }
        Ok(record) => {
            assert_eq!(told, Ok(()));
            check_present(&image, &report, &record, &index);
            0
        }
    }
}

/// A key is read exactly if one of its entries is called present, and as that entry.
fn check_present(image: &Image, report: &Report, record: &kurdavel::Record, index: &[u32]) {
    let is_present = |reason: Reason| reason == Reason::Present;
    for entry in &report.entries {
        let key = translate::key(entry.fields.key);
        let found = record.read(&image.area, index, Tables::ALL, key);
        let told = found.map(translate::proved_found);
        let fields = (entry.fields.version.0, entry.fields.kind);
        if is_present(entry.reason) {
            assert_eq!(told, Ok(fields));
            let value = record.read_value(&image.area, index, Tables::ALL, key);
            assert_eq!(value, entry.value);
        } else {
            assert_ne!(told, Ok(fields));
        }
    }
}

#[test]
fn verdicts_and_present_entries() {
    let mut rng = Rng::new(34);
    let mut met = [0; 64];
    for round in 0..2400 {
        let edition = *rng.pick(&Edition::ALL);
        let mut made = Shape::random(&mut rng, edition).make(&mut rng);
        if round % 3 > 0 {
            for _ in 0..rng.within(1, 5) {
                made.damage(&mut rng);
            }
        }
        met[inspect(&mut rng, made)] += 1;
    }
    println!("{met:?}");
    let refused: u32 = met[1..].iter().sum();
    assert!(met[0] > 500 && refused > 300, "{met:?}");
    assert!(met[18] > 20 && met[19] > 5 && met[28] > 5, "{met:?}");
}
