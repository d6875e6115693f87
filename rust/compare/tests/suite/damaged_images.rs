//! Images valid and damaged: both recover them alike, in any order, and read every key alike.

use compare::pair::Pair;
use compare::Fault;
use reference::edition::FIRST;
use reference::rng::Rng;
use reference::testing::calls;
use reference::testing::images::{Image, Shape};
use reference::Edition;

/// Recovers an image with both. Gives 0 or the refusal.
fn recover(rng: &mut Rng, image: &Image, cells: usize) -> Result<u32, Fault> {
    let mut order = rng.order(image.slots);
    if rng.one_in(60) {
        let place = rng.below(image.slots) as usize;
        order[place] = rng.bits() as u8;
    }
    let mut pair = Pair::unrecovered(image.slots, image.slot_bytes, cells, &image.area);
    let key = image.some_key(rng);
    let tables = calls::tables(rng, key.table);
    let scanned = pair.scan_in(tables, key)?;
    match pair.recover(cells, &order)? {
        // Whatever recovery tells of the area a scan tells as well; the order and the cells do not concern it.
        Err(refusal) if ![15, 20].contains(&refusal) && scanned != Err(refusal) => {
            Err(format!("recovery {refusal}, scan {scanned:?}"))
        }
        Err(refusal) => Ok(refusal),
        Ok(()) => {
            for _ in 0..12 {
                let _ = pair.read(image.some_key(rng))?;
            }
            let _ = pair.scan_in(tables, key)?;
            Ok(0)
        }
    }
}

fn must_recover(rng: &mut Rng, image: &Image, cells: usize, met: &mut [u32; 29]) {
    let cause = recover(rng, image, cells)
        .unwrap_or_else(|fault| panic!("{fault}\nN {} S {}", image.slots, image.slot_bytes));
    met[cause as usize] += 1;
}

#[test]
fn whole_images() {
    let mut rng = Rng::new(1);
    let mut met = [0; 29];
    for _ in 0..8000 {
        let edition = *rng.pick(&Edition::ALL);
        let image = Shape::random(&mut rng, edition).make(&mut rng);
        let cells = *rng.pick(&[16, 17, 500, 4095, 4096]);
        must_recover(&mut rng, &image, cells, &mut met);
    }
    println!("{met:?}");
    assert!(met[0] > 2000 && met[20] > 1000, "{met:?}");
}

/// Images, each damaged a few bytes at a time, in twelve ways one after the other and apart.
fn damage_all(seed: u64) {
    let mut rng = Rng::new(seed);
    let mut met = [0; 29];
    for _ in 0..8000 {
        let edition = *rng.pick(&Edition::ALL);
        let mut image = Shape::random(&mut rng, edition).make(&mut rng);
        let whole = image.area.clone();
        for _ in 0..12 {
            if rng.one_in(3) {
                image.area.copy_from_slice(&whole);
            }
            for _ in 0..rng.within(1, 4) {
                image.damage(&mut rng);
            }
            let cells = *rng.pick(&[16, 100, 4096]);
            must_recover(&mut rng, &image, cells, &mut met);
        }
    }
    println!("{met:?}");
    assert!(met[0] > 10_000, "{met:?}");
    let told = [&met[15..=20], &met[24..=25], &met[28..]].concat();
    assert!(told.iter().all(|&count| count > 500), "{met:?}");
}

// Two halves, so that they run side by side.
#[test]
fn damaged_images() {
    damage_all(2);
}

#[test]
fn more_damaged_images() {
    damage_all(5);
}

/// Bytes that are few kinds only, so that much looks like entries: those of the first edition, or of both.
#[test]
fn random_bytes() {
    let mut rng = Rng::new(3);
    let mut met = [0; 29];
    for _ in 0..4000 {
        let (slots, slot_bytes) = (rng.within(4, 32), rng.within(256, 600));
        let mut area = vec![0; (slots * slot_bytes) as usize];
        let kinds = *rng.pick(&[8, 14]);
        for byte in &mut area {
            *byte = rng.below(kinds) as u8;
        }
        let image = Image {
            slots,
            slot_bytes,
            layout: &FIRST,
            area,
            entries: Vec::new(),
            head: 0,
        };
        must_recover(&mut rng, &image, 64, &mut met);
    }
    println!("{met:?}");
    assert!(met[16] > 100 && met[24] > 1000, "{met:?}");
}

/// Full areas whose versions collide in any filter by their low bits, with and without one that is shared.
#[test]
fn shared_versions_in_full_areas() {
    let mut rng = Rng::new(4);
    let mut met = [0; 29];
    for round in 0..300 {
        let edition = Edition::ALL[round / 2 % 2];
        let mut image = Image::with_many_keys(&mut rng, edition);
        if round % 2 == 0 {
            image.share_a_version(&mut rng);
        }
        must_recover(&mut rng, &image, 4096, &mut met);
    }
    println!("{met:?}");
    assert!(met[0] > 50 && met[19] > 50, "{met:?}");
}
