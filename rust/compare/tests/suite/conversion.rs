//! Areas from one edition to the other (02, R-12) by both: the same answer and the same bytes, and the way back gives the log
//! again.

use compare::pair::{convert, Pair};
use compare::Fault;
use reference::edition::{FIRST, NEXT, VERSION};
use reference::rng::Rng;
use reference::testing::calls;
use reference::testing::images::{Image, Shape, Versions};
use reference::{Edition, Key};

/// How often each answer was met, 0 for accepted ones.
type Met = [u32; 31];

/// Converts an area with both, and back again where that is accepted.
fn there_and_back(slots: u32, slot_bytes: u32, source: &[u8], met: &mut Met) -> Result<(), Fault> {
    let told = convert(slots, slot_bytes, source, source.len())?;
    met[*told.as_ref().err().unwrap_or(&0) as usize] += 1;
    let Ok(target) = told else {
        return Ok(());
    };
    let refused = |refusal| format!("the way back is refused: {refusal}");
    let back = convert(slots, slot_bytes, &target, source.len())?.map_err(refused)?;
    let again = convert(slots, slot_bytes, &back, source.len())?.map_err(refused)?;
    if again != target {
        return Err("there, back and there again is not there".into());
    }
    Ok(())
}

fn must_convert(image: &Image, met: &mut Met) {
    let Image {
        slots, slot_bytes, ..
    } = *image;
    there_and_back(slots, slot_bytes, &image.area, met)
        .unwrap_or_else(|fault| panic!("{fault}\nN {slots} S {slot_bytes}"));
}

/// Images of both editions as they are made, and then damaged a few bytes at a time.
#[test]
fn images() {
    let mut rng = Rng::new(121);
    let mut met = [0; 31];
    for _ in 0..5000 {
        let edition = *rng.pick(&Edition::ALL);
        let mut image = Shape::random(&mut rng, edition).make(&mut rng);
        must_convert(&image, &mut met);
        let whole = image.area.clone();
        for _ in 0..6 {
            if rng.one_in(3) {
                image.area.copy_from_slice(&whole);
            }
            for _ in 0..rng.within(1, 4) {
                image.damage(&mut rng);
            }
            must_convert(&image, &mut met);
        }
    }
    println!("{met:?}");
    for cause in [0, 16, 17, 18, 19, 24, 25, 28, 29, 30] {
        assert!(met[cause] > 50, "{cause}: {met:?}");
    }
}

/// Slots of the first edition that have just room, or lack a few bytes, in the second.
#[test]
fn tight_slots() {
    let mut rng = Rng::new(122);
    let mut met = [0; 31];
    for _ in 0..20_000 {
        let values = *rng.pick(&[&[0][..], &[8], &[120], &[0, 8, 24, 56, 120]]);
        let shape = Shape {
            slots: 4,
            slot_bytes: rng.within(256, 330),
            layout: &FIRST,
            older_slots: false,
            keys: 40,
            versions: Versions::InARow,
            values: values.to_vec(),
            full: false,
        };
        let image = shape.make(&mut rng);
        must_convert(&image, &mut met);
    }
    println!("{met:?}");
    assert!(met[0] > 3000 && met[29] > 3000, "{met:?}");
}

/// A version near the first edition's last, or anywhere above.
fn wide(rng: &mut Rng) -> u64 {
    match rng.below(3) {
        0 => u64::from(u32::MAX) - 3 + u64::from(rng.below(6)),
        1 => rng.bits() >> rng.below(33),
        _ => u64::from(rng.below(100)) << 32 | 1,
    }
}

/// Images of the second edition with a wide version in one entry, or a wide next version in the digest of any slot.
#[test]
fn wide_versions() {
    let mut rng = Rng::new(123);
    let mut met = [0; 31];
    for _ in 0..20_000 {
        let mut shape = Shape::random(&mut rng, Edition::SECOND);
        shape.slot_bytes = shape.slot_bytes.min(400);
        shape.older_slots = false;
        shape.versions = Versions::InARow;
        let mut image = shape.make(&mut rng);
        let at = match image.entries.is_empty() || rng.one_in(2) {
            true => (rng.below(image.slots) * image.slot_bytes) as usize + NEXT,
            false => *rng.pick(&image.entries) + VERSION,
        };
        image.area[at..at + 8].copy_from_slice(&wide(&mut rng).to_le_bytes());
        must_convert(&image, &mut met);
    }
    println!("{met:?}");
    assert!(met[0] > 3000 && met[30] > 3000, "{met:?}");
}

/// Full areas of the largest size, whose versions collide in any filter by their low bits, with and without one that is
/// shared.
#[test]
fn full_areas() {
    let mut rng = Rng::new(124);
    let mut met = [0; 31];
    for round in 0..400 {
        let edition = Edition::ALL[round / 2 % 2];
        let mut image = Image::with_many_keys(&mut rng, edition);
        if round % 2 == 0 {
            image.share_a_version(&mut rng);
        }
        must_convert(&image, &mut met);
    }
    println!("{met:?}");
    for cause in [0, 19, 29, 30] {
        assert!(met[cause] > 10, "{cause}: {met:?}");
    }
}

/// N, S and the lengths of both buffers, each right or near it: 1 unless all are.
#[test]
fn geometry() {
    let mut rng = Rng::new(125);
    let mut accepted = 0;
    for _ in 0..20_000 {
        let edition = *rng.pick(&Edition::ALL);
        let mut shape = Shape::random(&mut rng, edition);
        shape.slot_bytes = shape.slot_bytes.min(400);
        let image = shape.make(&mut rng);
        let near = |rng: &mut Rng, number: usize| match rng.below(6) {
            0 => number + 1,
            1 => number - 1,
            2 if rng.one_in(3) => rng.below(3 * number as u32) as usize,
            _ => number,
        };
        let slots = near(&mut rng, image.slots as usize) as u32;
        let slot_bytes = near(&mut rng, image.slot_bytes as usize) as u32;
        let lengths = [0; 2].map(|_| near(&mut rng, image.area.len()));
        let source: Vec<u8> = image
            .area
            .iter()
            .copied()
            .cycle()
            .take(lengths[0])
            .collect();
        let told = convert(slots, slot_bytes, &source, lengths[1]).unwrap();
        let whole = u64::from(slots) * u64::from(slot_bytes);
        let right = (4..=32).contains(&slots)
            && (256..=2048).contains(&slot_bytes)
            && lengths.iter().all(|&length| length as u64 == whole);
        assert_eq!(told == Err(1), !right, "{slots} {slot_bytes} {lengths:?}");
        accepted += u32::from(told.is_ok());
    }
    for slots in [0, 1, 33, 1 << 16, 1 << 31, u32::MAX] {
        for slot_bytes in [0, 1, 255, 2049, 1 << 16, 1 << 31, u32::MAX] {
            for length in [0, 1, 1024] {
                let told = convert(slots, slot_bytes, &vec![5; length], length).unwrap();
                assert_eq!(told, Err(1));
            }
        }
    }
    assert!(accepted > 500, "{accepted}");
}

/// Stores in use, also during an operation, are led over to the other edition and go on there: both recover them alike.
#[test]
fn histories() {
    let mut rng = Rng::new(126);
    let mut met = [0; 31];
    for round in 0..200 {
        let (slots, slot_bytes) = (rng.within(4, 7), rng.within(256, 600));
        let mut area = vec![0; (slots * slot_bytes) as usize];
        rng.fill(&mut area);
        let edition = Edition::ALL[round % 2];
        let mut pair = Pair::fresh(edition, slots, slot_bytes, 64, &area).unwrap();
        let keys: Vec<Key> = (0..20).map(|_| calls::any_key(&mut rng)).collect();
        for _ in 0..40 {
            go_on(&mut rng, &mut pair, &keys, &mut met)
                .unwrap_or_else(|fault| panic!("{fault}\n{}", pair.history()));
        }
    }
    println!("{met:?}");
    assert!(met[0] > 400 && met[29] > 50, "{met:?}");
}

/// One operation, finished or not, and perhaps a conversion.
fn go_on(rng: &mut Rng, pair: &mut Pair, keys: &[Key], met: &mut Met) -> Result<(), Fault> {
    let operation = calls::operation(rng, keys, pair.record(), 6);
    let started = pair.begin(&operation)?;
    let cut = started.is_ok() && rng.one_in(4);
    if cut {
        let left = pair.record().pending.left();
        for _ in 0..rng.below(left) {
            let _ = pair.step()?;
        }
    } else {
        pair.finish()?;
    }
    if !cut && !rng.one_in(8) {
        return Ok(());
    }
    let (slots, slot_bytes) = (pair.slots(), pair.slot_bytes());
    let told = convert(slots, slot_bytes, pair.area(), pair.area().len())?;
    met[*told.as_ref().err().unwrap_or(&0) as usize] += 1;
    let versions: Vec<_> = keys.iter().map(|&key| pair.version(key)).collect();
    pair.cut();
    if let Ok(target) = told {
        pair.age(0, &target);
    }
    pair.must_recover(&rng.order(slots))?;
    for (&key, &version) in keys.iter().zip(&versions) {
        if pair.version(key) != version {
            return Err(format!("{key:?} has another version after the conversion"));
        }
        let _ = pair.read(key)?;
    }
    Ok(())
}
