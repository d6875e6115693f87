//! Images that no call of the store made, valid and damaged: where recovery accepts one, both go on alike, through
//! operations, cuts and recoveries.

use compare::pair::Pair;
use compare::Fault;
use reference::rng::Rng;
use reference::testing::calls;
use reference::testing::images::{Image, Shape};
use reference::{Edition, Key};

/// How many images were recovered, and of the calls on them how many were accepted and refused by each cause.
#[derive(Default)]
struct Tally {
    recovered: u32,
    accepted: u32,
    refused: [u32; 29],
}

impl Tally {
    fn count(&mut self, answer: Result<u32, u32>) {
        match answer {
            Ok(_) => self.accepted += 1,
            Err(refusal) => self.refused[refusal as usize] += 1,
        }
    }
}

/// Recovers an image and, where that is accepted, makes a few operations on it, some of which a cut ends.
fn go_on(rng: &mut Rng, image: &Image, cells: usize, tally: &mut Tally) -> Result<(), Fault> {
    let mut pair = Pair::unrecovered(image.slots, image.slot_bytes, cells, &image.area);
    if let Err(refusal) = pair.recover(cells, &rng.order(image.slots))? {
        tally.refused[refusal as usize] += 1;
        return Ok(());
    }
    tally.recovered += 1;
    let keys: Vec<Key> = (0..8).map(|_| image.some_key(rng)).collect();
    for _ in 0..8 {
        if rng.one_in(6) {
            let _ = pair.switch()?;
        }
        let operation = calls::operation(rng, &keys, pair.record(), 4);
        tally.count(pair.start_somehow(rng, &operation)?);
        if rng.one_in(4) {
            for _ in 0..calls::steps(rng, pair.record().pending.left()) {
                let _ = pair.step()?;
            }
            pair.cut();
            pair.must_recover(&rng.order(image.slots))?;
        } else {
            pair.finish()?;
        }
        let _ = pair.read(*rng.pick(&keys))?;
        if let Err(refusal) = pair.join()? {
            tally.refused[refusal as usize] += 1;
        }
    }
    Ok(())
}

fn play_all(seed: u64, rounds: u32, damages: u32) -> Tally {
    let mut rng = Rng::new(seed);
    let mut tally = Tally::default();
    for round in 0..rounds {
        let edition = *rng.pick(&Edition::ALL);
        let mut shape = Shape::random(&mut rng, edition);
        shape.slot_bytes = shape.slot_bytes.min(700);
        let mut image = shape.make(&mut rng);
        for _ in 0..rng.below(damages + 1) {
            image.damage(&mut rng);
        }
        let cells = *rng.pick(&[16, 100, 4096]);
        if let Err(fault) = go_on(&mut rng, &image, cells, &mut tally) {
            panic!("round {round}: {fault}");
        }
    }
    println!(
        "{} images, {} recovered, {} operations accepted, refused {:?}",
        rounds, tally.recovered, tally.accepted, tally.refused
    );
    tally
}

#[test]
fn valid_images_live_on() {
    let tally = play_all(31, 4000, 0);
    assert!(tally.recovered > 2000 && tally.accepted > 10_000);
    for cause in [7, 8, 11, 12, 13, 14, 21, 22, 23] {
        assert!(tally.refused[cause] > 10, "{:?}", tally.refused);
    }
}

#[test]
fn damaged_images_go_on() {
    let tally = play_all(32, 12_000, 3);
    assert!(tally.recovered > 4000 && tally.accepted > 20_000);
    for cause in (17..=20).chain([24, 25, 28]) {
        assert!(tally.refused[cause] > 10, "{:?}", tally.refused);
    }
}
