//! Stores that are filled until no write is accepted (02, R-4): every key is deleted, cut after every store, and short
//! histories go on from there.

use compare::pair::Pair;
use compare::Fault;
use reference::book::Operation;
use reference::rng::Rng;
use reference::testing::choices::{Choice, A, B, ORDERS};
use reference::testing::full::{other, tight_slot, LENGTHS, SPREADS, TIGHT};
use reference::{Edition, Key, Pending};

use crate::short_histories::Explorer;

/// Two stores of four slots, filled with values of these lengths.
fn filled(edition: Edition, slot_bytes: u32, keys: &[Key], lengths: &[usize]) -> Pair {
    let area = vec![0xEE; 4 * slot_bytes as usize];
    let pair = Pair::fresh(edition, 4, slot_bytes, 64, &area).and_then(|mut pair| {
        pair.fill(keys, lengths)?;
        Ok(pair)
    });
    pair.unwrap_or_else(|fault| panic!("{fault}"))
}

/// Two such stores, in whose head no tombstone fits.
fn tight(edition: Edition, keys: &[Key]) -> Pair {
    filled(edition, tight_slot(edition), keys, &TIGHT)
}

/// Deletes a key, which must be accepted; cut before and after every store. Tells whether it was done as a cleaning.
fn delete(pair: &mut Pair, key: Key) -> Result<bool, Fault> {
    let stores = pair.begin(&Operation::Delete(key))?;
    let stores = stores.map_err(|refusal| format!("delete refused: {refusal}"))?;
    let forget = matches!(pair.record().pending, Pending::Forget { .. });
    for done in 0..=stores {
        for order in &ORDERS {
            let mut copy = pair.clone();
            copy.cut();
            copy.must_recover(order)?;
            let _ = copy.read(key)?;
        }
        if done < stores {
            let _ = pair.step()?;
        }
    }
    match pair.read(key)? {
        Err(8) => Ok(forget),
        told => Err(format!("read of a deleted key: {told:?}")),
    }
}

/// Deletes every present key in the order given; then nothing is kept by a cleaning of all slots. Tells how many
/// deletes were done as cleanings.
fn delete_all(pair: &mut Pair, keys: &[Key]) -> Result<u32, Fault> {
    let mut forgotten = 0;
    for key in keys {
        if pair.read(*key)?.is_ok() {
            forgotten += u32::from(delete(pair, *key)?);
        }
    }
    let all = Operation::Clean(pair.record().map);
    // A digest alone, the 0 before it and the one after it.
    let stores = match pair.record().edition {
        Edition::SECOND => 19,
        _ => 15,
    };
    match pair.begin(&all)? {
        Ok(told) if told == stores => pair.finish().map(|()| forgotten),
        answer => Err(format!("cleaning of an empty store: {answer:?}")),
    }
}

fn must<T>(pair: &mut Pair, done: Result<T, Fault>) -> T {
    done.unwrap_or_else(|fault| panic!("{fault} after\n{}", pair.history()))
}

/// The spreads of keys in a store of each edition.
fn spreads() -> impl Iterator<Item = (Edition, [Key; 9])> {
    Edition::ALL
        .into_iter()
        .flat_map(|edition| SPREADS.map(|spread| (edition, spread)))
}

#[test]
fn every_key_of_a_tight_store() {
    for (edition, spread) in spreads() {
        let mut reversed = spread;
        reversed.reverse();
        for order in [spread, reversed] {
            let mut pair = tight(edition, &spread);
            let done = delete_all(&mut pair, &order);
            assert!(must(&mut pair, done) > 0);
        }
    }
}

#[test]
fn every_key_of_random_full_stores() {
    let mut forgotten = 0;
    for seed in 0..120 {
        let mut rng = Rng::new(seed);
        let slot_bytes = match rng.below(2) {
            0 => 256,
            _ => rng.within(256, 420),
        };
        let mut keys: Vec<Key> = (0..rng.within(2, 50)).map(other).collect();
        let lengths: Vec<usize> = (0..rng.within(1, 6)).map(|_| *rng.pick(&LENGTHS)).collect();
        let edition = Edition::ALL[(seed % 2) as usize];
        let mut pair = filled(edition, slot_bytes, &keys, &lengths);
        for last in (1..keys.len()).rev() {
            keys.swap(last, rng.below(last as u32 + 1) as usize);
        }
        let done = delete_all(&mut pair, &keys);
        forgotten += must(&mut pair, done);
    }
    println!("{forgotten} deletes done as cleanings");
    assert!(forgotten > 150, "{forgotten}");
}

/// Every history of up to three operations from a tight store, cut after every store.
#[test]
fn short_histories() {
    for (edition, spread) in spreads() {
        let mut pair = tight(edition, &spread);
        let mut explorer = Explorer {
            choices: vec![
                Choice::Delete(A),
                Choice::Delete(B),
                Choice::Write(A, 8),
                Choice::CleanHead,
            ],
            histories: 0,
            cuts: 0,
            switches: false,
        };
        let done = explorer.explore(&pair, 3, false);
        must(&mut pair, done);
        println!("{} histories, {} cuts", explorer.histories, explorer.cuts);
        assert!(explorer.histories > 84);
    }
}
