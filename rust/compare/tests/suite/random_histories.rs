//! Random histories with cuts, refused calls and recoveries at any time, over many geometries and in both editions.

use compare::pair::Pair;
use compare::Fault;
use reference::book::Operation;
use reference::rng::Rng;
use reference::testing::{calls, full};
use reference::{Edition, Key, Pending, Tables, Version};

/// How many operations, cuts and refusals of each cause a run met.
#[derive(Default)]
struct Tally {
    operations: u32,
    /// Deletes done as a cleaning.
    forgotten: u32,
    /// Writes that met 12 and were accepted after a join.
    joined: u32,
    /// Starts on slots of both editions.
    mixed: u32,
    cuts: u32,
    refused: [u32; 29],
}

impl Tally {
    fn count<T>(&mut self, answer: Result<T, u32>) {
        match answer {
            Ok(_) => self.operations += 1,
            Err(refusal) => self.refused[refusal as usize] += 1,
        }
    }
}

struct Player {
    rng: Rng,
    pair: Pair,
    keys: Vec<Key>,
    tally: Tally,
    /// One operation in so many is a cleaning.
    clean_rarity: u32,
    /// Whether the store may be switched.
    switches: bool,
}

impl Player {
    /// A store of either edition in turn.
    fn new(seed: u64) -> Result<Player, Fault> {
        let edition = Edition::ALL[(seed % 2) as usize];
        let mut rng = Rng::new(seed);
        let slots = match rng.below(4) {
            0 | 1 => 4,
            2 => rng.within(4, 8),
            _ => rng.within(4, 32),
        };
        let slot_bytes = match rng.below(4) {
            0 | 1 => 256,
            2 => rng.within(256, 400),
            _ => rng.within(256, 2048),
        };
        let cells = match rng.below(4) {
            0 | 1 => 16,
            2 => rng.within(16, 64),
            _ => rng.within(16, 4096),
        };
        let mut area = vec![0; (slots * slot_bytes) as usize];
        rng.fill(&mut area);
        let mut pair = Pair::unrecovered(slots, slot_bytes, cells as usize, &area);
        pair.format(slots, slot_bytes, edition)?
            .expect("the geometry is right");
        age(&mut rng, &mut pair, edition);
        let keys = (0..rng.within(2, 24))
            .map(|_| calls::any_key(&mut rng))
            .collect();
        pair.must_recover(&rng.order(slots))?;
        let clean_rarity = *rng.pick(&[4, 8, 30]);
        let switches = rng.one_in(2);
        Ok(Player {
            rng,
            pair,
            keys,
            tally: Tally::default(),
            clean_rarity,
            switches,
        })
    }

    fn play(&mut self, actions: u32) -> Result<(), Fault> {
        match self.rng.below(12) {
            0 | 1 => self.give_entries()?,
            2..=4 => {
                let lengths = [
                    *self.rng.pick(&full::LENGTHS),
                    *self.rng.pick(&full::LENGTHS),
                ];
                self.tally.operations += self.pair.fill(&self.keys, &lengths)?;
            }
            _ => {}
        }
        for _ in 0..actions {
            if self.pair.is_recovered() {
                self.act()?;
            } else {
                self.recover()?;
            }
        }
        self.cut();
        let _ = self.pair.scan_in(Tables::ALL, self.keys[0])?;
        let order = self.rng.order(self.pair.slots());
        self.pair.must_recover(&order)?;
        for key in &self.keys {
            let _ = self.pair.read(*key)?;
        }
        Ok(())
    }

    /// Gives every key an entry, as far as there is room.
    fn give_entries(&mut self) -> Result<(), Fault> {
        for key in self.keys.clone() {
            let answer = self.pair.begin(&Operation::Write(key, vec![7; 8]))?;
            self.tally.count(answer);
            self.pair.finish()?;
        }
        Ok(())
    }

    fn act(&mut self) -> Result<(), Fault> {
        match self.rng.below(40) {
            0 | 1 => self.cut(),
            2 | 3 => self.recover()?,
            4 if self.rng.one_in(2) => {
                let answer = self.pair.join()?;
                self.tally.count(answer);
            }
            5 if self.switches => {
                let answer = self.pair.switch()?;
                self.tally.count(answer);
            }
            4 | 5 => self.start()?,
            6 | 7 => self.few_steps()?,
            8..=11 => {
                let key = *self.rng.pick(&self.keys);
                let tables = calls::tables(&mut self.rng, key.table);
                let answer = self.pair.scan_in(tables, key)?;
                self.tally.count(answer);
            }
            _ => {
                if self.pair.record().pending.left() == 0 {
                    self.start()?;
                }
                if self.rng.one_in(4) {
                    self.few_steps()?;
                } else {
                    self.pair.finish()?;
                }
            }
        }
        Ok(())
    }

    fn start(&mut self) -> Result<(), Fault> {
        let (rng, record) = (&mut self.rng, self.pair.record());
        let operation = calls::operation(rng, &self.keys, record, self.clean_rarity);
        let answer = self.pair.start_somehow(rng, &operation)?;
        self.tally.count(answer);
        let mixed = record.edition == Edition::SECOND && !self.pair.old_slots().is_empty();
        self.tally.mixed += u32::from(mixed);
        let forget = matches!(self.pair.record().pending, Pending::Forget { .. });
        self.tally.forgotten += u32::from(answer.is_ok() && forget);
        let is_write = matches!(operation, Operation::Write(..));
        let refused = is_write && answer == Err(12) && record.digest.0 <= u32::MAX - 2;
        if refused && self.rng.one_in(6) {
            self.join_and_write(&operation)?;
        }
        Ok(())
    }

    /// A write that met 12 is accepted once two slots are joined, if there are such.
    fn join_and_write(&mut self, write: &Operation) -> Result<(), Fault> {
        if self.pair.join_and_clean()?.is_ok() {
            if let Err(refusal) = self.pair.begin(write)? {
                return Err(format!("write after a join refused: {refusal}"));
            }
            self.tally.joined += 1;
        }
        Ok(())
    }

    fn few_steps(&mut self) -> Result<(), Fault> {
        let steps = calls::steps(&mut self.rng, self.pair.record().pending.left());
        for _ in 0..steps {
            if let Err(refusal) = self.pair.step()? {
                self.tally.refused[refusal as usize] += 1;
            }
        }
        Ok(())
    }

    fn cut(&mut self) {
        self.tally.cuts += 1;
        self.pair.cut();
    }

    /// A recovery, sometimes after a cut, and sometimes one that is refused.
    fn recover(&mut self) -> Result<(), Fault> {
        let rng = &mut self.rng;
        let mut order = rng.order(self.pair.slots());
        let mut cells = self.pair.cells();
        match rng.below(8) {
            0 => order[0] = rng.bits() as u8,
            1 => order.truncate(3),
            2 => cells = rng.below(40) as usize,
            3 => {
                let most = *rng.pick(&[24, 40, 4200]);
                cells = rng.within(16, most) as usize;
            }
            _ => return self.pair.must_recover(&order),
        }
        let answer = self.pair.recover(cells, &order)?;
        if let Err(refusal) = answer {
            self.tally.refused[refusal as usize] += 1;
        }
        Ok(())
    }
}

/// In some stores, counters close to their limits, as after a long history; in those of the second edition also versions
/// close to the first's.
fn age(rng: &mut Rng, pair: &mut Pair, edition: Edition) {
    if rng.one_in(6) {
        let next = u64::from(u32::MAX - rng.below(12));
        pair.age_next(Version(match edition {
            Edition::SECOND if rng.one_in(2) => next | u64::MAX << 32,
            _ => next,
        }));
    }
    if rng.one_in(6) {
        pair.age_number(u32::MAX - rng.below(4));
    }
}

fn play_all(seeds: std::ops::Range<u64>, actions: u32) -> Tally {
    let mut total = Tally::default();
    for seed in seeds {
        let mut player = Player::new(seed).unwrap_or_else(|fault| panic!("seed {seed}: {fault}"));
        if let Err(fault) = player.play(actions) {
            panic!("seed {seed}: {fault} after\n{}", player.pair.history());
        }
        total.operations += player.tally.operations;
        total.forgotten += player.tally.forgotten;
        total.joined += player.tally.joined;
        total.mixed += player.tally.mixed;
        total.cuts += player.tally.cuts;
        for (sum, count) in total.refused.iter_mut().zip(player.tally.refused) {
            *sum += count;
        }
    }
    println!(
        "{} accepted calls, {} of them deletes on a full store, {} joins, {} cuts, refused {:?}",
        total.operations, total.forgotten, total.joined, total.cuts, total.refused
    );
    println!("{} starts on slots of both editions", total.mixed);
    assert!(total.forgotten > 300, "{}", total.forgotten);
    assert!(total.joined > 100, "{}", total.joined);
    assert!(total.mixed > 500, "{}", total.mixed);
    total
}

/// Many short histories.
fn short_histories(seeds: std::ops::Range<u64>) {
    let total = play_all(seeds, 40);
    for cause in (2..=3).chain(5..=15).chain(20..=23) {
        assert!(total.refused[cause] > 0, "{:?}", total.refused);
    }
}

// Two halves, so that they run side by side.
#[test]
fn many_histories() {
    short_histories(0..15_000);
}

#[test]
fn more_histories() {
    short_histories(15_000..30_000);
}

/// A few long ones, in which heads are replaced many times.
#[test]
fn long_histories() {
    play_all(1_000_000..1_000_120, 2500);
}
