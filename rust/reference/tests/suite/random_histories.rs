//! Random histories with cuts, refused calls and recoveries at any time, over many
//! geometries. Every call is held to the book and to the naive reading of 01.

use reference::book::Operation;
use reference::rng::Rng;
use reference::rules::AsWritten;
use reference::testing::calls::Given;
use reference::testing::{calls, forged, full};
use reference::{
    clean, delete, fewest, format, join, read, step, switch, write, write_expecting, Edition,
    Pending, Refusal, SlotMap, Version,
};

use crate::rig::{same, Fault, Rig};

/// Which refusals and how many operations a run met.
#[derive(Default)]
struct Tally {
    refused: [u32; 29],
    operations: u32,
    /// Deletes done as a cleaning.
    forgotten: u32,
    /// Writes that met 12 and were accepted after a join.
    joined: u32,
    /// Starts on a store with slots of both editions.
    mixed: u32,
    cuts: u32,
}

impl Tally {
    fn count<T>(&mut self, answer: Result<T, Refusal>) {
        match answer {
            Ok(_) => self.operations += 1,
            Err(refusal) => self.refused[refusal.number() as usize] += 1,
        }
    }
}

struct Player {
    rng: Rng,
    rig: Rig<AsWritten>,
    tally: Tally,
    /// One action in so many is a cleaning.
    clean_rarity: u32,
    /// Whether the store may be switched.
    switches: bool,
}

impl Player {
    /// A store of either edition in turn.
    fn new(seed: u64) -> Player {
        let edition = Edition::ALL[(seed % 2) as usize];
        let mut rng = Rng::new(seed);
        let slots = match rng.below(3) {
            0 => 4,
            1 => rng.within(4, 8),
            _ => rng.within(4, 32),
        };
        let slot_bytes = match rng.below(3) {
            0 => 256,
            1 => rng.within(256, 400),
            _ => rng.within(256, 2048),
        };
        let cells = match rng.below(3) {
            0 => 16,
            1 => rng.within(16, 64),
            _ => rng.within(16, 4096),
        };
        let mut area = vec![0; (slots * slot_bytes) as usize];
        rng.fill(&mut area);
        format(slots, slot_bytes, edition, &mut area).unwrap();
        let mut rig = Rig::unrecovered(slots, slot_bytes, cells as usize, area);
        age(&mut rng, &mut rig, edition);
        rig.keys = (0..rng.within(2, 24))
            .map(|_| calls::any_key(&mut rng))
            .collect();
        rig.strict = true;
        rig.must_recover(&rng.order(slots)).unwrap();
        let clean_rarity = *rng.pick(&[4, 8, 30]);
        let switches = rng.one_in(2);
        Player {
            rng,
            rig,
            tally: Tally::default(),
            clean_rarity,
            switches,
        }
    }

    fn play(&mut self, actions: u32) -> Result<(), Fault> {
        if self.rng.one_in(4) {
            self.fill()?;
        }
        for _ in 0..actions {
            match self.rig.record {
                None => self.recover()?,
                Some(_) => self.act()?,
            }
        }
        self.cut();
        let order = self.rng.order(self.rig.slots);
        self.rig.must_recover(&order)
    }

    /// Fills the store, as far as versions, keys and room allow.
    fn fill(&mut self) -> Result<(), Fault> {
        let lengths = [
            *self.rng.pick(&full::LENGTHS),
            *self.rng.pick(&full::LENGTHS),
        ];
        self.tally.operations += self.rig.fill(&lengths)?;
        Ok(())
    }

    fn act(&mut self) -> Result<(), Fault> {
        match self.rng.below(40) {
            0 | 1 => self.cut(),
            2 | 3 => self.recover()?,
            4 if self.rng.one_in(2) => self.join().map(|_| ())?,
            4 => self.misuse()?,
            5 if self.switches => self.switch()?,
            5 => self.start()?,
            6 | 7 => self.few_steps()?,
            8 | 9 => {
                let key = *self.rng.pick(&self.rig.keys);
                let tables = calls::tables(&mut self.rng, key.table);
                self.rig.check_read_in(tables, key)?;
            }
            _ => {
                if self.rig.record().pending == Pending::None {
                    self.start()?;
                }
                if self.rng.one_in(4) {
                    self.few_steps()?;
                } else {
                    self.rig.finish()?;
                }
            }
        }
        Ok(())
    }

    fn start(&mut self) -> Result<(), Fault> {
        let (rng, record) = (&mut self.rng, self.rig.record());
        let operation = calls::operation(rng, &self.rig.keys, record, self.clean_rarity);
        let (book, whole) = (&self.rig.book, self.rig.work.len());
        let given = Given::random(rng, &operation, record, |key| book.version(key), whole);
        let answer = self.rig.start_with(&operation, given)?;
        self.tally.count(answer);
        let mixed = self.rig.record().edition == Edition::SECOND && self.has_old_slots();
        self.tally.mixed += u32::from(mixed);
        let forget = matches!(self.rig.record().pending, Pending::Forget { .. });
        self.tally.forgotten += u32::from(answer.is_ok() && forget);
        let is_write = matches!(operation, Operation::Write(..));
        if is_write && answer == Err(Refusal::SlotsFull) && self.rng.one_in(6) {
            self.join_and_write(&operation, given)?;
        }
        Ok(())
    }

    fn has_old_slots(&self) -> bool {
        let byte_0 = |slot: u32| self.rig.area[(slot * self.rig.slot_bytes) as usize];
        self.rig.record().map.slots().any(|slot| byte_0(slot) == 5)
    }

    fn switch(&mut self) -> Result<(), Fault> {
        if let Err(refusal) = self.rig.switch()? {
            self.tally.refused[refusal.number() as usize] += 1;
        }
        Ok(())
    }

    fn join(&mut self) -> Result<Option<(u32, u32)>, Fault> {
        let answer = self.rig.join()?;
        if let Err(refusal) = answer {
            self.tally.refused[refusal.number() as usize] += 1;
        }
        Ok(answer.ok())
    }

    /// A write that met 12 is accepted after the two slots are cleaned that the joining call tells, as long as there are
    /// digest numbers for both.
    fn join_and_write(&mut self, write: &Operation, given: Given) -> Result<(), Fault> {
        let Some((first, second)) = self.join()? else {
            return Ok(());
        };
        if self.rig.record().digest.0 > u32::MAX - 2 {
            return Ok(());
        }
        let clean = Operation::Clean(SlotMap(1 << first | 1 << second));
        let cleaned = self.rig.run(&clean)?;
        same!("cleaning of the two slots", cleaned.is_ok(), true);
        let answer = self.rig.start_with(write, given)?;
        same!("write after a join", answer.is_ok(), true);
        self.tally.joined += 1;
        Ok(())
    }

    fn few_steps(&mut self) -> Result<(), Fault> {
        let steps = calls::steps(&mut self.rng, self.rig.record().pending.left());
        for _ in 0..steps {
            let answer = self.rig.step()?;
            if let Err(refusal) = answer {
                self.tally.refused[refusal.number() as usize] += 1;
            }
        }
        Ok(())
    }

    fn cut(&mut self) {
        self.tally.cuts += 1;
        self.rig.cut();
    }

    /// A recovery, sometimes after a cut, and often as demand 3 has it.
    fn recover(&mut self) -> Result<(), Fault> {
        let rng = &mut self.rng;
        let mut order = rng.order(self.rig.slots);
        let mut cells = self.rig.index.len();
        match rng.below(8) {
            0 => order[0] = rng.bits() as u8,
            1 => order.truncate(3),
            2 => cells = rng.below(40) as usize,
            3 => cells = rng.within(16, 4200) as usize,
            _ => {
                self.rig.must_recover(&order)?;
                return Ok(());
            }
        }
        let answer = self.rig.recover(cells, &order)?;
        if let Err(refusal) = answer {
            self.tally.refused[refusal.number() as usize] += 1;
        }
        Ok(())
    }

    /// Calls with a record out of range or memory of other lengths: all answer 4, whatever
    /// tables are given, and leave everything.
    fn misuse(&mut self) -> Result<(), Fault> {
        let genuine = self.rig.record();
        let record = forged::out_of_range(&mut self.rng, genuine);
        let lent = self.rng.below(3);
        let record = if lent == 0 { record } else { genuine };
        let key = self.rig.keys[0];
        let tables = calls::tables(&mut self.rng, key.table);
        let (mut area, mut index) = (self.rig.area.clone(), self.rig.index.clone());
        match lent {
            0 => {}
            1 => area.truncate(area.len() - 1),
            _ => index.push(0),
        }
        let (area_before, index_before) = (area.clone(), index.clone());
        let mut work = self.rig.work.clone();
        let starts = [
            write(record, &area, &index, &mut work, tables, key, &[0; 8]),
            write_expecting(
                record,
                &area,
                &index,
                &mut work,
                tables,
                key,
                Version::NONE,
                &[0; 8],
            ),
            delete(record, &area, &index, &mut work, tables, key),
            clean(record, &area, &index, &mut work, genuine.map),
        ];
        for started in starts {
            same!("misused start", started, (record, Err(Refusal::Record)));
        }
        let stepped = step(record, &mut area, &mut index, &work);
        same!("misused step", stepped, (record, Err(Refusal::Record)));
        let found = read(&record, &area, &index, tables, key);
        same!("misused read", found, Err(Refusal::Record));
        let told = fewest(&record);
        same!("fewest of misuse", told.is_err(), lent == 0);
        let (switched, answer) = switch(record);
        let owed = match (lent, genuine.pending) {
            (0, _) => Err(Refusal::Record),
            (_, Pending::None) => Ok(()),
            _ => Err(Refusal::Pending),
        };
        same!("switch of misuse", answer, owed);
        same!(
            "record of a refused switch",
            answer.is_ok() || switched == record,
            true
        );
        let joined = join(&record, &area, &index);
        same!("misused join", joined, Err(Refusal::Record));
        same!("work buffer of misuse", work, self.rig.work);
        same!("area of misuse", area, area_before);
        same!("index of misuse", index, index_before);
        self.tally.refused[4] += 1;
        Ok(())
    }
}

/// In some stores, counters close to their limits, as after a long history.
fn age(rng: &mut Rng, rig: &mut Rig<AsWritten>, edition: Edition) {
    if rng.one_in(6) {
        let next = u64::from(u32::MAX - rng.below(12));
        let next = match edition {
            Edition::SECOND if rng.one_in(2) => next | u64::MAX << 32,
            _ => next,
        };
        let field = match edition {
            Edition::SECOND => 9..17,
            _ => 9..13,
        };
        let length = field.len();
        rig.area[field].copy_from_slice(&next.to_le_bytes()[..length]);
        rig.book.next = Version(next);
    }
    if rng.one_in(6) {
        let number = u32::MAX - rng.below(4);
        rig.area[1..5].copy_from_slice(&number.to_le_bytes());
    }
}

fn play_all(seeds: std::ops::Range<u64>, actions: u32) {
    let mut total = Tally::default();
    for seed in seeds {
        let mut player = Player::new(seed);
        if let Err(fault) = player.play(actions) {
            panic!("seed {seed}: {fault} after\n{}", player.rig.history());
        }
        total.operations += player.tally.operations;
        total.forgotten += player.tally.forgotten;
        total.joined += player.tally.joined;
        total.mixed += player.tally.mixed;
        total.cuts += player.tally.cuts;
        for (sum, count) in total.refused.iter_mut().zip(player.tally.refused) {
            *sum += count;
        }
    }
    println!(
        "{} operations, {} of them deletes on a full store, {} joins, {} cuts, refused {:?}",
        total.operations, total.forgotten, total.joined, total.cuts, total.refused
    );
    println!("{} starts on slots of both editions", total.mixed);
    assert!(total.forgotten > 500, "{}", total.forgotten);
    assert!(total.joined > 100, "{}", total.joined);
    assert!(total.mixed > 500, "{}", total.mixed);
    for cause in (2..=15).chain(20..=23) {
        assert!(total.refused[cause] > 0, "{:?}", total.refused);
    }
}

#[test]
fn many_histories() {
    play_all(0..3000, 150);
}

#[test]
fn long_histories() {
    play_all(10_000..10_120, 2500);
}
