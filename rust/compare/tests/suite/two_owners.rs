//! Two owners of one store (02, R-2): random histories with cuts and recoveries, each run twice with other bytes in the
//! values that media writes. Every answer is the same in both runs, and so is every value that servo reads; and after
//! each accepted recovery each owner reads in its tables what the book of its run holds.

use compare::pair::{Pair, Told};
use compare::Fault;
use reference::book::{Book, Event, Operation};
use reference::rng::Rng;
use reference::testing::calls::{self, Given};
use reference::{Edition, Key, Tables, Version};

/// One of the two runs.
struct Run {
    pair: Pair,
    book: Book,
}

/// What a read tells, and place and bytes of the value.
type Read = (Told, usize, Vec<u8>);

impl Run {
    fn new(
        edition: Edition,
        geometry: (u32, u32, usize),
        area: &[u8],
        digest: (u32, Version),
    ) -> Result<Run, Fault> {
        let (slots, slot_bytes, cells) = geometry;
        let (number, next) = digest;
        let mut pair = Pair::fresh(edition, slots, slot_bytes, cells, area)?;
        pair.age_number(number);
        pair.age_next(next);
        pair.must_recover(&pair.ascending())?;
        let mut book = Book::new();
        book.next = next;
        Ok(Run { pair, book })
    }

    fn start(&mut self, operation: &Operation, given: Given) -> Result<Result<u32, u32>, Fault> {
        let answer = self.pair.start(operation, given)?;
        let event = Event::Start(operation.clone(), answer.ok());
        self.book.feed(&event);
        Ok(answer)
    }

    fn step(&mut self) -> Result<Result<(u32, u64), u32>, Fault> {
        let answer = self.pair.step()?;
        self.book.feed(&Event::Step(answer.is_ok()));
        Ok(answer)
    }

    fn cut(&mut self) {
        self.pair.cut();
        self.book.feed(&Event::Cut);
    }

    fn recover(&mut self, cells: usize, order: &[u8]) -> Result<Result<(), u32>, Fault> {
        let answer = self.pair.recover(cells, order)?;
        self.book.feed(&Event::Recovery(answer.is_ok()));
        Ok(answer)
    }

    fn read(&self, tables: Tables, key: Key) -> Result<Read, Fault> {
        let (found, value) = self.pair.read_in(tables, key)?;
        let place = value.as_ptr() as usize - self.pair.area().as_ptr() as usize;
        Ok((found, place, value.to_vec()))
    }

    /// Holds a read to the book.
    fn check(&self, tables: Tables, key: Key) -> Result<(), Fault> {
        let (found, _, value) = self.read(tables, key)?;
        let owed = self.book.keys.get(&key);
        let agrees = match (&found, owed) {
            (Ok((version, _)), Some((owed, bytes))) => *version == owed.0 && value == *bytes,
            (Err(refusal), None) => *refusal == 8 && value.is_empty(),
            _ => false,
        };
        match agrees {
            true => Ok(()),
            false => Err(format!(
                "{key:?}: {found:?} {value:?}, and the book {owed:?}"
            )),
        }
    }
}

/// How often things were met.
#[derive(Default)]
struct Tally {
    accepted: u32,
    cuts: u32,
    /// Values that servo read, and values that media read which differ between the runs.
    servo: u32,
    differing: u32,
    refused: [u32; 29],
}

struct Owners {
    rng: Rng,
    runs: [Run; 2],
    /// Servo has the tables below this one, media this one and those above.
    border: u16,
    keys: Vec<Key>,
    /// Whether the second run has other bytes in servo's values too.
    servo_differs: bool,
    tally: Tally,
}

/// A key in a table of an owner.
fn key_of(rng: &mut Rng, all: Tables) -> Key {
    let any = rng.within(all.first.into(), all.last.into()) as u16;
    Key {
        table: *rng.pick(&[all.first, all.last, any]),
        key: rng.below(4),
    }
}

impl Owners {
    /// A store of either edition in turn.
    fn new(seed: u64, servo_differs: bool) -> Result<Owners, Fault> {
        let edition = Edition::ALL[(seed % 2) as usize];
        let spent = edition.layout().expect("an edition").spent();
        let mut rng = Rng::new(seed);
        let geometry = (rng.within(4, 10), *rng.pick(&[256, 256, 300, 512]), 16);
        let mut area = vec![0; (geometry.0 * geometry.1) as usize];
        rng.fill(&mut area);
        let number = if rng.one_in(8) {
            u32::MAX - rng.below(4)
        } else {
            1
        };
        let next = if rng.one_in(8) {
            Version(spent.0 - u64::from(rng.below(12)))
        } else {
            Version(1)
        };
        let run = || Run::new(edition, geometry, &area, (number, next));
        let mut owners = Owners {
            runs: [run()?, run()?],
            border: rng.within(1, u16::MAX.into()) as u16,
            rng,
            keys: Vec::new(),
            servo_differs,
            tally: Tally::default(),
        };
        for media in [false, true].into_iter().cycle().take(28) {
            let all = owners.all(media);
            owners.keys.push(key_of(&mut owners.rng, all));
        }
        Ok(owners)
    }

    /// All tables of an owner.
    fn all(&self, media: bool) -> Tables {
        match media {
            true => Tables {
                first: self.border,
                last: u16::MAX,
            },
            false => Tables {
                first: 0,
                last: self.border - 1,
            },
        }
    }

    /// Tables that an owner gives with a call: mostly all of its own, sometimes a few of them or none.
    fn some(&mut self, media: bool) -> Tables {
        let all = self.all(media);
        if !self.rng.one_in(5) {
            return all;
        }
        let mut any = || self.rng.within(all.first.into(), all.last.into()) as u16;
        Tables {
            first: any(),
            last: any(),
        }
    }

    /// The keys that an owner's call is about: mostly its own, sometimes any.
    fn keys_for(&mut self, media: bool) -> Vec<Key> {
        let any = self.rng.one_in(8);
        let is_own = |key: &&Key| any || (key.table >= self.border) == media;
        self.keys.iter().filter(is_own).copied().collect()
    }

    /// The same call in both runs, with the same answer, after which the records are the same.
    fn both<T: PartialEq + std::fmt::Debug>(
        &mut self,
        what: &str,
        mut call: impl FnMut(&mut Run, usize) -> Result<T, Fault>,
    ) -> Result<T, Fault> {
        let [first, second] = &mut self.runs;
        let (one, other) = (call(first, 0)?, call(second, 1)?);
        if one != other {
            return Err(format!("{what}: {one:?} and {other:?}"));
        }
        let recovered = (first.pair.is_recovered(), second.pair.is_recovered());
        match recovered {
            (true, true) if first.pair.record() == second.pair.record() => Ok(one),
            (false, false) => Ok(one),
            _ => Err(format!("{what}: the records differ")),
        }
    }

    fn count<T>(&mut self, answer: Result<T, u32>) {
        match answer {
            Ok(_) => self.tally.accepted += 1,
            Err(refusal) => self.tally.refused[refusal as usize] += 1,
        }
    }

    /// A start by one of the owners; media's values differ between the runs.
    fn start(&mut self) -> Result<(), Fault> {
        let media = self.rng.one_in(2);
        let keys = self.keys_for(media);
        let record = self.runs[0].pair.record();
        let operation = calls::operation(&mut self.rng, &keys, record, 12);
        let (pair, whole) = (&self.runs[0].pair, self.runs[0].pair.work_bytes());
        let version = |key| pair.version(key);
        let mut given = Given::random(&mut self.rng, &operation, record, version, whole);
        given.tables = self.some(media);
        let mut operations = [operation.clone(), operation];
        if media || self.servo_differs {
            if let Operation::Write(_, value) = &mut operations[1] {
                self.rng.fill(value);
            }
        }
        let answer = self.both("start", |run, number| run.start(&operations[number], given))?;
        self.count(answer);
        Ok(())
    }

    fn steps(&mut self, count: u32) -> Result<(), Fault> {
        for _ in 0..count {
            let answer = self.both("step", |run, _| run.step())?;
            if answer.is_err() {
                self.count(answer);
            }
        }
        Ok(())
    }

    fn left(&self) -> u32 {
        self.runs[0].pair.record().pending.left()
    }

    fn cut(&mut self) -> Result<(), Fault> {
        self.tally.cuts += 1;
        self.both("cut", |run, _| {
            run.cut();
            Ok(())
        })
    }

    /// A recovery, refused now and then; after an accepted one each owner reads what the book holds.
    fn recover(&mut self) -> Result<(), Fault> {
        let mut order = self.rng.order(self.runs[0].pair.slots());
        let mut cells = self.runs[0].pair.cells();
        match self.rng.below(8) {
            0 => order[0] = self.rng.bits() as u8,
            1 => cells = self.rng.within(14, 24) as usize,
            _ => {}
        }
        let answer = self.both("recovery", |run, _| run.recover(cells, &order))?;
        self.count(answer);
        if answer.is_ok() {
            for key in self.keys.clone() {
                let tables = self.all(key.table >= self.border);
                self.both("book", |run, _| run.check(tables, key))?;
            }
        }
        Ok(())
    }

    /// A read by one of the owners, of any key.
    fn read(&mut self) -> Result<(), Fault> {
        let media = self.rng.one_in(2);
        let tables = self.some(media);
        let keys = self.keys_for(media);
        let key = *self.rng.pick(&keys);
        let mut values = Vec::new();
        let (answer, _, _) = self.both("read", |run, _| {
            let (found, place, value) = run.read(tables, key)?;
            values.push(value);
            Ok((
                found,
                place,
                values[0].len() == values[values.len() - 1].len(),
            ))
        })?;
        self.count(answer);
        match values[0] == values[1] {
            false if !media => return Err("a value that servo reads differs".into()),
            false => self.tally.differing += 1,
            true => self.tally.servo += u32::from(!media && answer.is_ok()),
        }
        Ok(())
    }

    fn act(&mut self) -> Result<(), Fault> {
        match self.rng.below(30) {
            0 => self.cut(),
            1 | 2 => self.recover(),
            3..=9 => self.read(),
            10 | 11 => self.start(),
            12..=15 => {
                let left = self.left();
                let count = calls::steps(&mut self.rng, left);
                self.steps(count)
            }
            _ => {
                if self.left() == 0 {
                    self.start()?;
                }
                self.steps(self.left())
            }
        }
    }

    fn play(&mut self, actions: u32) -> Result<(), Fault> {
        for _ in 0..actions {
            match self.runs[0].pair.is_recovered() {
                true => self.act()?,
                false => self.recover()?,
            }
        }
        self.cut()?;
        while !self.runs[0].pair.is_recovered() {
            self.recover()?;
        }
        Ok(())
    }
}

fn play_all(seeds: std::ops::Range<u64>, servo_differs: bool) -> Result<Tally, Fault> {
    let mut total = Tally::default();
    for seed in seeds {
        let mut owners = Owners::new(seed, servo_differs)?;
        owners
            .play(150)
            .map_err(|fault| format!("seed {seed}: {fault}\n{}", owners.runs[0].pair.history()))?;
        let tally = owners.tally;
        total.accepted += tally.accepted;
        total.cuts += tally.cuts;
        total.servo += tally.servo;
        total.differing += tally.differing;
        for (sum, count) in total.refused.iter_mut().zip(tally.refused) {
            *sum += count;
        }
    }
    Ok(total)
}

#[test]
fn values_of_media_do_not_show() {
    let tally = play_all(0..4000, false).unwrap_or_else(|fault| panic!("{fault}"));
    println!(
        "{} accepted calls, {} cuts, servo read {} values, media {} that differ, refused {:?}",
        tally.accepted, tally.cuts, tally.servo, tally.differing, tally.refused
    );
    assert!(tally.servo > 1000 && tally.differing > 1000);
    for cause in (5..=15).chain(20..=22) {
        assert!(tally.refused[cause] > 0, "{cause}: {:?}", tally.refused);
    }
}

/// The comparison of the runs can fail: other bytes in servo's own values are seen.
#[test]
fn values_of_servo_would_show() {
    let fault = play_all(0..50, true).err().expect("a difference");
    assert!(
        fault.contains("a value that servo reads differs"),
        "{fault}"
    );
}
