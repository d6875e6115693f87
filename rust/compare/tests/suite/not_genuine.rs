//! Records, indexes, areas and work buffers that no start or recovery gave: no call leaves what it is lent, a start
//! changes no byte of the area, and a step at most one. Where the range and length tests refuse the record, both
//! answer 4; where a step is refused with 3 or 6, both do. The slot with the fewest present bytes and the switch are the same
//! for both, whatever the record says.

use compare::guarded::Guarded;
use compare::translate;
use reference::rng::Rng;
use reference::testing::images::Shape;
use reference::testing::{calls, forged};
use reference::{Edition, Key, Pending, Record};

/// What is lent to the calls of one round.
struct Lent {
    record: Record,
    area: Guarded<u8>,
    index: Guarded<u32>,
    work: Guarded<u8>,
}

impl Lent {
    /// Whether range and lengths of the record let it pass 4.
    fn passes(&self) -> bool {
        let area = self.record.slots as usize * self.record.slot_bytes as usize;
        let cells = self.record.cells as usize;
        self.record.is_in_range() && self.area.len() == area && self.index.len() == cells
    }

    fn is_intact(&self) -> bool {
        self.area.is_intact() && self.index.is_intact() && self.work.is_intact()
    }

    /// A read and the starts. Gives how many were accepted.
    fn read_and_start(&mut self, rng: &mut Rng) -> u32 {
        let key = Key {
            table: rng.below(3) as u16,
            key: rng.below(20),
        };
        let tables = translate::tables(calls::tables(rng, key.table));
        let key = translate::key(key);
        let before = (self.area.to_vec(), self.index.to_vec(), self.work.to_vec());
        let record = translate::record(self.record);
        let Lent {
            area, index, work, ..
        } = self;
        let found = translate::proved(record.read(area, index, tables, key).map(|_| 0));
        let fewest = translate::reference(reference::fewest(&self.record));
        assert_eq!(translate::proved(record.fewest()), fewest);
        let mut switched = record;
        let answer = translate::proved(switched.switch());
        let (owed, told) = reference::switch(self.record);
        assert_eq!(answer, translate::reference(told));
        assert_eq!(switched, translate::record(owed));
        let value = record.read_value(area, index, tables, key);
        assert!(value.len() <= 120);
        assert!(area.as_ptr_range().contains(&value.as_ptr()));
        let joined = translate::proved(record.join(area, index));
        let mut records = [record; 4];
        let value = vec![3; *rng.pick(&[8, 24, 56, 120, 0, 130])];
        let victims = kurdavel::SlotMap(match rng.below(3) {
            0 => self.record.map.0,
            1 => self.record.map.0 & rng.bits() as u32,
            _ => rng.bits() as u32,
        });
        let expected = *rng.pick(&[0, 1, self.record.next.0, u32::MAX.into(), u64::MAX]);
        let expected = translate::version(reference::Version(expected));
        let starts = [
            records[0].write(area, index, work, tables, key, &value),
            records[1].write_expecting(area, index, work, tables, key, expected, &value),
            records[2].delete(area, index, work, tables, key),
            records[3].clean(area, index, work, victims),
        ];
        assert_eq!((&area[..], &index[..]), (&before.0[..], &before.1[..]));
        assert!(self.is_intact());
        if !self.passes() {
            assert_eq!(found, Err(4));
            assert_eq!(joined, Err(4));
        } else if self.record.pending != Pending::None {
            assert_eq!(joined, Err(5));
        }
        if !self.passes() {
            assert_eq!(starts.map(translate::proved), [Err(4); 4]);
            assert_eq!(records, [record; 4]);
            assert_eq!(self.work[..], before.2[..]);
        }
        starts.iter().map(|start| u32::from(start.is_ok())).sum()
    }

    /// The store told before a step is the one that it makes, or the step is refused; where nothing is told the step is
    /// refused for the same cause, or because the index is not the record's.
    fn check_told(
        &self,
        before: &[u8],
        told: Result<kurdavel::Store, u32>,
        answer: Result<(), u32>,
    ) {
        let own_index = self.index.len() == self.record.cells as usize;
        match told {
            Err(cause) if own_index => assert_eq!(answer, Err(cause)),
            Err(_) => assert_eq!(answer, Err(4)),
            Ok(kurdavel::Store { place, byte }) => {
                let mut stored = before.to_vec();
                stored[place] = byte;
                let made = self.area[..] == stored[..];
                assert!(made || answer.is_err() && self.area[..] == before[..]);
            }
        }
    }

    /// A step. Gives whether it was accepted.
    fn step(&mut self) -> bool {
        let before = (self.area.to_vec(), self.index.to_vec(), self.work.to_vec());
        let mut record = translate::record(self.record);
        let told = translate::proved(record.next_store(&self.area, &self.work));
        let answer = translate::proved(record.step(&mut self.area, &mut self.index, &self.work));
        self.check_told(&before.0, told, answer.map(|_| ()));
        let changed = (self.area.iter().zip(&before.0)).filter(|(new, old)| new != old);
        assert!(changed.count() <= 1, "{:?}", self.record);
        assert_eq!(self.work[..], before.2[..]);
        assert!(self.is_intact());
        let owed = match self.record {
            _ if !self.passes() => Some(4),
            record if self.work.len() < record.slot_bytes as usize => Some(3),
            record if record.pending == Pending::None => Some(6),
            _ => None,
        };
        if let Some(cause) = owed {
            assert_eq!(answer, Err(cause));
            assert_eq!(record, translate::record(self.record));
            assert_eq!(
                (&self.area[..], &self.index[..]),
                (&before.0[..], &before.1[..])
            );
        }
        answer.is_ok()
    }
}

#[test]
fn forged_stores() {
    let mut rng = Rng::new(21);
    let (mut starts, mut steps) = (0, 0);
    for _ in 0..5000 {
        let edition = *rng.pick(&Edition::ALL);
        let mut shape = Shape::random(&mut rng, edition);
        shape.slot_bytes = rng.within(256, 700);
        shape.slots = rng.within(4, 12);
        let image = shape.make(&mut rng);
        let cells = *rng.pick(&[16, 64, 500]);
        let mut index = vec![0; cells];
        let order: Vec<u8> = (0..image.slots as u8).collect();
        let recovered = reference::recover(
            image.slots,
            image.slot_bytes,
            &image.area,
            &mut index,
            &order,
        );
        let Ok(genuine) = recovered else { continue };
        for _ in 0..16 {
            let mut index = index.clone();
            forged::spoil_index(&mut rng, &mut index, image.area.len() as u32);
            let mut area = image.area.clone();
            if rng.one_in(3) {
                rng.fill(&mut area);
            }
            let mut work = vec![0; image.slot_bytes as usize + 1 - rng.below(3) as usize];
            rng.fill(&mut work);
            let mut lent = Lent {
                record: forged::record(&mut rng, genuine),
                area: Guarded::new(&area, 1),
                index: Guarded::new(&index, 3),
                work: Guarded::new(&work, 1),
            };
            starts += lent.read_and_start(&mut rng);
            steps += u32::from(lent.step());
        }
    }
    println!("{starts} starts and {steps} steps accepted");
    assert!(starts > 1000 && steps > 1000, "{starts} {steps}");
}
