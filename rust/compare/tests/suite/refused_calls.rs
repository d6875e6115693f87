//! Calls that must be refused, each with the same number from both, and nothing changed.

use compare::guarded::Guarded;
use compare::pair::{scan, Pair};
use compare::translate;
use kurdavel::{slices, Record, Refusal, Version, WORDS};
use reference::book::Operation;
use reference::rng::Rng;
use reference::testing::forged;
use reference::{Edition, Key};

const KEY: Key = Key { table: 7, key: 9 };

/// The words of the end, of the next version, its low and its high half, and the first of the present bytes.
const END: usize = 4;
const NEXT: usize = 7;
const NEXT_HIGH: usize = 8;
const PRESENT: usize = 17;

/// A store with a written key, and with a write pending if asked.
fn store(rng: &mut Rng, edition: Edition, pending: bool) -> Pair {
    let (slots, slot_bytes) = (rng.within(4, 32), rng.within(256, 300));
    let area = vec![5; (slots * slot_bytes) as usize];
    let mut pair = Pair::fresh(edition, slots, slot_bytes, 16, &area).unwrap();
    pair.begin(&Operation::Write(KEY, vec![1; 8]))
        .unwrap()
        .unwrap();
    pair.finish().unwrap();
    if pending {
        pair.begin(&Operation::Write(KEY, vec![2; 24]))
            .unwrap()
            .unwrap();
    }
    pair
}

/// Every call that takes a record, on words that must be refused with 4.
fn refuse_all(words: &[u32], area: &[u8], index: &[u32], work_bytes: usize) {
    let mut record = Guarded::new(words, 9);
    let (mut lent_area, mut lent_index) = (Guarded::new(area, 5), Guarded::new(index, 1));
    let mut work = Guarded::new(&vec![0x77; work_bytes], 5);
    let (mut first, mut second, mut version) = (71, 72, 73);
    let (table, key) = (KEY.table, KEY.key);
    // Tables that do not hold the key's: 4 comes before 22.
    let (low, high) = (table + 1, table - 1);
    let record = &mut record;
    let read = slices::read(
        record,
        &lent_area,
        &lent_index,
        low,
        high,
        table,
        key,
        &mut version,
        &mut second,
    );
    assert_eq!((read, version, second), (4, 0, 0));
    (second, version) = (72, 73);
    let answers = [
        slices::write(
            record,
            &lent_area,
            &lent_index,
            &mut work,
            low,
            high,
            table,
            key,
            &[3; 8],
            &mut first,
        ),
        slices::write_expecting(
            record,
            &lent_area,
            &lent_index,
            &mut work,
            low,
            high,
            table,
            key,
            1,
            &[3; 8],
            &mut first,
        ),
        slices::delete(
            record,
            &lent_area,
            &lent_index,
            &mut work,
            low,
            high,
            table,
            key,
            &mut first,
        ),
        slices::clean(record, &lent_area, &lent_index, &mut work, 1, &mut first),
        slices::step(
            record,
            &mut lent_area,
            &mut lent_index,
            &work,
            &mut first,
            &mut version,
        ),
    ];
    assert_eq!(answers, [4; 5], "{words:?}");
    assert_eq!((first, version), (71, 73));
    let value = slices::read_value(
        record,
        &lent_area,
        &lent_index,
        low,
        high,
        table,
        key,
        &mut first,
        &mut second,
    );
    assert_eq!((value, first, second), (4, 0, 0));
    assert_eq!(record[..], words[..]);
    (first, second) = (71, 72);
    let told = slices::join(record, &lent_area, &lent_index, &mut first, &mut second);
    assert_eq!((told, first, second), (4, 0, 0), "{words:?}");
    if index.len() == words.get(2).map_or(index.len(), |&cells| cells as usize) {
        (first, second) = (71, 72);
        let told = slices::next_store(record, &lent_area, &work, &mut first, &mut second);
        assert_eq!((told, first, second), (4, 0, 0), "{words:?}");
    }
    assert_eq!((&lent_area[..], &lent_index[..]), (area, index));
    assert!(work.iter().all(|&byte| byte == 0x77));
    assert!(record.is_intact() && work.is_intact());
    assert!(lent_area.is_intact() && lent_index.is_intact());
}

/// The calls on the record alone, on words that they must refuse with 4.
fn refuse_alone(words: &[u32]) {
    let mut record = Guarded::new(words, 9);
    let mut slot = 71;
    assert_eq!(
        (slices::fewest(&record, &mut slot), slot),
        (4, 0),
        "{words:?}"
    );
    assert_eq!(slices::switch(&mut record), 4, "{words:?}");
    assert!(record[..] == words[..] && record.is_intact());
}

/// Records out of range, lent lengths that are not the record's, and words that are no record.
#[test]
fn records_that_are_none() {
    let mut rng = Rng::new(11);
    for round in 0..24_000 {
        let (edition, pending) = (*rng.pick(&Edition::ALL), rng.one_in(2));
        let pair = store(&mut rng, edition, pending);
        let genuine = *translate::record(pair.record()).words();
        let (mut area, mut index) = (pair.area().to_vec(), pair.index().to_vec());
        let mut words = genuine.to_vec();
        match round % 6 {
            0 => {
                let record = forged::out_of_range(&mut rng, pair.record());
                words = translate::record(record).words().to_vec();
            }
            1 => area.truncate(area.len() - 1),
            2 => index.push(0),
            3 => words.truncate(rng.below(WORDS as u32) as usize),
            4 if edition == Edition::FIRST => {
                words[NEXT_HIGH] = rng.bits() as u32 | 1 << rng.below(32);
            }
            4 => words[NEXT..=NEXT_HIGH].fill(0),
            _ => spoil(&mut rng, &mut words),
        }
        refuse_all(&words, &area, &index, pair.work_bytes());
        if words != genuine {
            refuse_alone(&words);
        }
    }
}

/// The words with another next version.
fn with_next(words: &[u32; WORDS], next: u64) -> [u32; WORDS] {
    let mut words = *words;
    (words[NEXT], words[NEXT_HIGH]) = (next as u32, (next >> 32) as u32);
    assert_eq!(Record::from_words(words).next(), Version(next));
    words
}

/// The highest next version of an edition is a record's, and no version is left to give. In the first edition the one above
/// it stands in the high half alone, and is refused by every call; in the second it is one like any other.
#[test]
fn next_versions_at_the_limits() {
    let narrow = u64::from(u32::MAX);
    for (edition, next, cause) in [
        (Edition::FIRST, narrow, Some(Refusal::VersionsSpent)),
        (Edition::SECOND, u64::MAX, Some(Refusal::VersionsSpent)),
        (Edition::SECOND, narrow, None),
        (Edition::SECOND, narrow + 1, None),
    ] {
        for pending in [false, true] {
            let pair = store(&mut Rng::new(3), edition, pending);
            let (area, index) = (pair.area(), pair.index());
            let words = with_next(translate::record(pair.record()).words(), next);
            let mut record = Record::from_words(words);
            let (tables, key) = (kurdavel::Tables::ALL, translate::key(KEY));
            assert!(record.read(area, index, tables, key).is_ok());
            let mut work = vec![0; pair.work_bytes()];
            let answer = record.delete(area, index, &mut work, tables, key);
            let cause = if pending { Some(Refusal::Busy) } else { cause };
            assert_eq!(answer.err(), cause);
        }
    }
}

#[test]
fn next_version_above_the_limit() {
    for pending in [false, true] {
        let pair = store(&mut Rng::new(3), Edition::FIRST, pending);
        let (area, index) = (pair.area(), pair.index());
        for next in [1 << 32, 1 << 63, u64::MAX] {
            let words = with_next(translate::record(pair.record()).words(), next);
            refuse_all(&words, area, index, pair.work_bytes());
            refuse_alone(&words);
        }
    }
}

/// The end goes by the edition of the record's head; the present bytes may reach S - 13 in either, as in a slot of the first
/// edition under a head of the second.
#[test]
fn range_by_the_edition() {
    for pending in [false, true] {
        let pair = store(&mut Rng::new(5), Edition::SECOND, pending);
        let (area, index) = (pair.area(), pair.index());
        let most = pair.slot_bytes() - 13;
        for (word, number, in_second) in [
            (END, 16, false),
            (PRESENT, most - 3, true),
            (PRESENT + 31, most, true),
        ] {
            let mut words = *translate::record(pair.record()).words();
            words[word] = number;
            let mut slot = 0;
            if in_second {
                assert_eq!(slices::fewest(&words, &mut slot), 0, "{words:?}");
            } else {
                refuse_all(&words, area, index, pair.work_bytes());
                refuse_alone(&words);
            }
            words[translate::EDITION] = 1;
            assert_eq!(slices::fewest(&words, &mut slot), 0, "{words:?}");
            words[PRESENT + 7] = most + 1;
            refuse_alone(&words);
            words[translate::EDITION] = 2;
            refuse_alone(&words);
        }
    }
}

/// The switch is accepted once and again, and refused with 5 while an operation is under way; a record that has words behind it
/// keeps them.
#[test]
fn switches() {
    for edition in Edition::ALL {
        for pending in [false, true] {
            let pair = store(&mut Rng::new(6), edition, pending);
            let genuine = *translate::record(pair.record()).words();
            let mut words = [genuine.to_vec(), vec![6; 3]].concat();
            let mut owed = words.clone();
            if !pending && edition == Edition::FIRST {
                owed[translate::SWITCHED] = 1;
            }
            for _ in 0..2 {
                assert_eq!(slices::switch(&mut words), if pending { 5 } else { 0 });
                assert_eq!(words, owed);
            }
            for length in 0..WORDS {
                let mut words = genuine[..length].to_vec();
                assert_eq!(slices::switch(&mut words), 4);
                assert_eq!(words, genuine[..length]);
            }
        }
    }
}

/// A write that expects the key's version with another high half is refused with 21, and accepted without one.
#[test]
fn expected_version_in_all_its_bits() {
    for (edition, stores) in [(Edition::FIRST, 20), (Edition::SECOND, 24)] {
        let pair = store(&mut Rng::new(4), edition, false);
        let (area, index) = (pair.area(), pair.index());
        let (tables, key) = (kurdavel::Tables::ALL, translate::key(KEY));
        let found = translate::record(pair.record()).read(area, index, tables, key);
        let version = found.unwrap().version.0;
        for high in (0..32).map(|bit| 1u64 << (32 + bit)).chain([0]) {
            let mut work = vec![0; pair.work_bytes()];
            let mut record = translate::record(pair.record());
            let expected = Version(high + version);
            let answer =
                record.write_expecting(area, index, &mut work, tables, key, expected, &[3; 8]);
            let owed = match high {
                0 => Ok(stores),
                _ => Err(Refusal::OtherVersion),
            };
            assert_eq!(answer, owed, "{expected:?}");
        }
    }
}

/// Makes the words of a pending operation none that encode one, the edition none that there is, or the switch neither 0 nor
/// 1.
fn spoil(rng: &mut Rng, words: &mut [u32]) {
    let other = rng.bits() as u32 | 1;
    match rng.below(6) {
        0 => words[12] = 5 + rng.below(u32::MAX - 5),
        1 => words[12..17].copy_from_slice(&[0, 0, 0, 0, other]),
        2 => words[12..17].copy_from_slice(&[1, other, 0, 19, 20]),
        3 => words[12..17].copy_from_slice(&[2, 1, other, 32, 33]),
        4 => words[translate::EDITION] = *rng.pick(&[0, 3, 257, 258, other | 4]),
        _ => words[translate::SWITCHED] = *rng.pick(&[2, 256, 257, other | 2]),
    }
    assert_eq!(Record::from_words(words.try_into().unwrap()).fields(), None);
}

/// Words past those of the record stay, and change no answer.
#[test]
fn longer_records() {
    for (edition, stores) in [(Edition::FIRST, 20), (Edition::SECOND, 24)] {
        longer_record(edition, stores);
    }
}

fn longer_record(edition: Edition, owed: u32) {
    let mut area = [0; 1024];
    translate::format(4, 256, edition.0, &mut area).unwrap();
    let (mut index, mut work) = ([0; 16], [0; 256]);
    let mut words = [6; WORDS + 3];
    let order = [0, 1, 2, 3];
    assert_eq!(
        slices::recover(4, 256, &order, &area, &mut index, &mut words),
        0
    );
    let (mut stores, mut left, mut version) = (0, 0, 0);
    let answer = slices::write(
        &mut words,
        &area,
        &index,
        &mut work,
        7,
        7,
        7,
        9,
        &[1; 8],
        &mut stores,
    );
    assert_eq!((answer, stores), (0, owed));
    for _ in 0..stores {
        slices::step(
            &mut words,
            &mut area,
            &mut index,
            &work,
            &mut left,
            &mut version,
        );
    }
    assert_eq!((left, version), (0, 1));
    assert_eq!(words[WORDS..], [6; 3]);
}

/// Recovery into a record that is too short: 4, and the index stays.
#[test]
fn recovery_into_too_few_words() {
    let mut area = [0; 1024];
    kurdavel::format(4, 256, kurdavel::Edition::Second, &mut area).unwrap();
    let mut index = [8; 16];
    for length in 0..WORDS {
        let mut words = vec![6; length];
        let answer = slices::recover(4, 256, &[0, 1, 2, 3], &area, &mut index, &mut words);
        assert_eq!(answer, Refusal::BadRecord.number());
        assert!(words.iter().all(|&word| word == 6));
        assert_eq!(index, [8; 16]);
    }
}

/// Format and recovery with every N, S and length near their limits, in both editions and in none.
#[test]
fn geometries() {
    let mut formats = 0;
    for slots in (0..=40).chain([255, 256, u32::MAX / 2, u32::MAX]) {
        for slot_bytes in [
            0,
            1,
            255,
            256,
            257,
            1024,
            2047,
            2048,
            2049,
            65_536,
            u32::MAX,
        ] {
            let right = u64::from(slots) * u64::from(slot_bytes);
            for length in [0, right.saturating_sub(1), right, right + 1, 1024] {
                let length = length.min(70_000) as usize;
                let mut pair =
                    Pair::unrecovered(slots.min(40), slot_bytes.min(4096), 16, &vec![5; length]);
                for edition in [0, 3, 5, 8, 257, 258, u32::MAX] {
                    let answer = pair.format(slots, slot_bytes, Edition(edition));
                    assert_eq!(answer, Ok(Err(1)));
                }
                for edition in Edition::ALL {
                    formats += u32::from(format_and_recover(&mut pair, slots, slot_bytes, edition));
                }
            }
        }
    }
    assert!(formats > 200, "{formats}");
}

/// Tells whether the format was accepted.
fn format_and_recover(pair: &mut Pair, slots: u32, slot_bytes: u32, edition: Edition) -> bool {
    let answer = pair.format(slots, slot_bytes, edition).unwrap();
    let tables = reference::Tables::ALL;
    let (told, part) = scan(slots, slot_bytes, pair.area(), tables, KEY).unwrap();
    assert_eq!((told, part), (answer.and(Err(8)), (0, 0)));
    for cells in [0, 15, 16, 4096, 4097] {
        let order = pair.ascending();
        let _ = pair.recover(cells, &order).unwrap();
    }
    answer.is_ok()
}
