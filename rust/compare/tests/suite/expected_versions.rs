//! Writes that expect a version, wherever short histories lead: both accept exactly the version that the key has, 0 where
//! it is absent or deleted, also where the write needs a new head or is refused for another cause.

use compare::pair::Pair;
use compare::Fault;
use reference::book::Operation;
use reference::testing::calls::Given;
use reference::testing::choices::{Choice, A, B};
use reference::{Edition, Key, Version};

/// A key that no history writes.
const NEVER: Key = Key { table: 3, key: 5 };

/// The choices of all histories: writes that need a new head after three, deletes and a cleaning.
const CHOICES: [Choice; 4] = [
    Choice::Write(A, 56),
    Choice::Write(B, 8),
    Choice::Delete(A),
    Choice::CleanAll,
];

/// How many expectations were accepted, and refused by each cause.
#[derive(Default)]
struct Tally {
    accepted: u32,
    refused: [u32; 29],
}

/// Numbers that versions of a store with this next version may have, those that differ from them in their high half alone,
/// and the limits of both editions.
fn numbers(next: u64) -> impl Iterator<Item = u64> {
    let near = (0..6).chain(next.saturating_sub(4)..=next);
    let others = near.clone().map(|number| number ^ 1 << 32);
    let layouts = Edition::ALL.into_iter().filter_map(Edition::layout);
    let limits = layouts.flat_map(|layout| [layout.last_version().0, layout.spent().0]);
    near.chain(others)
        .chain([u64::from(u32::MAX) / 2])
        .chain(limits)
}

/// Tries every number with a value of each length and one of none. Where the write without expectation has an answer other
/// than 7, the one with it has the same or 21.
fn try_all(pair: &Pair, tally: &mut Tally) -> Result<(), Fault> {
    let numbers = numbers(pair.record().next.0);
    for (expected, key) in numbers.flat_map(|number| [A, B, NEVER].map(|key| (number, key))) {
        for bytes in [7, 8, 24, 56, 120] {
            let write = Operation::Write(key, vec![3; bytes]);
            let given = Given {
                expected: Some(Version(expected)),
                ..Given::plain(pair.work_bytes())
            };
            let plain = pair.clone().begin(&write)?;
            let answer = pair.clone().start(&write, given)?;
            let owed = match plain {
                Err(5 | 7) => plain,
                _ if pair.version(key).0 != expected => Err(21),
                _ => plain,
            };
            if answer != owed {
                return Err(format!("{key:?} over {expected}: {answer:?}, not {owed:?}"));
            }
            match answer {
                Ok(_) => tally.accepted += 1,
                Err(cause) => tally.refused[cause as usize] += 1,
            }
        }
    }
    Ok(())
}

/// All histories of up to `depth` further operations; tries everything before and in the middle of each.
fn explore(pair: &Pair, depth: u32, tally: &mut Tally) -> Result<(), Fault> {
    try_all(pair, tally)?;
    if depth == 0 {
        return Ok(());
    }
    for choice in CHOICES {
        let mut next = pair.clone();
        let record = next.record();
        let operation = choice.operation(record, record.next.0 as u8);
        if next.begin(&operation)?.is_err() {
            continue;
        }
        let _ = next.step()?;
        try_all(&next, tally)?;
        next.finish()?;
        explore(&next, depth - 1, tally)?;
    }
    Ok(())
}

/// Explores from a store of an edition whose digest has this number and next version.
fn explore_all(edition: Edition, number: u32, next: Version, depth: u32) -> Tally {
    let mut tally = Tally::default();
    let mut pair = fresh(edition, 5);
    pair.age_number(number);
    pair.age_next(next);
    pair.must_recover(&[2, 0, 3, 1]).unwrap();
    if let Err(fault) = explore(&pair, depth, &mut tally) {
        panic!("{fault}");
    }
    println!("{} accepted, refused {:?}", tally.accepted, tally.refused);
    tally
}

fn fresh(edition: Edition, fill: u8) -> Pair {
    let pair = Pair::fresh(edition, 4, 256, 16, &[fill; 1024]);
    pair.unwrap_or_else(|fault| panic!("{fault}"))
}

fn in_short_histories(edition: Edition) {
    let tally = explore_all(edition, 1, Version(1), 6);
    assert!(tally.accepted > 10_000);
    assert!([5, 7, 21]
        .into_iter()
        .all(|cause| tally.refused[cause] > 10_000));
}

// The editions apart, so that they run side by side.
#[test]
fn in_short_histories_of_the_first_edition() {
    in_short_histories(Edition::FIRST);
}

#[test]
fn in_short_histories_of_the_second_edition() {
    in_short_histories(Edition::SECOND);
}

#[test]
fn with_versions_spent() {
    for edition in Edition::ALL {
        let spent = edition.layout().expect("an edition").spent();
        let tally = explore_all(edition, 1, Version(spent.0 - 3), 5);
        assert!([9, 21].into_iter().all(|cause| tally.refused[cause] > 500));
    }
}

/// In the second edition the versions of the first are no limit.
#[test]
fn past_the_versions_of_the_first_edition() {
    let tally = explore_all(Edition::SECOND, 1, Version(u64::from(u32::MAX) - 3), 5);
    assert_eq!(tally.refused[9], 0);
    assert!(tally.accepted > 500 && tally.refused[21] > 500);
}

#[test]
fn with_digest_numbers_spent() {
    for edition in Edition::ALL {
        let tally = explore_all(edition, u32::MAX, Version(1), 6);
        assert!([10, 21].into_iter().all(|cause| tally.refused[cause] > 500));
    }
}

/// Fifteen keys in an index of sixteen cells, and a log in which no new head can be begun.
#[test]
fn with_index_and_slots_full() {
    for edition in Edition::ALL {
        let tally = try_full(fresh(edition, 4));
        println!("{} accepted, refused {:?}", tally.accepted, tally.refused);
        assert!([11, 12, 21]
            .into_iter()
            .all(|cause| tally.refused[cause] > 10));
    }
}

fn try_full(mut pair: Pair) -> Tally {
    let mut tally = Tally::default();
    let others = (0..13).map(|key| Key { table: 1, key });
    for key in others.chain([A, B]) {
        pair.begin(&Operation::Write(key, vec![1; 24]))
            .unwrap()
            .unwrap();
        pair.finish().unwrap();
    }
    for _ in 0..8 {
        try_all(&pair, &mut tally).unwrap();
        let _ = pair.begin(&Operation::Write(A, vec![2; 56])).unwrap();
        pair.finish().unwrap();
    }
    tally
}
