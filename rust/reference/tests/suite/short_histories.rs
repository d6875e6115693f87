//! Every history of up to four operations over two keys, cut after every store; also in a store that is switched anew after
//! every recovery.

use reference::book::Operation;
use reference::rules::{AsWritten, Rules};
use reference::testing::choices::{two_keys, Choice, A, B, ORDERS};
use reference::{Edition, Version};

use crate::rig::{Fault, Rig};

/// The choice as an operation on this store. Each written value is unlike the others.
pub fn operation<R: Rules>(rig: &Rig<R>, choice: Choice) -> Operation {
    choice.operation(rig.record(), rig.events.len() as u8)
}

/// Runs one operation; before and after each store, cuts a copy and recovers it in the
/// given orders. Hands each recovered copy on.
pub fn cut_everywhere<R: Rules>(
    rig: &mut Rig<R>,
    choice: Choice,
    orders: &[[u8; 4]],
    mut after_cut: impl FnMut(Rig<R>) -> Result<(), (String, Fault)>,
) -> Result<(), (String, Fault)> {
    let operation = operation(rig, choice);
    let mut left = match rig.start(&operation) {
        Ok(answer) => answer.unwrap_or(0),
        Err(fault) => return Err((rig.history(), fault)),
    };
    loop {
        let mut copy = rig.clone();
        for order in orders {
            copy = rig.clone();
            copy.cut();
            copy.must_recover(order)
                .map_err(|fault| (copy.history(), fault))?;
        }
        after_cut(copy)?;
        if left == 0 {
            return Ok(());
        }
        rig.step().map_err(|fault| (rig.history(), fault))?.ok();
        rig.check_reads().map_err(|fault| (rig.history(), fault))?;
        left -= 1;
    }
}

pub struct Explorer {
    pub choices: Vec<Choice>,
    pub histories: u64,
    /// Whether the store is switched after each recovery.
    pub switches: bool,
}

impl Explorer {
    /// All histories of up to `depth` further operations, with at most one cut.
    pub fn explore(
        &mut self,
        rig: &Rig<AsWritten>,
        depth: u32,
        was_cut: bool,
    ) -> Result<(), (String, Fault)> {
        if depth == 0 {
            return Ok(());
        }
        for choice in self.choices.clone() {
            let mut next = rig.clone();
            self.histories += 1;
            if was_cut {
                let operation = operation(&next, choice);
                next.run(&operation)
                    .and_then(|_| next.check_book())
                    .map_err(|fault| (next.history(), fault))?;
            } else {
                cut_everywhere(&mut next, choice, &ORDERS, |mut copy| {
                    if self.switches {
                        let switched = copy.switch().map_err(|fault| (copy.history(), fault))?;
                        assert_eq!(switched, Ok(()));
                    }
                    self.explore(&copy, depth - 1, true)
                })?;
            }
            self.explore(&next, depth - 1, was_cut)?;
        }
        Ok(())
    }
}

/// How many histories of so many operations were tried on a store, each with cuts; the first that goes wrong is told.
fn explored(rig: &Rig<AsWritten>, bytes: [usize; 2], depth: u32, switches: bool) -> u64 {
    let mut explorer = Explorer {
        choices: two_keys(bytes),
        histories: 0,
        switches,
    };
    if let Err((history, fault)) = explorer.explore(rig, depth, false) {
        panic!("{fault} after\n{history}");
    }
    explorer.histories
}

fn explore_all(edition: Edition, slot_bytes: u32, fill: u8, bytes: [usize; 2]) {
    let area = vec![fill; 4 * slot_bytes as usize];
    let mut rig = Rig::<AsWritten>::of(edition, 4, slot_bytes, 16, area);
    rig.keys = vec![A, B];
    assert!(explored(&rig, bytes, 4, false) > 780);
}

/// A store of the first edition with so many versions left in it, which has entries in two slots and is switched.
fn explore_switched(fill: u8, bytes: [usize; 2], versions_left: u64) {
    let mut area = vec![fill; 1024];
    let next = u64::from(u32::MAX) - versions_left - 5;
    reference::format(4, 256, Edition::FIRST, &mut area).unwrap();
    area[9..13].copy_from_slice(&(next as u32).to_le_bytes());
    let mut rig = Rig::<AsWritten>::unrecovered(4, 256, 16, area);
    rig.book.next = Version(next);
    rig.keys = vec![A, B];
    rig.must_recover(&ORDERS[0]).unwrap();
    for (number, key) in [A, B, A, B, A].into_iter().enumerate() {
        let value = vec![number as u8; 56];
        rig.run(&Operation::Write(key, value)).unwrap().unwrap();
    }
    assert_eq!(rig.record().map.count(), 2);
    rig.switch().unwrap().unwrap();
    assert!(explored(&rig, bytes, 3, true) > 150);
}

#[test]
fn small_values_over_zeros() {
    explore_all(Edition::FIRST, 256, 0, [8, 8]);
}

#[test]
fn mixed_values_over_object_kinds() {
    explore_all(Edition::FIRST, 256, 1, [24, 8]);
}

#[test]
fn large_values_over_tombstone_kinds() {
    explore_all(Edition::FIRST, 256, 4, [56, 56]);
}

#[test]
fn large_and_small_values_over_digest_kinds() {
    explore_all(Edition::FIRST, 257, 5, [56, 8]);
}

#[test]
fn longest_values_over_their_own_kind() {
    explore_all(Edition::FIRST, 256, 7, [120, 8]);
}

#[test]
fn switched_stores() {
    explore_switched(1, [8, 8], 1 << 20);
    explore_switched(8, [120, 56], 1 << 20);
}

#[test]
fn switched_stores_whose_versions_run_out() {
    explore_switched(9, [8, 24], 1);
    explore_switched(13, [56, 120], 0);
}

/// The second edition over its own kinds, and over the first's.
#[test]
fn second_edition() {
    for (fill, bytes) in [(9, [8, 8]), (13, [24, 56]), (8, [56, 8]), (5, [120, 8])] {
        explore_all(Edition::SECOND, 256, fill, bytes);
    }
}
