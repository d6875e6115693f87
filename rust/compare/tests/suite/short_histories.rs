//! Every history of up to four operations over two keys, cut after every store; also in a store that is switched anew after every
//! recovery.

use compare::pair::Pair;
use compare::Fault;
use reference::book::Operation;
use reference::testing::choices::{two_keys, Choice, A, B, ORDERS};
use reference::{Edition, Version};

pub struct Explorer {
    pub choices: Vec<Choice>,
    pub histories: u64,
    pub cuts: u64,
    /// Whether the store is switched after each recovery.
    pub switches: bool,
}

impl Explorer {
    /// All histories of up to `depth` further operations, with at most one cut.
    pub fn explore(&mut self, pair: &Pair, depth: u32, was_cut: bool) -> Result<(), Fault> {
        if depth == 0 {
            return Ok(());
        }
        for choice in self.choices.clone() {
            let mut next = pair.clone();
            self.histories += 1;
            let record = next.record();
            let operation = choice.operation(record, record.next.0 as u8);
            let answer = next.begin(&operation)?;
            if was_cut {
                next.finish()?;
            } else {
                self.cut_everywhere(&mut next, answer.unwrap_or(0), depth)
                    .map_err(|fault| format!("{fault}\nafter {}", next.history()))?;
            }
            check_reads(&next)?;
            self.explore(&next, depth - 1, was_cut)?;
        }
        Ok(())
    }

    /// Makes the stores of an operation; before and after each, cuts a copy, recovers it in every order and goes on
    /// from there.
    fn cut_everywhere(&mut self, pair: &mut Pair, stores: u32, depth: u32) -> Result<(), Fault> {
        for done in 0..=stores {
            let mut copy = pair.clone();
            for order in &ORDERS {
                copy = pair.clone();
                copy.cut();
                copy.must_recover(order)?;
                check_reads(&copy)?;
                self.cuts += 1;
            }
            if self.switches {
                copy.switch()?
                    .map_err(|refusal| format!("switch refused: {refusal}"))?;
            }
            self.explore(&copy, depth - 1, true)?;
            if done < stores {
                let _ = pair.step()?;
                check_reads(pair)?;
            }
        }
        Ok(())
    }
}

fn check_reads(pair: &Pair) -> Result<(), Fault> {
    for key in [A, B] {
        let _ = pair.read(key)?;
    }
    Ok(())
}

fn explore_all(edition: Edition, slot_bytes: u32, fill: u8, bytes: [usize; 2]) {
    let area = vec![fill; 4 * slot_bytes as usize];
    let pair = Pair::fresh(edition, 4, slot_bytes, 16, &area);
    let pair = pair.unwrap_or_else(|fault| panic!("{fault}"));
    let mut explorer = Explorer {
        choices: two_keys(bytes),
        histories: 0,
        cuts: 0,
        switches: false,
    };
    if let Err(fault) = explorer.explore(&pair, 4, false) {
        panic!("{fault}");
    }
    println!("{} histories, {} cuts", explorer.histories, explorer.cuts);
    assert!(explorer.histories > 780);
}

/// A store of the first edition with so many versions left in it, which has entries in two slots and is switched.
fn explore_switched(fill: u8, bytes: [usize; 2], versions_left: u64) {
    let mut pair = Pair::unrecovered(4, 256, 16, &[fill; 1024]);
    let done = switched(&mut pair, versions_left).and_then(|()| {
        let mut explorer = Explorer {
            choices: two_keys(bytes),
            histories: 0,
            cuts: 0,
            switches: true,
        };
        explorer.explore(&pair, 3, false)?;
        println!("{} histories, {} cuts", explorer.histories, explorer.cuts);
        assert!(explorer.histories > 150);
        Ok(())
    });
    done.unwrap_or_else(|fault| panic!("{fault}"));
}

fn switched(pair: &mut Pair, versions_left: u64) -> Result<(), Fault> {
    let _ = pair.format(4, 256, Edition::FIRST)?;
    pair.age_next(Version(u64::from(u32::MAX) - versions_left - 5));
    pair.must_recover(&ORDERS[0])?;
    for key in [A, B, A, B, A] {
        let _ = pair.begin(&Operation::Write(key, vec![3; 56]))?;
        pair.finish()?;
    }
    assert_eq!(pair.record().map.count(), 2);
    assert_eq!(pair.switch()?, Ok(()));
    Ok(())
}

#[test]
fn switched_stores() {
    explore_switched(1, [8, 8], 1 << 20);
    explore_switched(8, [120, 56], 1 << 20);
}

#[test]
fn switched_stores_whose_versions_run_out() {
    explore_switched(9, [8, 24], 1);
    explore_switched(13, [56, 120], 0);
}

#[test]
fn small_values_over_zeros() {
    explore_all(Edition::FIRST, 256, 0, [8, 8]);
}

#[test]
fn mixed_values_over_object_kinds() {
    explore_all(Edition::FIRST, 256, 1, [24, 8]);
}

#[test]
fn large_values_over_tombstone_kinds() {
    explore_all(Edition::FIRST, 256, 4, [56, 56]);
}

#[test]
fn large_and_small_values_over_digest_kinds() {
    explore_all(Edition::FIRST, 257, 5, [56, 8]);
}

#[test]
fn longest_values_over_their_own_kind() {
    explore_all(Edition::FIRST, 256, 7, [120, 8]);
}

#[test]
fn small_values_of_the_second_edition_over_object_kinds() {
    explore_all(Edition::SECOND, 256, 9, [8, 8]);
}

#[test]
fn mixed_values_of_the_second_edition_over_tombstone_kinds() {
    explore_all(Edition::SECOND, 257, 13, [24, 56]);
}

#[test]
fn large_and_small_values_of_the_second_edition_over_digest_kinds() {
    explore_all(Edition::SECOND, 256, 8, [56, 8]);
}

/// Over bytes that are digests of the other edition.
#[test]
fn longest_values_of_the_second_edition_over_the_first() {
    explore_all(Edition::SECOND, 256, 5, [120, 8]);
}

#[test]
fn longest_values_of_the_first_edition_over_the_second() {
    explore_all(Edition::FIRST, 256, 8, [120, 24]);
}
