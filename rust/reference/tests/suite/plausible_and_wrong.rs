//! Each reading that 01 lists under "Plausible and wrong", and such of a delete on a full store and of present bytes
//! (02, R-4 and R-5), is caught by a history, and the right rules pass the same search.

use reference::rules::{AsWritten, Rules};
use reference::testing::choices::{Choice, A, B, ORDERS};
use reference::testing::full::{SPREADS, TIGHT};

use crate::rig::{Fault, Rig};
use crate::short_histories::cut_everywhere;

const CHOICES: [Choice; 6] = [
    Choice::Write(A, 56),
    Choice::Write(B, 56),
    Choice::Delete(A),
    Choice::Delete(B),
    Choice::CleanHead,
    Choice::CleanAll,
];

/// Looks at all histories of exactly `depth` operations, cut anywhere in the last.
fn search<R: Rules>(rig: &Rig<R>, depth: u32) -> Result<(), (String, Fault)> {
    for choice in CHOICES {
        let mut next = rig.clone();
        if depth == 1 {
            cut_everywhere(&mut next, choice, &ORDERS[..1], |_| Ok(()))?;
            continue;
        }
        let operation = crate::short_histories::operation(&next, choice);
        let answer = next
            .run(&operation)
            .map_err(|fault| (next.history(), fault))?;
        if answer.is_ok() {
            search(&next, depth - 1)?;
        }
    }
    Ok(())
}

/// The first failing history, the shortest ones first.
fn first_failure<R: Rules>(depth: u32) -> Option<(String, Fault)> {
    let mut rig = Rig::<R>::new(4, 256, 16, vec![1; 1024]);
    rig.keys = vec![A, B];
    (1..=depth).find_map(|depth| search(&rig, depth).err())
}

/// The first failing history from a store without room for a tombstone.
fn first_failure_when_full<R: Rules>(depth: u32) -> Option<(String, Fault)> {
    SPREADS.into_iter().find_map(|spread| {
        let mut rig = Rig::<R>::new(4, 256, 16, vec![1; 1024]);
        rig.keys = spread.to_vec();
        rig.fill(&TIGHT).expect("the writes are right");
        (1..=depth).find_map(|depth| search(&rig, depth).err())
    })
}

/// The first failing history where every record is held to the whole log.
fn first_wrong_record<R: Rules>(depth: u32) -> Option<(String, Fault)> {
    let mut rig = Rig::<R>::new(4, 256, 16, vec![1; 1024]);
    rig.keys = vec![A, B];
    rig.strict = true;
    (1..=depth).find_map(|depth| search(&rig, depth).err())
}

fn is_caught<R: Rules>(what: &str, operations: u32) {
    told(what, first_failure::<R>(operations));
}

fn told(what: &str, failure: Option<(String, Fault)>) {
    let (history, fault) = failure.expect(what);
    println!("{what}: caught by\n{history}  {fault}");
}

#[test]
fn tombstone_dropped_with_its_newest_object() {
    struct Wrong;
    impl Rules for Wrong {
        const TOMBSTONE_GOES_WITH_NEWEST_OBJECT: bool = true;
    }
    is_caught::<Wrong>("tombstone dropped with its newest object", 6);
}

#[test]
fn kind_byte_stored_first() {
    struct Wrong;
    impl Rules for Wrong {
        const KIND_BYTE_FIRST: bool = true;
    }
    is_caught::<Wrong>("kind byte stored first", 2);
}

#[test]
fn old_byte_left_as_the_next_kind() {
    struct Wrong;
    impl Rules for Wrong {
        const OLD_BYTE_AFTER_ENTRY: bool = true;
    }
    is_caught::<Wrong>("old byte left as the next kind", 2);
}

#[test]
fn next_version_from_entries_alone() {
    struct Wrong;
    impl Rules for Wrong {
        const NEXT_FROM_ENTRIES_ALONE: bool = true;
    }
    is_caught::<Wrong>("next version from the entries alone", 3);
}

#[test]
fn highest_slot_taken_for_the_head() {
    struct Wrong;
    impl Rules for Wrong {
        const HEAD_IS_HIGHEST_SLOT: bool = true;
    }
    is_caught::<Wrong>("highest slot taken for the head", 5);
}

#[test]
fn digest_of_a_full_delete_with_the_next_version_before_it() {
    struct Wrong;
    impl Rules for Wrong {
        const FORGOTTEN_VERSION_NOT_IN_DIGEST: bool = true;
    }
    let what = "next version before a full delete";
    told(what, first_failure_when_full::<Wrong>(1));
}

#[test]
fn full_delete_without_the_tombstone() {
    struct Wrong;
    impl Rules for Wrong {
        const NO_TOMBSTONE_OF_FORGOTTEN: bool = true;
    }
    let what = "full delete without the tombstone";
    told(what, first_failure_when_full::<Wrong>(1));
}

#[test]
fn overwritten_object_still_counted() {
    struct Wrong;
    impl Rules for Wrong {
        const OVERWRITTEN_STILL_COUNTED: bool = true;
    }
    let what = "overwritten object still counted";
    told(what, first_wrong_record::<Wrong>(2));
}

#[test]
fn tombstones_counted() {
    struct Wrong;
    impl Rules for Wrong {
        const TOMBSTONES_COUNTED: bool = true;
    }
    told("tombstones counted", first_wrong_record::<Wrong>(2));
}

#[test]
fn the_right_rules_pass_the_same_search() {
    let failure = first_failure::<AsWritten>(5)
        .or_else(|| first_failure_when_full::<AsWritten>(2))
        .or_else(|| first_wrong_record::<AsWritten>(3));
    if let Some((history, fault)) = failure {
        panic!("{fault} after\n{history}");
    }
}
