//! Two images of one drive: what differs, and which single operation explains it.

use crate::evidence::range_between;
use crate::image::{Image, Place};
use crate::plans::Planner;
use crate::under_way::{add, candidate, Candidate};
use crate::verdict::Recovered;

/// Neighbouring bytes that differ.
#[derive(Clone, PartialEq, Eq, Debug)]
pub struct Run {
    /// Where they start.
    pub place: Place,
    /// The bytes before.
    pub before: Vec<u8>,
    /// The bytes after.
    pub after: Vec<u8>,
}

/// The bytes that differ, in runs within a slot. The images have one geometry.
pub fn differences(before: &Image, after: &Image) -> Vec<Run> {
    let mut runs: Vec<Run> = Vec::new();
    let pairs = before.area.iter().zip(&after.area).enumerate();
    for (at, (&old, &new)) in pairs.filter(|(_, (old, new))| old != new) {
        let place = before.place(at);
        let joins = |run: &&mut Run| {
            run.place.slot == place.slot && run.place.offset + run.before.len() == place.offset
        };
        match runs.last_mut().filter(joins) {
            Some(run) => {
                run.before.push(old);
                run.after.push(new);
            }
            None => runs.push(Run {
                place,
                before: vec![old],
                after: vec![new],
            }),
        }
    }
    runs
}

/// The operations, any one of which alone makes the first image into the second. There are none if no byte differs.
pub fn explanations(before: &Image, recovered: &Recovered, after: &Image) -> Vec<Candidate> {
    let differing = differing(before, after);
    if differing == 0 {
        return Vec::new();
    }
    let planner = Planner::new(before, recovered, &after.area);
    let mut candidates = Vec::new();
    for plan in planner.all() {
        if let Some(range) = range_between(&plan, &before.area, &after.area, differing) {
            add(&mut candidates, candidate(&plan, range));
        }
    }
    candidates
}

fn differing(before: &Image, after: &Image) -> usize {
    let pairs = before.area.iter().zip(&after.area);
    pairs.filter(|(old, new)| old != new).count()
}
