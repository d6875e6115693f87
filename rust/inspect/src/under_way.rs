//! What was under way when the supply failed, as far as one image tells.

use reference::edition::{END, MAP, NUMBER};
use reference::{Record, SlotMap};

use crate::evidence::{range, Known, Range};
use crate::image::{Image, Place};
use crate::plans::{Operation, Plan, Planner, Site};
use crate::verdict::Recovered;

/// Stores after which an entry shows key and version whole. In a new head the byte at the head's start, the digest's others
/// and the entry's kind come before them.
fn entry_stores(plan: &Plan) -> usize {
    let appended = plan.layout.tombstone_bytes() - 1;
    match plan.site {
        Site::Tail => appended,
        Site::NewHead => plan.layout.digest_bytes() + 1 + appended,
    }
}

/// An operation that may have been under way, and how far it can have come.
#[derive(Clone, Copy, PartialEq, Eq, Debug)]
pub struct Candidate {
    /// The operation.
    pub operation: Operation,
    /// Whether it is one of a store that was switched.
    pub is_switched: bool,
    /// How many stores it has; none if that is not known.
    pub total: Option<usize>,
    /// How many of them are done.
    pub range: Range,
}

/// What would leave the bytes that are taken for certain, although the operation did not store them.
#[derive(Clone, Copy, PartialEq, Eq, Debug)]
pub enum Doubt {
    /// Another operation at the same place was cut short: a write or delete since the version became the next, or a new
    /// head since the head was made.
    CutShort,
    /// Older bytes read as the next version.
    ByChance,
    /// The slot was not in the log since the format, and may have held such a digest before.
    BeforeFormat,
}

/// One of the two places at which an operation can have been under way.
#[derive(Clone, PartialEq, Eq, Debug)]
pub struct Finding {
    /// Which of them.
    pub site: Site,
    /// Where it is.
    pub place: Place,
    /// How many stores of an operation are done there.
    pub range: Range,
    /// The operations that it can be.
    pub candidates: Vec<Candidate>,
    /// On what condition the least is certain: that none of these is the case.
    pub doubts: Vec<Doubt>,
}

/// What was under way.
#[derive(Clone, PartialEq, Eq, Debug)]
pub struct UnderWay {
    /// What stands behind the head's end, and in the slot of the next head. A place where nothing can be under way is
    /// left out.
    pub findings: Vec<Finding>,
    /// Whether stores are proved at both places. An operation stores at one of them, so one of the doubts is the case, and
    /// nothing is certain at either.
    pub is_doubtful: bool,
    /// Free slots that begin like the next head, a 0 and the next digest number, where no new head goes.
    pub strays: Vec<u32>,
}

/// What was under way in the store of an image.
pub fn under_way(image: &Image, recovered: &Recovered) -> UnderWay {
    let record = recovered.record;
    let planner = Planner::new(image, recovered, &image.area);
    let plans = planner.all();
    let known = Known::of(image, record);
    let ranges: Vec<(&Plan, Range)> = plans
        .iter()
        .map(|plan| (plan, range(plan, known, &image.area)))
        .collect();
    let tail = Place {
        slot: record.head,
        offset: record.end as usize,
    };
    let new_head = planner
        .new_head_slot()
        .map(|slot| Place { slot, offset: 0 });
    let sites = [(Site::Tail, Some(tail)), (Site::NewHead, new_head)];
    let proved = sites.map(|(site, _)| proved(&ranges, site));
    let is_doubtful = proved.iter().all(|&stores| stores > 0);
    let findings = sites
        .into_iter()
        .zip(proved)
        .filter_map(|((site, place), proved)| {
            let proved = if is_doubtful { 0 } else { proved };
            finding(&ranges, known, site, place?, proved)
        });
    UnderWay {
        findings: findings.collect(),
        is_doubtful,
        strays: strays(image, &record, planner.new_head_slot()),
    }
}

/// The free slots, but for the next head's, that begin like the next head.
fn strays(image: &Image, record: &Record, next_head: Option<u32>) -> Vec<u32> {
    let number = record.digest.0.checked_add(1).map(u32::to_le_bytes);
    let begins = |slot: &u32| {
        let segment = image.segment(*slot);
        segment[0] == END && number.is_some_and(|number| segment[NUMBER..MAP] == number)
    };
    let free = SlotMap::below(record.slots).without(record.map);
    let others = free.slots().filter(|&slot| Some(slot) != next_head);
    others.filter(begins).collect()
}

/// How many stores some plan for a place proves.
fn proved(ranges: &[(&Plan, Range)], site: Site) -> usize {
    let here = ranges.iter().filter(|(plan, _)| plan.site == site);
    here.map(|(_, range)| range.least).max().unwrap_or(0)
}

/// What one place shows of the plans for it. So many stores are proved: a plan that does not come so far is not the one.
fn finding(
    ranges: &[(&Plan, Range)],
    known: Known,
    site: Site,
    place: Place,
    proved: usize,
) -> Option<Finding> {
    let here = || ranges.iter().filter(|(plan, _)| plan.site == site);
    let most = here().map(|(_, range)| range.most).max()?;
    let mut candidates: Vec<Candidate> = Vec::new();
    for (plan, range) in here().filter(|(_, range)| range.most >= proved.max(1)) {
        let range = Range {
            least: range.least.min(proved),
            most: range.most,
        };
        add(&mut candidates, candidate(plan, range));
    }
    let least = candidates.iter().map(|one| one.range.least).min();
    let least = least.unwrap_or(0);
    Some(Finding {
        site,
        place,
        range: Range { least, most },
        candidates,
        doubts: doubts(site, least, known),
    })
}

/// The doubts about what is certain at a place.
fn doubts(site: Site, least: usize, known: Known) -> Vec<Doubt> {
    match site {
        _ if least == 0 => vec![],
        Site::Tail => vec![Doubt::CutShort, Doubt::ByChance],
        Site::NewHead if known.is_reused => vec![Doubt::CutShort],
        Site::NewHead => vec![Doubt::CutShort, Doubt::BeforeFormat],
    }
}

/// A plan as a candidate. Its key is told where the entry's key and version stand whole.
pub fn candidate(plan: &Plan, range: Range) -> Candidate {
    let is_told = range.most >= entry_stores(plan);
    let operation = match plan.operation {
        Operation::Write(bytes, key) => Operation::Write(bytes, key.filter(|_| is_told)),
        Operation::Delete(key) => Operation::Delete(key.filter(|_| is_told)),
        // The digest alone names the victim and not the key.
        Operation::FullDelete(key, slot) => Operation::FullDelete(
            key.filter(|_| range.most > plan.layout.digest_bytes()),
            slot,
        ),
        other => other,
    };
    Candidate {
        operation,
        is_switched: plan.is_switched,
        total: plan.is_whole.then_some(plan.stores.len()),
        range,
    }
}

/// Adds a candidate, or widens the one of the same operation: keys that are not told are one.
pub fn add(candidates: &mut Vec<Candidate>, new: Candidate) {
    let name = |one: &Candidate| (one.operation, one.is_switched, one.total);
    let same = |one: &&mut Candidate| name(one) == name(&new);
    match candidates.iter_mut().find(same) {
        Some(known) => {
            known.range.least = known.range.least.min(new.range.least);
            known.range.most = known.range.most.max(new.range.most);
        }
        None => candidates.push(new),
    }
}
