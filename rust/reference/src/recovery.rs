//! Recovery (01, "Operations, store by store" and causes 1, 2 and 15 to 20; 02, R-5, R-8, R-11 and
//!

use crate::counters::{DigestNumber, Version};
use crate::edition::Edition;
use crate::index::{rebuild, Entered};
use crate::layout::{geometry_holds, index_holds, segment, MOST_SLOTS};
use crate::log::walk_segment;
use crate::present::Counts;
use crate::record::{Pending, Record};
use crate::refusal::Refusal;
use crate::rules::{AsWritten, Rules};
use crate::segment::{Digest, Fields};
use crate::slot_map::SlotMap;
use crate::versions::Filter;

/// Finds the head, reads the log in the order given and fills the index.
///
/// The index gives M by its length. It stays as it was unless the call is accepted
/// or refused with 20, which leaves it all 0.
pub fn recover(
    slots: u32,
    slot_bytes: u32,
    area: &[u8],
    index: &mut [u32],
    order: &[u8],
) -> Result<Record, Refusal> {
    recover_by::<AsWritten>(slots, slot_bytes, area, index, order)
}

/// [`recover`] by chosen rules.
pub fn recover_by<R: Rules>(
    slots: u32,
    slot_bytes: u32,
    area: &[u8],
    index: &mut [u32],
    order: &[u8],
) -> Result<Record, Refusal> {
    if !geometry_holds(slots, slot_bytes, area.len()) {
        return Err(Refusal::Geometry);
    }
    if !index_holds(index.len()) {
        return Err(Refusal::IndexLength);
    }
    if !is_order(slots, order) {
        return Err(Refusal::Order);
    }
    let head = checked_head::<R>(slots, slot_bytes, area)?;
    read_log::<R>(slots, slot_bytes, area, index, order, head)
}

/// The record, and the index filled, once the head is known.
fn read_log<R: Rules>(
    slots: u32,
    slot_bytes: u32,
    area: &[u8],
    index: &mut [u32],
    order: &[u8],
    (head, digest): (u32, Digest),
) -> Result<Record, Refusal> {
    let log = order
        .iter()
        .map(|&slot| u32::from(slot))
        .filter(|&slot| digest.map.has(slot));
    let survey = survey(slot_bytes, area, log.clone(), head, &mut ())?;
    if R::EDITIONS_AFTER_ENTRIES {
        check_editions::<R>(slot_bytes, area, digest)?;
    }
    let mut present_bytes = [0; MOST_SLOTS];
    let mut present = Counts::new(slot_bytes, &mut present_bytes);
    let count = |slot, place, entered| count_newest(&mut present, area, slot, place, entered);
    let keys = rebuild(area, slot_bytes, log, index, Refusal::Entry, count)?;
    Ok(Record {
        slots,
        slot_bytes,
        cells: index.len() as u32,
        head,
        end: survey.end,
        digest: digest.number,
        map: digest.map,
        edition: digest.layout.edition,
        switched: R::SWITCH_KEPT_OVER_RECOVERY,
        next: next_version::<R>(digest, survey.highest),
        keys,
        pending: Pending::None,
        present_bytes,
    })
}

/// Counts an entry that is its key's newest so far, and no longer the one that it displaces.
#[inline]
fn count_newest(present: &mut Counts, area: &[u8], slot: u32, place: usize, entered: Entered) {
    if entered == Entered::Older {
        return;
    }
    present.add::<AsWritten>(slot, area[place]);
    if let Entered::Displacing(older) = entered {
        present.displace::<AsWritten>(area, older);
    }
}

/// Whether the order names each slot below N once and nothing else.
fn is_order(slots: u32, order: &[u8]) -> bool {
    let named = order
        .iter()
        .fold(SlotMap::EMPTY, |named, &slot| named.with(u32::from(slot)));
    order.len() == slots as usize && named == SlotMap::below(slots)
}

/// The slot and digest of the head, or 16, 17, 24, 25 or 28.
pub(crate) fn checked_head<R: Rules>(
    slots: u32,
    slot_bytes: u32,
    area: &[u8],
) -> Result<(u32, Digest), Refusal> {
    let (head, digest) = find_head::<R>(slots, slot_bytes, area)?;
    check_head::<R>(slots, slot_bytes, area, head, digest)?;
    Ok((head, digest))
}

/// The slot and digest of the head. All slots with a digest count, in the log or not.
fn find_head<R: Rules>(slots: u32, slot_bytes: u32, area: &[u8]) -> Result<(u32, Digest), Refusal> {
    let mut best: Option<(u32, Digest)> = None;
    let mut shared = false;
    for slot in 0..slots {
        let Some(digest) = Digest::read(segment(area, slot_bytes, slot)) else {
            continue;
        };
        if R::FIRST_DIGESTS_ALONE && digest.layout.edition != Edition::FIRST {
            continue;
        }
        match best {
            Some((_, head)) if R::HEAD_IS_HIGHEST_SLOT || digest.number > head.number => {
                best = Some((slot, digest));
                shared = false;
            }
            Some((_, head)) if R::SHARED_WITHIN_AN_EDITION && digest.layout != head.layout => {}
            Some((_, head)) => shared |= digest.number == head.number,
            None => best = Some((slot, digest)),
        }
    }
    let (head, digest) = best.ok_or(Refusal::NoDigest)?;
    if shared || digest.number == DigestNumber(0) {
        return Err(Refusal::HeadDigest);
    }
    Ok((head, digest))
}

/// Refuses what cannot be the head's digest: with 17 for its next version, 24 for its map, 25 for
/// a slot in the map that has no digest and 28 for one whose edition the head does not allow.
fn check_head<R: Rules>(
    slots: u32,
    slot_bytes: u32,
    area: &[u8],
    head: u32,
    digest: Digest,
) -> Result<(), Refusal> {
    let next = check_next(digest);
    let map = check_map::<R>(slots, head, digest.map);
    let in_log = check_log(slots, slot_bytes, area, digest.map);
    if R::MAP_BEFORE_NEXT_VERSION {
        return map.and(next).and(in_log);
    }
    if R::LOG_SLOTS_BEFORE_MAP {
        return next.and(in_log).and(map);
    }
    next.and(map).and(in_log)?;
    if R::EDITIONS_AFTER_ENTRIES {
        return Ok(());
    }
    check_editions::<R>(slot_bytes, area, digest)
}

fn check_next(digest: Digest) -> Result<(), Refusal> {
    if digest.next == Version(0) {
        return Err(Refusal::HeadDigest);
    }
    Ok(())
}

fn check_map<R: Rules>(slots: u32, head: u32, map: SlotMap) -> Result<(), Refusal> {
    let all = SlotMap::below(slots);
    if !map.is_within(all) || !map.has(head) {
        return Err(Refusal::HeadMap);
    }
    match map == all {
        true if R::FULL_MAP_IS_17 => Err(Refusal::HeadDigest),
        true => Err(Refusal::HeadMap),
        false => Ok(()),
    }
}

/// Byte 0 of every slot in the map, of those that there are, is a digest's.
fn check_log(slots: u32, slot_bytes: u32, area: &[u8], map: SlotMap) -> Result<(), Refusal> {
    let has_digest = |slot| Edition::of_segment(segment(area, slot_bytes, slot)).is_some();
    if (0..slots).all(|slot| !map.has(slot) || has_digest(slot)) {
        Ok(())
    } else {
        Err(Refusal::NotADigest)
    }
}

/// Every slot of the log is of the head's edition or an older one: a store on its way over has slots
/// of both.
fn check_editions<R: Rules>(slot_bytes: u32, area: &[u8], head: Digest) -> Result<(), Refusal> {
    if R::EDITIONS_NEVER_MIXED {
        return check_one_edition(slot_bytes, area, head);
    }
    let edition = |slot| Edition::of_segment(segment(area, slot_bytes, slot));
    let own = Some(head.layout.edition);
    if head.map.slots().all(|slot| edition(slot) <= own) {
        Ok(())
    } else {
        Err(Refusal::Editions)
    }
}

/// Every slot of the log is of the head's edition, or 28.
pub(crate) fn check_one_edition(slot_bytes: u32, area: &[u8], head: Digest) -> Result<(), Refusal> {
    let edition = |slot| Edition::of_segment(segment(area, slot_bytes, slot));
    let own = Some(head.layout.edition);
    if head.map.slots().all(|slot| edition(slot) == own) {
        Ok(())
    } else {
        Err(Refusal::Editions)
    }
}

/// What the first reading of the log gives.
pub(crate) struct Survey {
    /// Where the head's entries end.
    end: u32,
    /// The highest version of an entry; 0 if there is none.
    pub(crate) highest: Version,
}

/// What is done with each entry of a survey besides: a trait, so that it can be put in line for both
/// editions.
pub(crate) trait Visit {
    fn visit(&mut self, place: usize, fields: &Fields);
}

/// Nothing.
impl Visit for () {
    #[inline(always)]
    fn visit(&mut self, _: usize, _: &Fields) {}
}

/// Reads the whole log once and visits each entry with its place: refuses damage with 18 and then
/// shared versions with 19.
pub(crate) fn survey(
    slot_bytes: u32,
    area: &[u8],
    log: impl Iterator<Item = u32> + Clone,
    head: u32,
    visitor: &mut impl Visit,
) -> Result<Survey, Refusal> {
    let mut end = 0;
    let mut highest = Version(0);
    let mut filter = Filter::new();
    for slot in log.clone() {
        let bytes = segment(area, slot_bytes, slot);
        let start = (slot * slot_bytes) as usize;
        let stop = walk_segment!(bytes, start, Refusal::Entry, |place, fields| {
            highest = highest.max(fields.version);
            filter.note(fields.version);
            visitor.visit(place, &fields);
            Ok(())
        })?;
        if slot == head {
            end = stop;
        }
    }
    filter.check(area, slot_bytes, log)?;
    Ok(Survey {
        end: end as u32,
        highest,
    })
}

/// The next version: no lower than the head digest's and above every entry.
fn next_version<R: Rules>(digest: Digest, highest: Version) -> Version {
    let after = Version(highest.0 + 1);
    if R::NEXT_FROM_ENTRIES_ALONE {
        after
    } else {
        after.max(digest.next)
    }
}
