//! A whole area from one edition to the other (02, R-12).

use std::marker::PhantomData;

use crate::edition::{by_edition, Fixed};
use crate::layout::{geometry_holds, segment, MOST_SLOTS};
use crate::log::walk_entries;
use crate::recovery::{check_one_edition, checked_head, survey, Visit};
use crate::refusal::Refusal;
use crate::rules::AsWritten;
use crate::segment::{lay_rewritten, Digest, Fields};
use crate::slot_map::SlotMap;

/// Rewrites the log of an area in the other edition, slot by slot, into a second area of the same
/// geometry, which is 0 everywhere else.
///
/// Refuses with 1, also for the length of the second area, and with 16, 17, 24, 25, 28, 18 and 19 as
/// recovery does, but with 28 for any log of both editions; then with 29 and 30. The second area stays as it was where the call is refused.
pub fn convert(
    slots: u32,
    slot_bytes: u32,
    source: &[u8],
    target: &mut [u8],
) -> Result<(), Refusal> {
    if !geometry_holds(slots, slot_bytes, source.len()) || target.len() != source.len() {
        return Err(Refusal::Geometry);
    }
    let (head, digest) = checked_head::<AsWritten>(slots, slot_bytes, source)?;
    check_one_edition(slot_bytes, source, digest)?;
    by_edition!(digest.layout.edition, E => {
        check_rewritten::<E>(slot_bytes, source, head, digest.map)?;
        rewrite::<E>(slot_bytes, source, target, digest.map)
    })
}

/// Refuses with 18, 19, 29 or 30 a log that cannot be had in the other edition.
fn check_rewritten<E: Fixed>(
    slot_bytes: u32,
    area: &[u8],
    head: u32,
    map: SlotMap,
) -> Result<(), Refusal> {
    let other = &E::Other::LAYOUT;
    let mut lengths = Lengths::<E> {
        slot_bytes: slot_bytes as usize,
        bytes: [other.digest_bytes(); MOST_SLOTS],
        edition: PhantomData,
    };
    let survey = survey(slot_bytes, area, map.slots(), head, &mut lengths)?;
    if lengths
        .bytes
        .iter()
        .any(|&length| length > slot_bytes as usize)
    {
        return Err(Refusal::SlotTooLong);
    }
    // Each digest keeps its own next version, so that those of older slots have to be narrow as well.
    let next = |slot| Digest::read(segment(area, slot_bytes, slot)).map(|digest| digest.next);
    let highest_next = map.slots().filter_map(next).max();
    if survey.highest > other.last_version() || highest_next > Some(other.spent()) {
        return Err(Refusal::VersionTooWide);
    }
    Ok(())
}

/// The bytes that the slots of a log of an edition take in the other one.
struct Lengths<E> {
    slot_bytes: usize,
    bytes: [usize; MOST_SLOTS],
    edition: PhantomData<E>,
}

impl<E: Fixed> Visit for Lengths<E> {
    #[inline(always)]
    fn visit(&mut self, place: usize, fields: &Fields) {
        self.bytes[place / self.slot_bytes] += fields.bytes_in(&E::Other::LAYOUT);
    }
}

/// Lays down the log in the other edition, which has room for it and its versions.
fn rewrite<E: Fixed>(
    slot_bytes: u32,
    source: &[u8],
    target: &mut [u8],
    map: SlotMap,
) -> Result<(), Refusal> {
    target.fill(0);
    let segments = source.chunks_exact(slot_bytes as usize);
    let targets = target.chunks_exact_mut(slot_bytes as usize);
    for ((slot, segment), target) in (0..).zip(segments).zip(targets) {
        if map.has(slot) {
            rewrite_segment::<E>(segment, target)?;
        }
    }
    Ok(())
}

/// Lays down the digest of a segment and its entries behind it, in their order.
fn rewrite_segment<E: Fixed>(segment: &[u8], target: &mut [u8]) -> Result<(), Refusal> {
    let other = &E::Other::LAYOUT;
    let digest = Digest::read(segment).ok_or(Refusal::NotADigest)?;
    let mut end = Digest {
        layout: other,
        ..digest
    }
    .lay(target);
    walk_entries::<E>(segment, 0, Refusal::Entry, |offset, fields| {
        end += lay_rewritten(other, &mut target[end..], fields, &segment[offset..]);
        Ok(())
    })?;
    Ok(())
}
