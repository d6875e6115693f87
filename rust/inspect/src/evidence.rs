//! Which stores of a plan the bytes of an image prove, and which they rule out.
//!
//! A store is ruled out by a byte that is not there. It is proved by a number that was never stored at its place before:
//! digest numbers and versions only rise, so a field that holds the next one was stored by an operation that has not
//! finished. Of such a field the bytes that some lower number or erased memory shares may be older; the others are new,
//! and so are all stores before them. Digests have a place of their own, so that nothing else is mistaken for one; where
//! entries stand, any older bytes may read as a version by chance.

use reference::edition::{FIRST, MAP, NEXT, NUMBER, VERSION};
use reference::segment::Digest;
use reference::{Record, Store};

use crate::image::Image;
use crate::plans::{Plan, Site};

/// How many of a plan's stores are done: at least so many, and at most so many.
#[derive(Clone, Copy, PartialEq, Eq, Debug)]
pub struct Range {
    /// The stores that are certainly done.
    pub least: usize,
    /// The stores that are done at most.
    pub most: usize,
}

impl Range {
    /// Whether so many stores may be done.
    pub fn has(self, stores: usize) -> bool {
        self.least <= stores && stores <= self.most
    }
}

/// What is known of a store besides its area, to tell old numbers from new ones.
#[derive(Clone, Copy, Debug)]
pub struct Known {
    record: Record,
    /// The next version in the head's digest; no older digest has a higher one.
    head_next: u64,
    /// Whether the slot of the next head was in the log since the format.
    pub is_reused: bool,
}

impl Known {
    /// What an image shows.
    pub fn of(image: &Image, record: Record) -> Known {
        let digests = || (0..image.slots).filter_map(|slot| Digest::read(image.segment(slot)));
        let next_head = record.map.first_free_after(record.head, record.slots);
        Known {
            record,
            head_next: Digest::read(image.segment(record.head)).map_or(0, |head| head.next.0),
            is_reused: next_head.is_some_and(|slot| digests().any(|digest| digest.map.has(slot))),
        }
    }
}

/// The range that one image gives for a plan that is not finished.
pub fn range(plan: &Plan, known: Known, area: &[u8]) -> Range {
    let most = standing(unfinished(plan), area);
    let fields = match plan.site {
        Site::Tail => tail_fields(plan, known),
        Site::NewHead => new_head_fields(plan, known),
    };
    let shift = usize::from(plan.site == Site::NewHead);
    let proved = fields
        .iter()
        .filter(|field| field.offset + field.width - 1 + shift <= most)
        .filter_map(|field| Some(field.offset + field.new_bytes()? - 1 + shift));
    // A slot that was in the log has a digest until a new head is begun in it.
    let begun = usize::from(plan.site == Site::NewHead && known.is_reused && most > 0);
    Range {
        least: proved.max().unwrap_or(0).max(begun),
        most,
    }
}

/// The range that two images give: the plan was started on the first, and the second shows it that many stores later.
/// None if no number of stores makes the one into the other. A finished operation has all stores done.
pub fn range_between(plan: &Plan, before: &[u8], after: &[u8], differing: usize) -> Option<Range> {
    let changed = |store: &Store| before[store.place] != after[store.place];
    let places = unfinished(plan);
    let covered = places.iter().filter(|store| changed(store)).count();
    let least = places.iter().rposition(changed).map_or(0, |last| last + 1);
    let most = standing(places, after);
    if covered == differing && least <= most {
        return Some(Range { least, most });
    }
    is_finished(plan, before, after, differing).then_some(Range {
        least: plan.stores.len(),
        most: plan.stores.len(),
    })
}

/// The stores of a plan that can have been made while it was under way; no two are at one place.
fn unfinished(plan: &Plan) -> &[Store] {
    let last = usize::from(plan.is_whole);
    &plan.stores[..plan.stores.len().saturating_sub(last)]
}

/// How many stores, from the first one on, stand in an area.
fn standing(stores: &[Store], area: &[u8]) -> usize {
    let stands = |store: &&Store| area[store.place] == store.byte;
    stores.iter().take_while(stands).count()
}

/// Whether all stores of a plan make the one area into the other.
fn is_finished(plan: &Plan, before: &[u8], after: &[u8], differing: usize) -> bool {
    let Some((last, others)) = plan.stores.split_last() else {
        return false;
    };
    let others = || others.iter().filter(|store| store.place != last.place);
    let changed = |store: &&Store| before[store.place] != after[store.place];
    plan.is_whole
        && after[last.place] == last.byte
        && others().all(|store| after[store.place] == store.byte)
        && others().filter(changed).count() + usize::from(changed(&last)) == differing
}

/// A number in a field of so many bytes, and a bound on what can have stood there before.
struct Field {
    offset: usize,
    width: usize,
    number: u64,
    bound: u64,
}

fn field(bytes: &[u8], offset: usize, width: usize, bound: u64) -> Option<Field> {
    let stored = bytes.get(offset..offset + width)?;
    let number = stored
        .iter()
        .rev()
        .fold(0, |number, &byte| number << 8 | u64::from(byte));
    Some(Field {
        offset,
        width,
        number,
        bound,
    })
}

/// An entry behind the head's end has the next version; all others are lower.
fn tail_fields(plan: &Plan, known: Known) -> Vec<Field> {
    let (width, bound) = (plan.layout.version_bytes, known.record.next.0 - 1);
    field(&plan.bytes, VERSION, width, bound)
        .into_iter()
        .collect()
}

/// A new head has the next digest number, and its next version may be above that of every older digest. The slot may have been of
/// the first edition before, where entries stand behind a narrow next version: so no more than a narrow one is looked at, and
/// none where versions are wide.
fn new_head_fields(plan: &Plan, known: Known) -> Vec<Field> {
    let digest = known.record.digest.0.into();
    let number = field(&plan.bytes, NUMBER, MAP - NUMBER, digest);
    let next = field(&plan.bytes, NEXT, FIRST.version_bytes, known.head_next);
    let next = next.filter(|_| known.record.next <= FIRST.spent());
    number.into_iter().chain(next).collect()
}

impl Field {
    /// How many low bytes of the number must have been stored, if what stood there before was no higher than the bound, or
    /// erased memory: the fewest over all such numbers. None if the number can have stood there itself.
    fn new_bytes(&self) -> Option<usize> {
        let above = |count: usize| match 8 * count as u32 {
            64 => 0,
            bits => self.number >> bits << bits,
        };
        let over_numbers = (0..=self.width).find(|&count| above(count) <= self.bound)?;
        let erased = u64::MAX >> (64 - 8 * self.width);
        let over_erased = differing_bytes(self.number, erased);
        let fewest = over_numbers.min(over_erased);
        (fewest > 0).then_some(fewest)
    }
}

/// How many low bytes of two numbers there are up to the highest one that differs.
fn differing_bytes(one: u64, other: u64) -> usize {
    (u64::BITS - (one ^ other).leading_zeros()).div_ceil(8) as usize
}

#[cfg(test)]
mod tests {
    use super::{differing_bytes, Field};

    fn new_bytes(width: usize, number: u64, bound: u64) -> Option<usize> {
        let field = Field {
            offset: 0,
            width,
            number,
            bound,
        };
        field.new_bytes()
    }

    /// The same by trying all numbers.
    fn tried(number: u64, bound: u64, erased: u64) -> Option<usize> {
        let old = (0..=bound).chain([erased]);
        let fewest = old.map(|old| differing_bytes(old, number)).min();
        fewest.filter(|&count| count > 0)
    }

    const BOUNDS: [u64; 11] = [0, 1, 4, 254, 255, 256, 511, 65_535, 65_536, 69_999, 80_000];

    #[test]
    fn new_bytes_are_the_fewest_that_any_old_number_leaves() {
        let small = [1, 5, 255, 256, 257, 512, 65_535, 65_536, 65_537, 70_000];
        for (width, erased) in [(4, u64::from(u32::MAX)), (8, u64::MAX)] {
            let large = [erased, erased - 1, erased - 255, erased >> 8, 1 << 31];
            for number in small.into_iter().chain(large) {
                for bound in BOUNDS {
                    let expected = tried(number, bound, erased);
                    assert_eq!(
                        new_bytes(width, number, bound),
                        expected,
                        "{number} {bound}"
                    );
                }
            }
        }
        assert_eq!(new_bytes(4, 0x0100_0000, 0x00FF_FFFF), Some(4));
        assert_eq!(new_bytes(4, 0xFFFF_FF00, 0xFFFF_FEFF), Some(1));
        assert_eq!(new_bytes(8, 1 << 32, (1 << 32) - 1), Some(5));
        assert_eq!(new_bytes(8, 1 << 56, (1 << 56) - 1), Some(8));
        assert_eq!(new_bytes(8, u64::MAX - 255, u64::MAX - 256), Some(1));
    }
}
