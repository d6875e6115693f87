//! One store of a pending operation (01, "Operations, store by store"; 02, R-13). The editions `H`
//! and `E` are the head's and the new head's, as in [`crate::operations`].

use crate::counters::{DigestNumber, Version};
use crate::edition::{by_editions, Fixed, END, VERSION};
use crate::index::{point_to, rebuild, Entered};
use crate::present::Counts;
use crate::record::{Pending, Record};
use crate::refusal::Refusal;
use crate::rules::{AsWritten, Rules};
use crate::segment::Key;
use crate::slot_map::SlotMap;

/// A byte and the place in the area that it goes to.
#[derive(Clone, Copy, PartialEq, Eq, Debug)]
pub struct Store {
    /// The place in the area.
    pub place: usize,
    /// The byte.
    pub byte: u8,
}

/// The answer of an accepted step.
#[derive(Clone, Copy, PartialEq, Eq, Debug)]
pub enum Progress {
    /// The operation goes on.
    More {
        /// Stores left, at least 1.
        left: u32,
    },
    /// No stores are left: the operation has taken effect.
    Done {
        /// The version that a write or delete took; 0 for a cleaning.
        version: Version,
    },
}

impl Progress {
    /// The progress with so many stores left, and this version if there are none.
    #[inline]
    fn of(left: u32, version: Version) -> Progress {
        match left {
            0 => Progress::Done { version },
            _ => Progress::More { left },
        }
    }

    /// Stores left; 0 once the operation counts.
    #[inline]
    pub fn left(self) -> u32 {
        match self {
            Progress::More { left } => left,
            Progress::Done { .. } => 0,
        }
    }
}

/// The answer of a step: the record, changed only if the step was accepted, and the
/// progress or the refusal.
pub type Stepped = (Record, Result<Progress, Refusal>);

/// The stores of an append: the entry, and a 0 after it unless it ends its slot.
#[inline]
pub(crate) fn append_stores<R: Rules>(record: &Record, length: u32) -> u32 {
    length + closing_stores::<R>(record, record.end + length)
}

/// The stores of a new head: all its bytes, the first one twice, and a 0 after the last
/// unless it ends its slot.
#[inline]
pub(crate) fn new_head_stores<R: Rules>(record: &Record, length: u32) -> u32 {
    length + 1 + closing_stores::<R>(record, length)
}

#[inline]
fn closing_stores<R: Rules>(record: &Record, end: u32) -> u32 {
    u32::from(end < record.slot_bytes && !R::OLD_BYTE_AFTER_ENTRY)
}

/// The store that the next step makes, with the refusals of that step: 4, 3 and 6. No index is
/// lent, so that its length plays no part.
pub fn next_store(record: &Record, area: &[u8], work: &[u8]) -> Result<Store, Refusal> {
    by_editions!(record, H, E => {
        record.check_area::<H>(area)?;
        coming_store::<E, AsWritten>(record, area, work)
    })
}

/// The store of a record that has passed 4.
#[inline(always)]
fn coming_store<E: Fixed, R: Rules>(
    record: &Record,
    area: &[u8],
    work: &[u8],
) -> Result<Store, Refusal> {
    record.check_work(work)?;
    let store = match record.pending {
        Pending::None => return Err(Refusal::NonePending),
        Pending::Append { length, left } => append_store::<R>(record, work, length, left),
        Pending::NewHead { slot, length, left }
        | Pending::Clean {
            slot, length, left, ..
        }
        | Pending::Forget {
            slot, length, left, ..
        } => new_head_store::<E, R>(record, work, slot, length, left),
    };
    store
        .filter(|store| store.place < area.len())
        .ok_or(Refusal::Record)
}

/// Body bytes ascending, the 0 after the entry, and the kind byte last. None if the
/// pending operation is not one that a start gives.
#[inline(always)]
fn append_store<R: Rules>(record: &Record, work: &[u8], length: u32, left: u32) -> Option<Store> {
    if length == 0 || length > record.slot_bytes - record.end {
        return None;
    }
    let total = append_stores::<R>(record, length);
    let mut done = total.checked_sub(left)?;
    if R::KIND_BYTE_FIRST {
        done = (done + total - 1) % total;
    }
    let (offset, byte) = if done + 1 == total {
        (0, *work.first()?)
    } else if done + 1 == length {
        (length, END)
    } else {
        (done + 1, *work.get(done as usize + 1)?)
    };
    let start = record.head * record.slot_bytes + record.end;
    Some(Store {
        place: (start + offset) as usize,
        byte,
    })
}

/// A 0 at the first byte, the bytes from 1 ascending, the 0 after the last, and the
/// first byte last. None if the pending operation is not one that a start gives.
#[inline(always)]
fn new_head_store<E: Fixed, R: Rules>(
    record: &Record,
    work: &[u8],
    slot: u32,
    length: u32,
    left: u32,
) -> Option<Store> {
    let digest = E::LAYOUT.digest_bytes() as u32;
    if slot >= record.slots || length < digest || length > record.slot_bytes {
        return None;
    }
    let total = new_head_stores::<R>(record, length);
    let done = total.checked_sub(left)?;
    let (offset, byte) = if done + 1 == total {
        (0, *work.first()?)
    } else if done == 0 || done == length {
        (done, END)
    } else {
        (done, *work.get(done as usize)?)
    };
    Some(Store {
        place: (slot * record.slot_bytes + offset) as usize,
        byte,
    })
}

/// Makes one store of the pending operation. With the last one the operation takes effect,
/// the index is changed to match, and the version is told.
pub fn step(record: Record, area: &mut [u8], index: &mut [u32], work: &[u8]) -> Stepped {
    step_by::<AsWritten>(record, area, index, work)
}

/// [`step`] by chosen rules.
#[inline]
pub fn step_by<R: Rules>(
    mut record: Record,
    area: &mut [u8],
    index: &mut [u32],
    work: &[u8],
) -> Stepped {
    let mut version = Version::NONE;
    let left = make_store::<R>(&mut record, area, index, work, &mut version);
    (record, left.map(|left| Progress::of(left, version)))
}

/// [`step`] on a record that the caller keeps. Inlined, so that the progress is put together where
/// it is looked at.
#[inline]
pub fn step_kept(
    record: &mut Record,
    area: &mut [u8],
    index: &mut [u32],
    work: &[u8],
) -> Result<Progress, Refusal> {
    let mut version = Version::NONE;
    let left = make_store_as_written(record, area, index, work, &mut version)?;
    Ok(Progress::of(left, version))
}

fn make_store_as_written(
    record: &mut Record,
    area: &mut [u8],
    index: &mut [u32],
    work: &[u8],
    version: &mut Version,
) -> Result<u32, Refusal> {
    make_store::<AsWritten>(record, area, index, work, version)
}

/// Makes one store and gives the stores left; puts the version down with the last one.
#[inline(always)]
fn make_store<R: Rules>(
    record: &mut Record,
    area: &mut [u8],
    index: &mut [u32],
    work: &[u8],
    version: &mut Version,
) -> Result<u32, Refusal> {
    by_editions!(record, H, E => {
        record.check::<H>(area, index)?;
        let store = coming_store::<E, R>(record, area, work)?;
        area[store.place] = store.byte;
        let left = record.pending.left() - 1;
        if left > 0 {
            record.pending.set_left(left);
        } else {
            (*record, *version) = finish::<H, E, R>(record, area, index, work)?;
        }
        Ok(left)
    })
}

/// Record, index and version after the last store. Refuses with 4 only if record, index
/// or work buffer are not what a start and its steps left.
fn finish<H: Fixed, E: Fixed, R: Rules>(
    record: &Record,
    area: &[u8],
    index: &mut [u32],
    work: &[u8],
) -> Result<(Record, Version), Refusal> {
    match record.pending {
        Pending::None => Err(Refusal::NonePending),
        Pending::Append { length, .. } => {
            let place = record.head * record.slot_bytes + record.end;
            let grown = Record {
                end: record.end + length,
                ..*record
            };
            finish_entry::<H, R>(grown, area, index, work, place as usize)
        }
        Pending::NewHead { slot, length, .. } => {
            let headed = new_head::<E>(record, slot, length, SlotMap::EMPTY)?;
            let digest = E::LAYOUT.digest_bytes();
            let place = (slot * record.slot_bytes) as usize + digest;
            finish_entry::<E, R>(headed, area, index, &work[digest..], place)
        }
        Pending::Clean {
            slot,
            length,
            victims,
            ..
        } => {
            let after = finish_cleaning::<E>(record, area, index, slot, length, victims)?;
            Ok((after, Version::NONE))
        }
        Pending::Forget {
            slot,
            length,
            victims,
            ..
        } => {
            let next = record.next_after::<E>()?;
            let mut after = finish_cleaning::<E>(record, area, index, slot, length, victims)?;
            after.next = next;
            Ok((after, record.next))
        }
    }
}

/// The record after a cleaning; the index is built anew.
fn finish_cleaning<E: Fixed>(
    record: &Record,
    area: &[u8],
    index: &mut [u32],
    slot: u32,
    length: u32,
    victims: SlotMap,
) -> Result<Record, Refusal> {
    let mut after = new_head::<E>(record, slot, length, victims)?;
    let (log, uncounted) = (after.map.slots(), |_, _, _| {});
    let damage = Refusal::Record;
    after.keys = rebuild(area, after.slot_bytes, log, index, damage, uncounted)
        .map_err(|_| Refusal::Record)?;
    Counts::of(&mut after).clean(area, victims, slot)?;
    Ok(after)
}

/// Leads the index to the entry just stored, of an edition `L`, and counts its key, its version
/// and, for an object, its bytes in the head.
#[inline]
fn finish_entry<L: Fixed, R: Rules>(
    record: Record,
    area: &[u8],
    index: &mut [u32],
    entry: &[u8],
    place: usize,
) -> Result<(Record, Version), Refusal> {
    let leading: &[u8; VERSION] = entry.first_chunk().ok_or(Refusal::Record)?;
    let next = match R::APPEND_PAST_VERSIONS {
        true => Version(record.next.0.wrapping_add(1)),
        false => record.next_after::<L>()?,
    };
    let entered = point_to(area, index, Key::of_entry(leading), place)?;
    let mut after = Record {
        next,
        keys: record.keys + u32::from(entered == Entered::New),
        pending: Pending::None,
        ..record
    };
    let mut present = Counts::of(&mut after);
    present.add::<R>(record.head, leading[0]);
    if let Entered::Displacing(older) = entered {
        present.displace::<R>(area, older);
    }
    Ok((after, record.next))
}

/// The record with a new head of an edition in place.
fn new_head<E: Fixed>(
    record: &Record,
    slot: u32,
    length: u32,
    victims: SlotMap,
) -> Result<Record, Refusal> {
    let number = record.digest.0.checked_add(1).ok_or(Refusal::Record)?;
    Ok(Record {
        head: slot,
        end: length,
        digest: DigestNumber(number),
        map: record.map.without(victims).with(slot),
        edition: E::LAYOUT.edition,
        pending: Pending::None,
        ..*record
    })
}
