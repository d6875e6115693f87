//! Finding two entries with one version (01, cause 19) without memory to spare.
//!
//! A version whose bit in a small filter is already set is suspect. Suspects are
//! gathered, sorted and counted in one further walk of the log, so the cost does not
//! grow with the number of pairs. Versions given in a row never collide in the filter
//! as long as fewer than `FILTER_BITS` separate them.

use crate::counters::Version;
use crate::log::walk;
use crate::refusal::Refusal;

const FILTER_BITS: u32 = 8192;
const SUSPECTS: usize = 180;
const MARK_BITS: u32 = 2048;

/// The filter and the suspects gathered so far; with [`Marks`], under 3 KiB in all.
pub(crate) struct Filter {
    seen: [u32; (FILTER_BITS / 32) as usize],
    suspects: [Version; SUSPECTS],
    count: usize,
    overflowed: bool,
}

impl Filter {
    pub(crate) fn new() -> Filter {
        Filter {
            seen: [0; (FILTER_BITS / 32) as usize],
            suspects: [Version::NONE; SUSPECTS],
            count: 0,
            overflowed: false,
        }
    }

    /// Takes note of the version of one entry.
    #[inline]
    pub(crate) fn note(&mut self, version: Version) {
        let bit = version.0 as u32 % FILTER_BITS;
        let word = &mut self.seen[(bit / 32) as usize];
        let mask = 1 << (bit % 32);
        let is_suspect = *word & mask != 0;
        *word |= mask;
        if is_suspect {
            self.suspect(version);
        }
    }

    #[cold]
    fn suspect(&mut self, version: Version) {
        match self.suspects.get_mut(self.count) {
            Some(free) => {
                *free = version;
                self.count += 1;
            }
            None => self.overflowed = true,
        }
    }

    /// Refuses with 19 if two entries of the log have one version. The log has no
    /// damage, and every entry of it was noted once.
    #[inline]
    pub(crate) fn check(
        &mut self,
        area: &[u8],
        slot_bytes: u32,
        slots: impl Iterator<Item = u32> + Clone,
    ) -> Result<(), Refusal> {
        if self.overflowed {
            self.check_in_parts(area, slot_bytes, slots)
        } else {
            self.check_suspects(area, slot_bytes, slots)
        }
    }

    /// Notes the whole log again and looks at the suspects whenever they are many.
    #[cold]
    fn check_in_parts(
        &mut self,
        area: &[u8],
        slot_bytes: u32,
        slots: impl Iterator<Item = u32> + Clone,
    ) -> Result<(), Refusal> {
        *self = Filter::new();
        walk!(
            area,
            slot_bytes,
            slots.clone(),
            Refusal::Entry,
            |_, fields| {
                if self.count == SUSPECTS {
                    self.check_suspects(area, slot_bytes, slots.clone())?;
                }
                self.note(fields.version);
                Ok(())
            }
        )?;
        self.check_suspects(area, slot_bytes, slots)
    }

    /// Counts the suspects in the log and lets them go. Each is the version of an
    /// entry, so more entries than suspects means that one version is shared.
    fn check_suspects(
        &mut self,
        area: &[u8],
        slot_bytes: u32,
        slots: impl Iterator<Item = u32>,
    ) -> Result<(), Refusal> {
        let suspects = &mut self.suspects[..self.count];
        self.count = 0;
        if suspects.is_empty() {
            return Ok(());
        }
        suspects.sort_unstable();
        if suspects.windows(2).any(|pair| pair[0] == pair[1]) {
            return Err(Refusal::VersionShared);
        }
        let marks = Marks::of(suspects);
        let mut entries = 0;
        walk!(area, slot_bytes, slots, Refusal::Entry, |_, fields| {
            let version = fields.version;
            if marks.may_have(version) && suspects.binary_search(&version).is_ok() {
                entries += 1;
            }
            Ok(())
        })?;
        if entries > suspects.len() {
            return Err(Refusal::VersionShared);
        }
        Ok(())
    }
}

/// A second, scattered filter that spares most entries the search among the suspects.
struct Marks([u32; (MARK_BITS / 32) as usize]);

impl Marks {
    fn of(versions: &[Version]) -> Marks {
        let mut marks = Marks([0; (MARK_BITS / 32) as usize]);
        for &version in versions {
            let (word, mask) = Marks::bit(version);
            marks.0[word] |= mask;
        }
        marks
    }

    #[inline]
    fn bit(version: Version) -> (usize, u32) {
        let folded = (version.0 ^ version.0 >> 32) as u32;
        let number = folded.wrapping_mul(0x9E37_79B1) / (u32::MAX / MARK_BITS + 1);
        ((number / 32) as usize, 1 << (number % 32))
    }

    #[inline]
    fn may_have(&self, version: Version) -> bool {
        let (word, mask) = Marks::bit(version);
        self.0[word] & mask != 0
    }
}
