//! The tables that a caller may use (02, R-2).

use crate::refusal::Refusal;
use crate::segment::Key;

/// The tables from the first to the last, both included; none if the first is above the last.
#[derive(Clone, Copy, PartialEq, Eq, Hash, Debug)]
pub struct Tables {
    /// The lowest table.
    pub first: u16,
    /// The highest table.
    pub last: u16,
}

impl Tables {
    /// Every table.
    pub const ALL: Tables = Tables {
        first: 0,
        last: u16::MAX,
    };

    /// Whether a table is among them.
    #[inline]
    pub fn has(self, table: u16) -> bool {
        self.first <= table && table <= self.last
    }

    /// Refuses with 22 a key whose table is not among them.
    #[inline]
    pub(crate) fn check(self, key: Key) -> Result<(), Refusal> {
        if self.has(key.table) {
            Ok(())
        } else {
            Err(Refusal::OutsideTables)
        }
    }
}
