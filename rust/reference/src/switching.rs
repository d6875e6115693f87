//! The switch of a store in service to the second edition (02, R-13).

use crate::edition::Edition;
use crate::record::Record;
use crate::refusal::Refusal;
use crate::rules::{AsWritten, Rules};

/// The answer of a switch: the record, changed only if the switch was accepted, or the refusal.
pub type Switched = (Record, Result<(), Refusal>);

/// From here on every new head is of the second edition, and what it keeps is rewritten with it.
/// The record alone is changed, and not even that if the store is switched or its head is of the
/// second edition. Refuses with 4 and 5.
pub fn switch(record: Record) -> Switched {
    switch_by::<AsWritten>(record)
}

/// [`switch`] by chosen rules.
pub fn switch_by<R: Rules>(record: Record) -> Switched {
    if !record.is_in_range() {
        return (record, Err(Refusal::Record));
    }
    if !R::SWITCH_WHILE_PENDING {
        if let Err(refusal) = record.check_none_pending() {
            return (record, Err(refusal));
        }
    }
    let switched = record.switched || record.edition == Edition::FIRST;
    (Record { switched, ..record }, Ok(()))
}
