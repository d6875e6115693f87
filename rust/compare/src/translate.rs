//! The reference's types as the wrapper's.

use kurdavel::{slices, Edition, Fields, Pending, Record};

/// The wrapper's key.
pub fn key(key: reference::Key) -> kurdavel::Key {
    kurdavel::Key {
        table: key.table,
        key: key.key,
    }
}

/// The wrapper's tables.
pub fn tables(tables: reference::Tables) -> kurdavel::Tables {
    kurdavel::Tables {
        first: tables.first,
        last: tables.last,
    }
}

/// The words of a record that have the edition and the switch.
pub const EDITION: usize = 10;
pub const SWITCHED: usize = 11;

/// A format by the proved store, told any number for the edition. The wrapper's type has those alone that there are.
pub fn format(slots: u32, slot_bytes: u32, edition: u32, area: &mut [u8]) -> Result<(), u32> {
    match Edition::from_number(edition) {
        Some(edition) => proved(kurdavel::format(slots, slot_bytes, edition, area)),
        None => match slices::format(slots, slot_bytes, edition, area) {
            0 => Ok(()),
            refusal => Err(refusal),
        },
    }
}

/// The wrapper's version.
pub fn version(version: reference::Version) -> kurdavel::Version {
    kurdavel::Version(version.0)
}

/// The record's words, with any number for the edition.
pub fn record(record: reference::Record) -> Record {
    let fields = Fields {
        slots: record.slots,
        slot_bytes: record.slot_bytes,
        cells: record.cells,
        head: record.head,
        end: record.end,
        digest: kurdavel::DigestNumber(record.digest.0),
        map: kurdavel::SlotMap(record.map.0),
        next: version(record.next),
        keys: record.keys,
        edition: Edition::First,
        switched: record.switched,
        pending: pending(record.pending),
        present_bytes: record.present_bytes,
    };
    with_edition(&Record::of(fields), record.edition.0)
}

/// The record with another number for the edition.
pub fn with_edition(record: &Record, edition: u32) -> Record {
    let mut words = *record.words();
    words[EDITION] = edition;
    Record::from_words(words)
}

fn pending(pending: reference::Pending) -> Pending {
    match pending {
        reference::Pending::None => Pending::Idle,
        reference::Pending::Append { left, length } => Pending::Append { length, left },
        reference::Pending::NewHead { left, length, slot } => {
            Pending::NewHead { slot, length, left }
        }
        reference::Pending::Clean {
            left,
            length,
            slot,
            victims,
        } => Pending::Clean {
            slot,
            victims: kurdavel::SlotMap(victims.0),
            length,
            left,
        },
        reference::Pending::Forget {
            left,
            length,
            slot,
            victims,
        } => Pending::Forget {
            slot,
            victims: kurdavel::SlotMap(victims.0),
            length,
            left,
        },
    }
}

/// An answer of the wrapper with the refusal as its number.
pub fn proved<T>(answer: Result<T, kurdavel::Refusal>) -> Result<T, u32> {
    answer.map_err(kurdavel::Refusal::number)
}

/// An answer of the reference with the refusal as its number.
pub fn reference<T>(answer: Result<T, reference::Refusal>) -> Result<T, u32> {
    answer.map_err(reference::Refusal::number)
}

/// Version and kind that the wrapper tells.
pub fn proved_found(found: kurdavel::Found) -> (u64, u8) {
    (found.version.0, found.kind)
}

/// Version and kind that the reference tells.
pub fn reference_found(found: reference::Found) -> (u64, u8) {
    (found.version.0, found.kind)
}

/// Stores left and version of the wrapper's step.
pub fn proved_progress(progress: kurdavel::Progress) -> (u32, u64) {
    match progress {
        kurdavel::Progress::More { left } => (left, 0),
        kurdavel::Progress::Done { version } => (0, version.0),
    }
}

/// Stores left and version of the reference's step.
pub fn reference_progress(progress: reference::Progress) -> (u32, u64) {
    match progress {
        reference::Progress::More { left } => (left, 0),
        reference::Progress::Done { version } => (0, version.0),
    }
}
