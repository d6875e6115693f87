//! The events of a file of vectors, as data. Each has its inputs and the answer that it must get.

use super::difference::{same, Difference};

/// An answer as the file has it, or the number of the refusal.
pub type Owed<T> = Result<T, u32>;

/// A table and a key in it.
#[derive(Clone, Copy, PartialEq, Eq, PartialOrd, Ord, Debug)]
pub struct Key {
    /// The table.
    pub table: u16,
    /// The key within the table.
    pub key: u32,
}

/// The tables that a caller may use, first and last included.
#[derive(Clone, Copy, PartialEq, Eq, Debug)]
pub struct Range {
    /// The first table.
    pub first: u16,
    /// The last table.
    pub last: u16,
}

/// The record. What a level or an implementation does not have is none.
#[derive(Clone, PartialEq, Eq, Debug)]
pub struct Record {
    /// Number of slots (N).
    pub slots: u32,
    /// Bytes in a slot (S).
    pub slot_bytes: u32,
    /// Cells of the index (M).
    pub cells: u32,
    /// Slot of the head.
    pub head: u32,
    /// End of the head's entries.
    pub end: u32,
    /// Number of the head's digest.
    pub number: u32,
    /// The slots of the log.
    pub map: u32,
    /// The next version.
    pub next: u64,
    /// Keys with any entry in the log.
    pub keys: u32,
    /// Stores left of the pending operation, if there is one.
    pub left: Option<u32>,
    /// The present bytes of each slot below N.
    pub present_bytes: Option<Vec<u32>>,
    /// The edition of the head.
    pub edition: Option<u32>,
    /// Whether the store is switched.
    pub switched: Option<u32>,
}

impl Record {
    /// Fails unless another record has the same in every field that this one has.
    pub fn check(&self, found: &Record) -> Result<(), Difference> {
        same("record, N", self.slots, found.slots)?;
        same("record, S", self.slot_bytes, found.slot_bytes)?;
        same("record, M", self.cells, found.cells)?;
        same("record, head", self.head, found.head)?;
        same("record, end", self.end, found.end)?;
        same("record, digest number", self.number, found.number)?;
        same("record, slot map", self.map, found.map)?;
        same("record, next version", self.next, found.next)?;
        same("record, keys", self.keys, found.keys)?;
        same("record, left", or_dash(self.left), or_dash(found.left))?;
        let lists = (&self.present_bytes, &found.present_bytes);
        same_if_owed("record, present bytes", lists.0, lists.1)?;
        same_if_owed("record, edition", &self.edition, &found.edition)?;
        same_if_owed("record, switched", &self.switched, &found.switched)
    }
}

fn or_dash(number: Option<u32>) -> String {
    number.map_or("-".into(), |number| number.to_string())
}

/// A field of later levels: nothing is owed where the file has none.
fn same_if_owed<T: PartialEq + std::fmt::Debug>(
    field: &str,
    owed: &Option<T>,
    found: &Option<T>,
) -> Result<(), Difference> {
    match (owed, found) {
        (Some(owed), None) => Err(Difference::new(
            field,
            format!("{owed:?}"),
            "no such field: the implementation has none yet",
        )),
        (Some(owed), Some(found)) => same(field, format!("{owed:?}"), format!("{found:?}")),
        (None, _) => Ok(()),
    }
}

/// A present key, as a read tells it.
#[derive(Clone, Copy, PartialEq, Eq, Debug)]
pub struct PresentKey {
    /// The key.
    pub key: Key,
    /// What a read of it tells.
    pub found: Found,
}

/// What an accepted read tells.
#[derive(Clone, Copy, PartialEq, Eq, Debug)]
pub struct Found {
    /// The version.
    pub version: u64,
    /// The kind of the object.
    pub kind: u32,
    /// Place of the first value byte in the area.
    pub place: usize,
    /// Length of the value.
    pub length: usize,
}

/// What an accepted start gives.
#[derive(Clone, PartialEq, Eq, Debug)]
pub struct Started {
    /// Stores to come.
    pub stores: u32,
    /// The record.
    pub record: Record,
    /// The first bytes of the work buffer.
    pub work: Vec<u8>,
}

/// What an accepted step tells: the stores left, or the version and the record after the last one.
#[derive(Clone, PartialEq, Eq, Debug)]
pub enum Told {
    /// Stores left, at least 1.
    More(u32),
    /// The version, and the record after the operation.
    Done(u64, Record),
}

/// An accepted step and its one store.
#[derive(Clone, PartialEq, Eq, Debug)]
pub struct Step {
    /// What it tells.
    pub told: Told,
    /// The place in the area.
    pub place: usize,
    /// The byte.
    pub byte: u8,
}

/// Several accepted steps of one operation.
#[derive(Clone, PartialEq, Eq, Debug)]
pub struct Steps {
    /// How many.
    pub count: u32,
    /// Stores left after the last of them.
    pub left: u32,
    /// The version, if none are left.
    pub version: Option<u64>,
    /// FNV of the area then.
    pub fnv: u64,
    /// The record then.
    pub record: Record,
}

/// The area before a format.
#[derive(Clone, PartialEq, Eq, Debug)]
pub enum Before {
    /// These bytes, at least one, over and over.
    Fill(Vec<u8>),
    /// These bytes.
    Hex(Vec<u8>),
}

/// N, S and, from the level that has editions, what format is told.
#[derive(Clone, Copy, PartialEq, Eq, Debug)]
pub struct Geometry {
    /// Number of slots.
    pub slots: u32,
    /// Bytes in a slot.
    pub slot_bytes: u32,
    /// The edition.
    pub edition: Option<u32>,
}

/// A field of the record that a `with` changes.
#[derive(Clone, Copy, PartialEq, Eq, Debug)]
pub enum Field {
    /// N.
    Slots,
    /// S.
    SlotBytes,
    /// M.
    Cells,
    /// Head slot.
    Head,
    /// End of the head's entries.
    End,
    /// Digest number.
    Number,
    /// Slot map.
    Map,
    /// Next version.
    Next,
    /// Number of keys.
    Keys,
    /// Stores left.
    Left,
    /// Edition.
    Edition,
    /// Present bytes of this slot.
    PresentBytes(u32),
}

/// A buffer whose lent length a `with` changes.
#[derive(Clone, Copy, PartialEq, Eq, Debug)]
pub enum Buffer {
    /// The area.
    Area,
    /// The index.
    Index,
    /// The work buffer.
    Work,
    /// The second buffer of a conversion.
    Target,
}

/// What a `with` changes for the next call.
#[derive(Clone, Copy, PartialEq, Eq, Debug)]
pub enum With {
    /// How much of a buffer is lent, in bytes or cells.
    Lent(Buffer, usize),
    /// A field of the record, or an argument of its name.
    Field(Field, u64),
}

/// One line of a file.
#[derive(Clone, PartialEq, Eq, Debug)]
#[allow(missing_docs)]
pub enum Event {
    History(Geometry),
    Format {
        before: Before,
        owed: Owed<u64>,
    },
    Image {
        slots: u32,
        slot_bytes: u32,
        cells: usize,
        order: Vec<u8>,
        area: Vec<u8>,
        owed: Owed<(Record, Vec<PresentKey>)>,
    },
    Patch {
        place: usize,
        bytes: Vec<u8>,
    },
    Cut,
    Recover {
        cells: usize,
        order: Vec<u8>,
        owed: Owed<Record>,
    },
    Present(Owed<Vec<PresentKey>>),
    Write {
        key: Key,
        value: Vec<u8>,
        expected: Option<u64>,
        range: Option<Range>,
        owed: Owed<Started>,
    },
    Delete {
        key: Key,
        range: Option<Range>,
        owed: Owed<Started>,
    },
    Clean {
        victims: u32,
        owed: Owed<Started>,
    },
    Step(Owed<Step>),
    Steps(Steps),
    Read {
        key: Key,
        range: Option<Range>,
        owed: Owed<Found>,
    },
    Fewest(Owed<u32>),
    Join(Owed<(u32, u32)>),
    Switch(Owed<Record>),
    ScanRead {
        key: Key,
        range: Range,
        owed: Owed<Found>,
    },
    FromFloat {
        value: Vec<u8>,
        owed: Owed<Vec<u8>>,
    },
    ToFloat {
        value: Vec<u8>,
        owed: Owed<Vec<u8>>,
    },
    Convert {
        slots: u32,
        slot_bytes: u32,
        source: Vec<u8>,
        owed: Owed<Vec<u8>>,
    },
    ConvertArea(Owed<u64>),
    With(With),
    End {
        fnv: u64,
        area: Option<Vec<u8>>,
    },
}

impl Event {
    /// Whether a `with` may stand before it: it is a call, and refused, or the one call of which some are accepted.
    pub fn may_follow_with(&self) -> bool {
        match self {
            Event::History(_) | Event::Patch { .. } | Event::Cut => false,
            Event::With(_) | Event::End { .. } | Event::Steps(_) => false,
            Event::Fewest(_) => true,
            Event::Format { owed, .. } | Event::ConvertArea(owed) => owed.is_err(),
            Event::Image { owed, .. } => owed.is_err(),
            Event::Recover { owed, .. } | Event::Switch(owed) => owed.is_err(),
            Event::Present(owed) => owed.is_err(),
            Event::Write { owed, .. } | Event::Delete { owed, .. } => owed.is_err(),
            Event::Clean { owed, .. } => owed.is_err(),
            Event::Step(owed) => owed.is_err(),
            Event::Read { owed, .. } | Event::ScanRead { owed, .. } => owed.is_err(),
            Event::Join(owed) => owed.is_err(),
            Event::FromFloat { owed, .. } | Event::ToFloat { owed, .. } => owed.is_err(),
            Event::Convert { owed, .. } => owed.is_err(),
        }
    }
}

/// What the `with` lines before a call change.
#[derive(Clone, Default, PartialEq, Eq, Debug)]
pub struct Changes(Vec<With>);

impl Changes {
    /// Whether there are none.
    pub fn is_empty(&self) -> bool {
        self.0.is_empty()
    }

    /// How many there are.
    pub fn len(&self) -> usize {
        self.0.len()
    }

    /// Takes in one more; nothing may be changed twice.
    pub fn add(&mut self, with: With) -> Result<(), Difference> {
        let taken = self.0.iter().any(|known| match (known, with) {
            (With::Lent(one, _), With::Lent(other, _)) => *one == other,
            (With::Field(one, _), With::Field(other, _)) => *one == other,
            _ => false,
        });
        if taken {
            let expected = "each change once before a call";
            return Err(Difference::new("with", expected, "a second one"));
        }
        self.0.push(with);
        Ok(())
    }

    /// How much of a buffer is lent, if that is changed.
    pub fn lent(&self, buffer: Buffer) -> Option<usize> {
        self.0.iter().find_map(|with| match with {
            With::Lent(changed, length) if *changed == buffer => Some(*length),
            _ => None,
        })
    }

    /// The fields that are changed.
    pub fn fields(&self) -> impl Iterator<Item = (Field, u64)> + '_ {
        self.0.iter().filter_map(|with| match with {
            With::Field(field, value) => Some((*field, *value)),
            With::Lent(..) => None,
        })
    }

    /// The arguments of a call that takes N, S and edition beside the area.
    pub fn geometry(&self, own: Geometry) -> Geometry {
        let mut geometry = own;
        for (field, value) in self.fields() {
            match field {
                Field::Slots => geometry.slots = value as u32,
                Field::SlotBytes => geometry.slot_bytes = value as u32,
                Field::Edition => geometry.edition = Some(value as u32),
                _ => {}
            }
        }
        geometry
    }
}
