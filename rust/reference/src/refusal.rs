//! The causes of refusal and their numbers (01, "Refused calls", and 02).

/// Declares the causes once: what is said of each is its documentation and its meaning as text.
macro_rules! causes {
    (
        $(#[$about:meta])*
        pub enum $name:ident {
            $($(#[doc = $line:literal])+ $cause:ident = $number:literal,)+
        }
    ) => {
        $(#[$about])*
        pub enum $name {
            $($(#[doc = $line])+ $cause = $number,)+
        }

        impl $name {
            /// What the cause means, as a sentence.
            pub fn meaning(self) -> &'static str {
                match self {
                    $($name::$cause => concat!($($line),+).trim_ascii_start(),)+
                }
            }
        }
    };
}

causes! {
/// Why a call was refused. The discriminant is the number in 01's table, which 02's requests go on with.
#[derive(Clone, Copy, PartialEq, Eq, PartialOrd, Ord, Hash, Debug)]
#[repr(u8)]
pub enum Refusal {
    /// N or S is out of its limits, an area has another length than N × S, or there is no such
    /// edition.
    Geometry = 1,
    /// The index has a length outside the limits of M.
    IndexLength = 2,
    /// The work buffer is shorter than a slot.
    WorkLength = 3,
    /// The record is out of range or does not fit the lent memory, or a byte that no
    /// log holds was met.
    Record = 4,
    /// Another operation is under way.
    Pending = 5,
    /// No operation is under way.
    NonePending = 6,
    /// No kind of object has a value of this length.
    ValueLength = 7,
    /// The key was never written, or is deleted.
    Absent = 8,
    /// The next version is at its limit.
    VersionsSpent = 9,
    /// The digest number is at its limit and a new head is needed.
    DigestsSpent = 10,
    /// The key is new, and the index has no cell left for it.
    KeysFull = 11,
    /// There is no room in the head for an entry, and a new head would take the last free slot;
    /// for a delete, what its slot keeps does not fit a new head either.
    SlotsFull = 12,
    /// The victims are none, or not all in the log.
    Victims = 13,
    /// What the cleaning keeps does not fit one slot.
    KeptLength = 14,
    /// The order does not name every slot once.
    Order = 15,
    /// No slot has a digest.
    NoDigest = 16,
    /// The highest digest number is 0 or shared, or that digest's next version is 0.
    HeadDigest = 17,
    /// An entry of the log has an unknown kind, passes its slot's end or has a
    /// version that no entry can have.
    Entry = 18,
    /// A version stands twice in the log.
    VersionShared = 19,
    /// The log has more than M - 1 keys.
    TooManyKeys = 20,
    /// The key has another version than the caller expects.
    OtherVersion = 21,
    /// The key's table is not one of those that the caller may use.
    OutsideTables = 22,
    /// What is kept of no two slots of the log fits one new head.
    NoPair = 23,
    /// The head's map names a slot not below N, lacks the head or leaves no slot free.
    HeadMap = 24,
    /// The head's map names a slot that has no digest.
    NotADigest = 25,
    /// The float is not a whole count that a head position may have.
    Float = 26,
    /// The count is above the highest position, or no float holds it.
    Count = 27,
    /// A slot of the log is of the second edition and the head of the first, or slots of a log to
    /// be converted are of both.
    Editions = 28,
    /// The entries of a slot, rewritten in the other edition, do not fit it.
    SlotTooLong = 29,
    /// A version or next version in the log is beyond those of the other edition.
    VersionTooWide = 30,
}
}

impl Refusal {
    /// All causes, by number.
    pub const ALL: [Refusal; 30] = [
        Refusal::Geometry,
        Refusal::IndexLength,
        Refusal::WorkLength,
        Refusal::Record,
        Refusal::Pending,
        Refusal::NonePending,
        Refusal::ValueLength,
        Refusal::Absent,
        Refusal::VersionsSpent,
        Refusal::DigestsSpent,
        Refusal::KeysFull,
        Refusal::SlotsFull,
        Refusal::Victims,
        Refusal::KeptLength,
        Refusal::Order,
        Refusal::NoDigest,
        Refusal::HeadDigest,
        Refusal::Entry,
        Refusal::VersionShared,
        Refusal::TooManyKeys,
        Refusal::OtherVersion,
        Refusal::OutsideTables,
        Refusal::NoPair,
        Refusal::HeadMap,
        Refusal::NotADigest,
        Refusal::Float,
        Refusal::Count,
        Refusal::Editions,
        Refusal::SlotTooLong,
        Refusal::VersionTooWide,
    ];

    /// The number in 01's table.
    pub fn number(self) -> u32 {
        self as u32
    }

    /// The cause with this number.
    pub fn from_number(number: u32) -> Option<Refusal> {
        let place = usize::try_from(number).ok()?.checked_sub(1)?;
        Refusal::ALL.get(place).copied()
    }
}
