//! Why a call is refused.

use std::fmt;

/// The cause of a refusal. The discriminant is the number that the library answers.
#[derive(Clone, Copy, PartialEq, Eq, PartialOrd, Ord, Hash, Debug)]
#[repr(u8)]
pub enum Refusal {
    /// N or S is out of its limits, or an area is not N × S bytes long; or, at a format, there is no such edition.
    Geometry = 1,
    /// The length of the index is out of its limits.
    Cells = 2,
    /// The work buffer has fewer bytes than a slot.
    WorkShort = 3,
    /// The record is none, is out of range or does not fit what is lent, or the log has a byte that no store makes.
    BadRecord = 4,
    /// Another operation is under way.
    Busy = 5,
    /// No operation is under way.
    NonePending = 6,
    /// No value has this length: it is 8, 24, 56 or 120 bytes.
    ValueLength = 7,
    /// The key was never written, or is deleted.
    Absent = 8,
    /// No version is left to give. A [`switch`](crate::Record::switch) helps in the first edition, and only a format in the
    /// second; reads and cleanings go on.
    VersionsSpent = 9,
    /// A new head is needed, and no digest number is left for it. Only a format helps; reads go on, and so do writes and
    /// deletes whose entry fits the head.
    NumbersSpent = 10,
    /// A new key, and as many others have entries in the log as the index takes, deleted keys among them. Clean their
    /// slots, or recover with a larger index.
    KeysFull = 11,
    /// There is no room in the head for what is to be written, and a new head would take the last free slot. Cleaning the
    /// two slots that [`join`](crate::Record::join) tells makes room; in a store full of live objects a delete helps. A
    /// delete is refused so only where the store is being carried over to the second edition and what the slot of its
    /// object keeps is too long there.
    NoRoom = 12,
    /// The victims are none, or not all in the log.
    BadVictims = 13,
    /// What is kept of the victims is too long for one slot. Name fewer; a single one is never too much, unless it is of the
    /// first edition and the new head of the second.
    KeptTooLong = 14,
    /// The order is not each slot once.
    BadOrder = 15,
    /// No slot has a digest, of either edition.
    NoDigest = 16,
    /// The highest digest number, of both editions, is 0 or shared, or that digest's next version is 0.
    BadDigest = 17,
    /// An entry of the log passes the end of its slot, or has a kind or version that its edition does not have.
    DamagedLog = 18,
    /// A version stands twice in the log.
    SharedVersion = 19,
    /// The log has more keys than the index takes. The index is then all 0, and a recovery has to be accepted before a
    /// record is used again.
    TooManyKeys = 20,
    /// The key has another version than the caller expects. Read it again, and decide anew what to write.
    OtherVersion = 21,
    /// The key's table is not one that the caller may use.
    OutsideTables = 22,
    /// What is kept of no two slots of the log fits one slot. Cleaning the slot with the fewest present bytes gives back
    /// the room of those of its entries that no longer count; or delete.
    NoPair = 23,
    /// The head's map names a slot not below N, lacks the head or leaves no slot free.
    BadMap = 24,
    /// The head's map names a slot that does not begin with a digest.
    NotADigest = 25,
    /// The float is no whole number from 0 to 67,108,864, or has its sign bit set.
    BadFloat = 26,
    /// The count is above 67,108,864, or no float holds it.
    BadCount = 27,
    /// A slot of the log is of the second edition and the head of the first; or, at a conversion, slots are of both.
    BothEditions = 28,
    /// A slot's entries, rewritten in the second edition, are too long for it. Cleaning the slot before helps where some of
    /// them no longer count.
    SlotTooLong = 29,
    /// A version or next version in the log is beyond those of the first edition.
    VersionTooWide = 30,
}

impl Refusal {
    /// All causes, by number.
    pub const ALL: [Refusal; 30] = [
        Refusal::Geometry,
        Refusal::Cells,
        Refusal::WorkShort,
        Refusal::BadRecord,
        Refusal::Busy,
        Refusal::NonePending,
        Refusal::ValueLength,
        Refusal::Absent,
        Refusal::VersionsSpent,
        Refusal::NumbersSpent,
        Refusal::KeysFull,
        Refusal::NoRoom,
        Refusal::BadVictims,
        Refusal::KeptTooLong,
        Refusal::BadOrder,
        Refusal::NoDigest,
        Refusal::BadDigest,
        Refusal::DamagedLog,
        Refusal::SharedVersion,
        Refusal::TooManyKeys,
        Refusal::OtherVersion,
        Refusal::OutsideTables,
        Refusal::NoPair,
        Refusal::BadMap,
        Refusal::NotADigest,
        Refusal::BadFloat,
        Refusal::BadCount,
        Refusal::BothEditions,
        Refusal::SlotTooLong,
        Refusal::VersionTooWide,
    ];

    /// The number of the cause.
    ///
    /// ```
    /// use kurdavel::Refusal;
    /// assert_eq!(Refusal::Absent.number(), 8);
    /// assert_eq!(Refusal::from_number(8), Some(Refusal::Absent));
    /// assert_eq!(Refusal::from_number(0), None);
    /// ```
    pub const fn number(self) -> u32 {
        self as u32
    }

    /// The cause with this number.
    pub fn from_number(number: u32) -> Option<Refusal> {
        let place = usize::try_from(number).ok()?.checked_sub(1)?;
        Refusal::ALL.get(place).copied()
    }

    /// What a call's answer says: 0 accepts it.
    #[inline]
    pub(crate) fn unless_accepted(answer: u32) -> Result<(), Refusal> {
        if answer == 0 {
            return Ok(());
        }
        Err(Refusal::from_number(answer).expect("the library answers no other numbers"))
    }
}

impl fmt::Display for Refusal {
    fn fmt(&self, out: &mut fmt::Formatter<'_>) -> fmt::Result {
        write!(out, "refused {}: {self:?}", self.number())
    }
}

impl std::error::Error for Refusal {}
