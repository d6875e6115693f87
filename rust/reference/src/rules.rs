//! The rules that 01 lists under "Plausible and wrong", and such of 02's requests, as switches.
//!
//! The public calls are compiled for [`AsWritten`]. Tests compile the same calls for
//! rules with one switch on and show that a history exposes it. The switches are
//! constants, so the right rules pay nothing for them.

/// One choice for each wrong reading; all are off unless overridden.
pub trait Rules {
    /// The head is the highest slot with a digest, whatever its number.
    const HEAD_IS_HIGHEST_SLOT: bool = false;
    /// The head digest's next version is ignored at recovery.
    const NEXT_FROM_ENTRIES_ALONE: bool = false;
    /// An append stores its kind byte before the body.
    const KIND_BYTE_FIRST: bool = false;
    /// No 0 is stored after the last entry.
    const OLD_BYTE_AFTER_ENTRY: bool = false;
    /// A tombstone is dropped once the newest object of its key is among the victims.
    const TOMBSTONE_GOES_WITH_NEWEST_OBJECT: bool = false;
    /// The digest of a delete that is done as a cleaning has the next version before it.
    const FORGOTTEN_VERSION_NOT_IN_DIGEST: bool = false;
    /// Such a delete leaves nothing of its key, whatever other slots hold.
    const NO_TOMBSTONE_OF_FORGOTTEN: bool = false;
    /// An object that is overwritten or deleted still counts among the present bytes of its slot.
    const OVERWRITTEN_STILL_COUNTED: bool = false;
    /// Tombstones count among the present bytes of their slot.
    const TOMBSTONES_COUNTED: bool = false;
    /// The map of the head is tested before its next version.
    const MAP_BEFORE_NEXT_VERSION: bool = false;
    /// The slots that the map names are tested before the map itself.
    const LOG_SLOTS_BEFORE_MAP: bool = false;
    /// A map that leaves no slot free counts as a bad digest.
    const FULL_MAP_IS_17: bool = false;
    /// Only digests of the first edition are looked for.
    const FIRST_DIGESTS_ALONE: bool = false;
    /// The highest digest number counts as shared only where both digests are of one edition.
    const SHARED_WITHIN_AN_EDITION: bool = false;
    /// Log slots of both editions are tested for only once all entries are read.
    const EDITIONS_AFTER_ENTRIES: bool = false;
    /// Log slots of both editions are refused under a head of the second edition too.
    const EDITIONS_NEVER_MIXED: bool = false;
    /// A store counts as switched after every recovery.
    const SWITCH_KEPT_OVER_RECOVERY: bool = false;
    /// A switch is accepted while an operation is under way.
    const SWITCH_WHILE_PENDING: bool = false;
    /// An entry fits a head of the first edition by its length alone, whatever its version is.
    const APPEND_PAST_VERSIONS: bool = false;
    /// A cleaning copies what it keeps as it stands, whatever edition the new head is of.
    const OLD_BYTES_COPIED: bool = false;
    /// A full delete whose rewritten victim does not fit is refused as a cleaning is.
    const FULL_DELETE_MEETS_14: bool = false;
    /// A full delete is refused for its digest number before its victim's entries are counted.
    const DIGESTS_SPENT_BEFORE_ROOM: bool = false;
}

/// The rules of 01 and 02.
#[derive(Clone, Copy, PartialEq, Eq, Debug)]
pub struct AsWritten;

impl Rules for AsWritten {}
