//! Versions and digest numbers (01, "Bytes of a segment"): two counters that are
//! never mixed, each with a type of its own.

/// The version of an entry, or the next version to be given. How far either goes depends on the
/// edition.
#[derive(Clone, Copy, PartialEq, Eq, PartialOrd, Ord, Hash, Debug)]
pub struct Version(pub u64);

impl Version {
    /// Told by the last step of a cleaning, which gives no version; also what an absent key has.
    pub const NONE: Version = Version(0);
}

/// The number of a digest, from 1 up.
#[derive(Clone, Copy, PartialEq, Eq, PartialOrd, Ord, Hash, Debug)]
pub struct DigestNumber(pub u32);

impl DigestNumber {
    /// The number of the digest that a format lays down.
    pub const FIRST: DigestNumber = DigestNumber(1);
    /// A number after which no new head can be begun.
    pub const LAST: DigestNumber = DigestNumber(u32::MAX);
}
