//! The book of a list of calls and cuts (01, "The book of a list").
//!
//! It knows nothing of bytes: it is told what was called and how it went, and says what
//! a recovery must give.

use std::collections::BTreeMap;

use crate::counters::Version;
use crate::segment::Key;
use crate::slot_map::SlotMap;
use crate::step::Progress;

/// An operation as the book is told of it.
#[derive(Clone, PartialEq, Eq, Debug)]
pub enum Operation {
    /// Write a value under a key.
    Write(Key, Vec<u8>),
    /// Delete a key.
    Delete(Key),
    /// Clean these victims.
    Clean(SlotMap),
}

/// One line of the list that the book is fed.
#[derive(Clone, PartialEq, Eq, Debug)]
pub enum Event {
    /// A start, with its number of stores if it was accepted.
    Start(Operation, Option<u32>),
    /// A step, and whether it was accepted.
    Step(bool),
    /// A read, which changes nothing.
    Read(Key),
    /// A switch, and whether it was accepted; it changes nothing that the book has.
    Switch(bool),
    /// A recovery, and whether it was accepted.
    Recovery(bool),
    /// The power failed.
    Cut,
}

/// What a store must hold after a list.
#[derive(Clone, PartialEq, Eq, Debug)]
pub struct Book {
    /// Version and value of the keys present.
    pub keys: BTreeMap<Key, (Version, Vec<u8>)>,
    /// The next version.
    pub next: Version,
    /// The operation pending and its stores left.
    pub pending: Option<(Operation, u32)>,
}

impl Default for Book {
    fn default() -> Book {
        Book::new()
    }
}

impl Book {
    /// The book just after a format.
    pub fn new() -> Book {
        Book {
            keys: BTreeMap::new(),
            next: Version(1),
            pending: None,
        }
    }

    /// The version of a key, [`Version::NONE`] where it is not present: what an accepted start
    /// with an expectation must have expected.
    pub fn version(&self, key: Key) -> Version {
        self.keys
            .get(&key)
            .map_or(Version::NONE, |(version, _)| *version)
    }

    /// Takes in one line. For an accepted step, gives the answer that the step must give.
    pub fn feed(&mut self, event: &Event) -> Option<Progress> {
        match event {
            Event::Start(operation, Some(stores)) => {
                self.pending = Some((operation.clone(), *stores));
                None
            }
            Event::Step(true) => self.take_store(),
            Event::Recovery(true) | Event::Cut => {
                self.pending = None;
                None
            }
            Event::Start(_, None)
            | Event::Step(false)
            | Event::Read(_)
            | Event::Switch(_)
            | Event::Recovery(false) => None,
        }
    }

    /// Takes one store off the pending operation, which counts at 0.
    fn take_store(&mut self) -> Option<Progress> {
        let (operation, left) = self.pending.take()?;
        let left = left.checked_sub(1)?;
        if left > 0 {
            self.pending = Some((operation, left));
            return Some(Progress::More { left });
        }
        let version = match operation {
            Operation::Write(key, value) => {
                let version = self.give_version();
                self.keys.insert(key, (version, value));
                version
            }
            Operation::Delete(key) => {
                self.keys.remove(&key);
                self.give_version()
            }
            Operation::Clean(_) => Version::NONE,
        };
        Some(Progress::Done { version })
    }

    fn give_version(&mut self) -> Version {
        let version = self.next;
        self.next = Version(version.0.wrapping_add(1));
        version
    }
}
