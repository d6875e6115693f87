//! A parameter store for a drive's firmware: one log, which a power cut may end anywhere.
//!
//! This is a wrapper over `libkurdavel.a`, whose every function is proved: what each call answers and which bytes it
//! leaves, for every input, and that a cut at any store loses nothing that counted and adds nothing that did not. The
//! caller lends all memory; nothing is allocated.
//!
//! ```
//! use kurdavel::{format, recover, Edition, Key, Progress, Tables, Version};
//!
//! // The medium: 4 slots of 256 bytes, all that survives a cut.
//! let mut area = [0; 4 * 256];
//! format(4, 256, Edition::First, &mut area)?;
//!
//! // Power on: index and work buffer are memory that a cut loses.
//! let (mut index, mut work) = ([0; 16], [0; 256]);
//! let mut record = recover(4, 256, &[0, 1, 2, 3], &area, &mut index)?;
//!
//! // A write: its start stores nothing, and each step stores one byte.
//! let key = Key { table: 7, key: 9 };
//! let stores = record.write(&area, &index, &mut work, Tables::ALL, key, &[0x11; 8])?;
//! assert_eq!(stores, 20);
//! for left in (1..stores).rev() {
//!     let progress = record.step(&mut area, &mut index, &work)?;
//!     assert_eq!(progress, Progress::More { left });
//! }
//!
//! // A cut here would leave the key absent. The write takes effect with its last store.
//! let progress = record.step(&mut area, &mut index, &work)?;
//! assert_eq!(progress, Progress::Done { version: Version(1) });
//!
//! // A cut: the area alone gives everything back, in whatever order its slots are read.
//! let record = recover(4, 256, &[3, 1, 0, 2], &area, &mut index)?;
//! assert_eq!(record.read_value(&area, &index, Tables::ALL, key), &[0x11; 8]);
//! assert_eq!(record.next(), Version(2));
//! # Ok::<(), kurdavel::Refusal>(())
//! ```
//!
//! # Editions
//!
//! There are two [`Edition`]s of the bytes in an area. The format is told which one a store is to have; the area tells it from
//! then on, and [`Fields`] says it. The second gives out versions of 64 bits, for a store that would use up those of 32; its
//! entries are 4 bytes longer, and its kinds are others. All else is the same.
//!
//! ```
//! use kurdavel::{format, recover, Edition, Key, Tables};
//! let key = Key { table: 7, key: 9 };
//! for (edition, stores, kind) in [(Edition::First, 20, 1), (Edition::Second, 24, 9)] {
//!     let (mut area, mut index, mut work) = ([0; 4 * 256], [0; 16], [0; 256]);
//!     format(4, 256, edition, &mut area)?;
//!     let mut record = recover(4, 256, &[0, 1, 2, 3], &area, &mut index)?;
//!     let left = record.write(&area, &index, &mut work, Tables::ALL, key, &[0x11; 8])?;
//!     assert_eq!(left, stores);
//!     while record.left() > 0 {
//!         record.step(&mut area, &mut index, &work)?;
//!     }
//!     assert_eq!(record.read(&area, &index, Tables::ALL, key)?.kind, kind);
//! }
//! # Ok::<(), kurdavel::Refusal>(())
//! ```
//!
//! [`convert`] rewrites a whole area in the other edition, for a bench that keeps images of both. A store in service is
//! carried over from the first edition to the second by [`switch`](Record::switch) and the cleanings after it.
//!
//! # Rules of use
//!
//! The promise about cuts holds if
//!
//! - N and S are at each recovery what they were at the format;
//! - all other calls are given the record as the last call left it, and the index as it has become since a recovery was
//!   last accepted; a step is also given the work buffer unchanged since its start;
//! - once the area was formatted, the power failed or a recovery answered [`TooManyKeys`](Refusal::TooManyKeys) (20), a
//!   recovery is accepted before a record is used again. After 20 the index is all 0, and a [`Record`] from before still
//!   passes every test: keys that are present would read as absent, and a cleaning would be accepted and lose them;
//! - the index of a recovery is no smaller than that of the last accepted one. A smaller one may be answered with 20,
//!   which loses nothing: recover again with a larger one.
//!
//! With anything else the calls are still safe and end, and a step changes one byte of the area at the most.
//!
//! An operation that is not to be finished is given up by a [`recover`], without a cut. The rules leave no other way: a
//! copy of the record from before the start is not the newest one.
//!
//! # Several writers of one value
//!
//! Where several parts of a firmware change the same value, each writes with
//! [`write_expecting`](Record::write_expecting) over the version that it read. The one that comes too late is refused
//! with [`OtherVersion`](Refusal::OtherVersion) (21), reads again and decides anew, so that no update is lost.
//!
//! # Two owners of one store
//!
//! Every read, write and delete is given the [`Tables`] that its caller may use, and is refused with
//! [`OutsideTables`](Refusal::OutsideTables) (22) for a key in another. Owners whose tables have none in common can neither
//! read nor change each other's values, and what one gets does not depend on the bytes that the other writes. The other's
//! keys, lengths and number of calls do show: `include/kurdavel.h` says where.
//!
//! # The medium
//!
//! The area is memory that is addressed byte by byte. A cut during a store leaves that byte either as it was or as
//! stored, and no other is touched; and what a step stored has to be durable before the next step's store. Behind a
//! cache or a write buffer, put the barrier that makes it durable between the steps: each makes one store, so that
//! one barrier after each is enough. The library is linked as machine code, so that no steps are merged by link-time
//! optimisation. Reads, also from an interrupt, are allowed between steps and not during one.
//!
//! Where the medium is a device behind a driver, the area is a copy of it in memory, and
//! [`next_store`](Record::next_store) tells each byte that the device has to get.
//!
//! `include/kurdavel.h` says besides how to choose the size of the index, what helps after a refusal, and how much stack
//! each call takes.

#![deny(unsafe_code)]
#![warn(missing_docs)]

mod conversion;
mod library;
mod position;
mod record;
mod refusal;
pub mod slices;
mod store;
mod values;

pub use conversion::convert;
pub use position::{from_float, to_float};
pub use record::{Fields, Pending, Record, WORDS};
pub use refusal::Refusal;
pub use store::{format, recover, scan_read, scan_read_value, Found, Progress, Store};
pub use values::{DigestNumber, Edition, Key, SlotMap, Tables, Version};
