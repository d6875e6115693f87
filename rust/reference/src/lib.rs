//! The drive parameter store of document 01 with the requests of 02 that have landed, as a
//! plain library on borrowed memory.
//!
//! Every call is a function on slices and a [`Record`] that is copied in and handed
//! back. None of the calls allocates, and none panics: what it cannot accept it
//! refuses with a [`Refusal`], whose number is that of 01's table. The book, the
//! checker of the index rule, the dump and the generators of tests are aids for
//! comparison and do allocate.
//!
//! The modules follow the sections of 01.

#![forbid(unsafe_code)]
#![warn(missing_docs)]

pub mod book;
pub mod cleaning;
pub mod conversion;
pub mod counters;
pub mod dump;
pub mod edition;
pub mod fnv;
pub mod index;
pub mod joining;
pub mod layout;
mod log;
pub mod operations;
pub mod position;
pub mod present;
pub mod read;
pub mod record;
pub mod recovery;
pub mod refusal;
pub mod rng;
pub mod rules;
pub mod scan;
pub mod segment;
pub mod slot_map;
pub mod step;
pub mod switching;
pub mod tables;
pub mod testing;
mod versions;

pub use cleaning::clean;
pub use conversion::convert;
pub use counters::{DigestNumber, Version};
pub use dump::dump;
pub use edition::Edition;
pub use joining::join;
pub use operations::{delete, format, write, write_expecting, Started};
pub use position::{from_float, to_float};
pub use present::fewest;
pub use read::{read, read_value, Found};
pub use record::{Pending, Record};
pub use recovery::recover;
pub use refusal::Refusal;
pub use scan::{scan_read, scan_read_value};
pub use segment::Key;
pub use slot_map::SlotMap;
pub use step::{next_store, step, step_kept, Progress, Stepped, Store};
pub use switching::{switch, Switched};
pub use tables::Tables;
