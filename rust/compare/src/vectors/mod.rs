//! Independent vectors: histories and images whose every answer an independent model has given, replayed through the
//! static library and through the reference. `vectors/README.md` beside the data describes the format.
//!
//! [`reader`] turns a line of text into an [`event`], by the [`level`] of the file. A [`subject`] is an implementation
//! that a replay drives: [`library`] and [`second`]. A [`bench`] is one of them living through a history, and checks
//! what each event leaves. [`run`] takes a whole file through both.

pub mod bench;
pub mod difference;
pub mod event;
pub mod fnv;
pub mod level;
pub mod library;
pub mod reader;
pub mod run;
pub mod second;
pub mod subject;
pub mod words;

/// The file of the newest level that has landed, which the tests replay. The next level's file takes its place here
/// and in the folder.
pub const NEWEST: &str = concat!(env!("CARGO_MANIFEST_DIR"), "/vectors/level-13.txt");
