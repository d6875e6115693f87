//! Images from one edition to the other, for the bench: the proved conversion between two files. The reference gives the
//! limits and the meanings of refusals alone.

#![forbid(unsafe_code)]
#![warn(missing_docs)]

pub mod args;
pub mod files;
pub mod run;
pub mod words;
