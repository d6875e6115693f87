//! What an image of the store tells a failure analyst: the verdict of recovery and its cause, which entries count and
//! what beats the others, and how far an operation had come that was under way when the supply failed.
//!
//! Images are only read. Recovery and the plans of operations are those of the second implementation, `reference`; this
//! crate adds the reasons.

#![forbid(unsafe_code)]
#![warn(missing_docs)]

pub mod args;
pub mod between;
pub mod cause;
pub mod entries;
pub mod evidence;
pub mod history;
pub mod image;
pub mod json;
pub mod lost;
pub mod page;
pub mod plans;
pub mod report;
pub mod run;
pub mod slots;
pub mod text;
pub mod under_way;
pub mod verdict;
pub mod words;
