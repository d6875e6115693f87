//! The command line.

use std::ffi::OsString;
use std::path::PathBuf;

/// How the program is used.
pub const USAGE: &str = "\
usage: convert IN OUT --slots N --size S [--force]

IN is an image of an area of N slots of S bytes. OUT becomes the same log in the other edition: an image of edition 1
becomes one of edition 2, and one of edition 2 becomes one of edition 1. Every byte that is no part of the log is 0 there.
OUT is written only if the conversion is accepted, and must not be there already unless --force is given.
Exit status: 0 converted, 1 refused, 2 wrong use, or a file that cannot be read or written.
";

/// What the user asks for.
#[derive(Clone, PartialEq, Eq, Debug)]
pub enum Asked {
    /// Only the usage.
    Help,
    /// A conversion.
    Conversion(Args),
}

/// A conversion.
#[derive(Clone, PartialEq, Eq, Debug)]
pub struct Args {
    /// The image.
    pub source: PathBuf,
    /// The image to write.
    pub target: PathBuf,
    /// N.
    pub slots: u32,
    /// S.
    pub slot_bytes: u32,
    /// Whether a file that is there already may be overwritten.
    pub force: bool,
}

/// Reads the arguments after the program's name.
pub fn parse(args: impl IntoIterator<Item = OsString>) -> Result<Asked, String> {
    let mut rest = args.into_iter();
    let mut files = Vec::new();
    let (mut slots, mut slot_bytes, mut force) = (None, None, false);
    while let Some(arg) = rest.next() {
        match arg.to_str() {
            Some("--slots") => slots = Some(number("--slots", rest.next())?),
            Some("--size") => slot_bytes = Some(number("--size", rest.next())?),
            Some("--force") => force = true,
            Some("--help" | "-h") => return Ok(Asked::Help),
            Some(option) if option.starts_with('-') => {
                return Err(format!("no option {option}"));
            }
            _ => files.push(PathBuf::from(arg)),
        }
    }
    let [source, target] = <[PathBuf; 2]>::try_from(files)
        .map_err(|files| format!("IN and OUT are two files, not {}", files.len()))?;
    Ok(Asked::Conversion(Args {
        source,
        target,
        slots: slots.ok_or("--slots is missing")?,
        slot_bytes: slot_bytes.ok_or("--size is missing")?,
        force,
    }))
}

fn number(option: &str, value: Option<OsString>) -> Result<u32, String> {
    let value = value.ok_or_else(|| format!("{option} needs a number"))?;
    let text = value.to_string_lossy();
    text.parse()
        .map_err(|_| format!("{option}: {text} is no number in its range"))
}
