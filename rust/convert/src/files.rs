//! The two files.

use std::fs::{self, File, OpenOptions};
use std::io::{self, Write};
use std::path::Path;

use crate::args::Args;

/// The bytes of the image. Fails also where the other file may not be written.
pub fn read(args: &Args) -> Result<Vec<u8>, String> {
    let Args { source, target, .. } = args;
    let bytes = fs::read(source).map_err(|fault| named(source, fault))?;
    if is_same(source, target) {
        return Err(format!("{}: IN and OUT are one file", target.display()));
    }
    if target.exists() && !args.force {
        return Err(there_already(target));
    }
    Ok(bytes)
}

/// Writes the converted image.
pub fn write(args: &Args, bytes: &[u8]) -> Result<(), String> {
    let target = &args.target;
    open(target, args.force)
        .and_then(|mut file| file.write_all(bytes))
        .map_err(|fault| match fault.kind() {
            io::ErrorKind::AlreadyExists => there_already(target),
            _ => named(target, fault),
        })
}

/// A new file, or by force one in the place of another.
fn open(target: &Path, force: bool) -> io::Result<File> {
    let mut options = OpenOptions::new();
    options.write(true);
    match force {
        true => options.create(true).truncate(true),
        false => options.create_new(true),
    };
    options.open(target)
}

/// Whether both paths lead to one file that is there.
fn is_same(source: &Path, target: &Path) -> bool {
    match (source.canonicalize(), target.canonicalize()) {
        (Ok(source), Ok(target)) => source == target,
        _ => false,
    }
}

fn there_already(target: &Path) -> String {
    format!(
        "{} is there already; --force overwrites it",
        target.display()
    )
}

fn named(path: &Path, fault: io::Error) -> String {
    format!("{}: {fault}", path.display())
}
