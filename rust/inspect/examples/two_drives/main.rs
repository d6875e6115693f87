//! Writes the images of the two drives, and one of the first drive before its last operation, into a folder.

mod drives;

use std::path::Path;

fn main() -> std::io::Result<()> {
    let folder = std::env::args_os().nth(1).unwrap_or(".".into());
    for (name, image) in drives::images() {
        std::fs::write(Path::new(&folder).join(name), image)?;
    }
    Ok(())
}
