//! The bundle of images that the program `images` is run on, and what it must write.
//!
//! `images bundle` writes the bundle; `images expected` reads one from standard input
//! and writes what this reference makes of it.

mod bundle;
mod drive;
mod image;
mod laid;
mod lent;
mod made;
mod outcome;

use std::io::{self, Read, Write};

use bundle::Item;

fn main() -> io::Result<()> {
    let output = match std::env::args().nth(1).as_deref() {
        Some("bundle") => all_items().iter().flat_map(Item::stored).collect(),
        Some("expected") => expected()?,
        _ => return Err(io::Error::other("the word bundle or expected is missing")),
    };
    io::stdout().lock().write_all(&output)
}

fn all_items() -> Vec<Item> {
    [made::items(), laid::items(), lent::items()].concat()
}

fn expected() -> io::Result<Vec<u8>> {
    let mut input = Vec::new();
    io::stdin().lock().read_to_end(&mut input)?;
    let items = bundle::items(&input).ok_or(io::Error::other("an item is cut short"))?;
    let lines: String = items.iter().map(outcome::lines).collect();
    Ok(lines.into_bytes())
}
