//! Small pieces of text that every view uses.

use reference::{Edition, Key, SlotMap};

fn digits(bytes: &[u8]) -> Vec<String> {
    bytes.iter().map(|byte| format!("{byte:02x}")).collect()
}

/// Bytes in hexadecimal, apart.
pub fn spaced_hex(bytes: &[u8]) -> String {
    digits(bytes).join(" ")
}

/// Bytes in hexadecimal.
pub fn hex(bytes: &[u8]) -> String {
    digits(bytes).concat()
}

/// Things listed, with `or` before the last.
pub fn alternatives(things: &[String]) -> String {
    match things {
        [others @ .., before, last] => {
            let others: String = others.iter().map(|other| format!("{other}, ")).collect();
            format!("{others}{before} or {last}")
        }
        [only] => only.clone(),
        [] => String::new(),
    }
}

/// Table and key.
pub fn key(key: Key) -> String {
    format!("{}/{}", key.table, key.key)
}

/// The slots of a map, or `none`.
pub fn slots(map: SlotMap) -> String {
    let slots: Vec<String> = map.slots().map(|slot| slot.to_string()).collect();
    match slots.as_slice() {
        [] => "none".into(),
        _ => slots.join(" "),
    }
}

/// A count with its noun.
pub fn count(number: usize, noun: &str) -> String {
    match number {
        1 => format!("1 {noun}"),
        _ => format!("{number} {noun}s"),
    }
}

/// The name of a kind of entry.
pub fn kind(kind: u8) -> String {
    let mut layouts = Edition::ALL.into_iter().filter_map(Edition::layout);
    match layouts.find_map(|layout| Some((layout, layout.entry_bytes(kind)?))) {
        Some((layout, _)) if kind == layout.tombstone => "tombstone".into(),
        Some((layout, length)) => format!("object {}", length - layout.tombstone_bytes()),
        None => format!("kind {kind}"),
    }
}

#[cfg(test)]
mod tests {
    use super::alternatives;

    #[test]
    fn the_last_alternative_has_its_or() {
        let told = |things: &[&str]| {
            let things: Vec<String> = things.iter().map(|thing| thing.to_string()).collect();
            alternatives(&things)
        };
        assert_eq!(told(&["8"]), "8");
        assert_eq!(told(&["8", "24"]), "8 or 24");
        assert_eq!(told(&["8", "24", "56"]), "8, 24 or 56");
    }
}
