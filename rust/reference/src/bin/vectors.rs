//! What the program `vectors` must write: FNV-1a of its texts and keys, and what the readers find in its bytes.

use std::io::{self, Write};

use reference::edition::FIRST;
use reference::fnv::fnv1a;
use reference::segment::{read_entry, Digest, Entry, Fields, Key};

fn main() -> io::Result<()> {
    let text = [published(), keys(), worked(), ends_and_damage(), kinds()].concat();
    io::stdout().lock().write_all(text.as_bytes())
}

/// The hash of a text, and the text.
fn hash_line(text: &str) -> String {
    format!("{:08x} \"{text}\"\n", fnv1a(text.as_bytes()))
}

/// Texts of the published list: some letters, and every beginning of two more.
fn published() -> String {
    let beginnings = |text: &'static str| (1..=text.len()).map(move |length| &text[..length]);
    let texts = ["", "a", "b", "d", "e"]
        .into_iter()
        .chain(beginnings("foobar"))
        .chain(beginnings("chongo was here!"));
    let lines: String = texts.map(hash_line).collect();
    format!("FNV-1a\n{lines}")
}

/// The hash of a key, and of its stored bytes written out.
fn key_line(table: u16, key: u32, stored: [u8; 6]) -> String {
    let hashes = [Key { table, key }.hash(), fnv1a(&stored)];
    format!(
        "{:08x} {:08x} table {table} key {key}\n",
        hashes[0], hashes[1]
    )
}

fn keys() -> String {
    [
        "Keys\n".to_owned(),
        key_line(0, 0, [0; 6]),
        key_line(7, 9, [7, 0, 9, 0, 0, 0]),
        key_line(0x1234, 0x89ab_cdef, [0x34, 0x12, 0xef, 0xcd, 0xab, 0x89]),
        key_line(u16::MAX, u32::MAX, [0xff; 6]),
    ]
    .concat()
}

fn digest_line(segment: &[u8]) -> String {
    let digest = Digest::read(segment).expect("the bytes of a digest");
    let Digest {
        number, map, next, ..
    } = digest;
    format!("digest number {} map {} next {}\n", number.0, map.0, next.0)
}

fn fields(name: &str, fields: Fields) -> String {
    let Fields {
        key: Key { table, key },
        version,
        length,
        ..
    } = fields;
    let version = version.0;
    format!("{name} table {table} key {key} version {version} length {length}")
}

/// What stands at an offset of a segment.
fn found(segment: &[u8], offset: usize) -> String {
    match read_entry(&FIRST, segment, offset) {
        Entry::Object(object) => format!("{} kind {}", fields("object", object), object.kind),
        Entry::Tombstone(tombstone) => fields("tombstone", tombstone),
        Entry::End => "end".to_owned(),
        Entry::Damage => "damage".to_owned(),
    }
}

/// A heading, the digest of a segment, and what stands at these offsets.
fn case(number: u32, segment: &[u8], offsets: &[usize]) -> String {
    let lines: String = offsets
        .iter()
        .map(|&offset| at_line(segment, offset))
        .collect();
    format!("Case {number}\n{}{lines}", digest_line(segment))
}

fn at_line(segment: &[u8], offset: usize) -> String {
    format!("at {offset}: {}\n", found(segment, offset))
}

/// Cases 1, 2 and 4 of 01: a slot when it is formatted, after a write, and after a delete.
fn worked() -> String {
    let digest = [5, 1, 0, 0, 0, 1, 0, 0, 0, 1, 0, 0, 0];
    let object = [&entry(1, 1)[..], &[0x11; 8]].concat();
    let formatted = [&digest[..], &[0]].concat();
    let written = [&digest[..], &object, &[0]].concat();
    let deleted = [&digest[..], &object, &entry(4, 2), &[0]].concat();
    [
        case(1, &formatted, &[13]),
        case(2, &written, &[13, 32]),
        case(4, &deleted, &[13, 32, 43]),
    ]
    .concat()
}

/// The leading bytes of an entry of table 7, key 9.
fn entry(kind: u8, version: u32) -> [u8; 11] {
    let [v0, v1, v2, v3] = version.to_le_bytes();
    [kind, 7, 0, 9, 0, 0, 0, v0, v1, v2, v3]
}

/// A tombstone at its segment's end, and bytes that are no entry.
fn ends_and_damage() -> String {
    let last = entry(4, u32::MAX - 1);
    let short = [&entry(1, 2)[..], &[0x11; 7]].concat();
    let named = |name: &str, bytes: &[u8]| format!("{name}: {}\n", found(bytes, 0));
    [
        "Ends and damage\n".to_owned(),
        at_line(&last, 0),
        at_line(&last, 11),
        at_line(&last, 12),
        named("a digest's kind", &entry(5, 2)),
        named("no kind", &entry(6, 2)),
        named("a byte short", &short),
        named("version 0", &entry(4, 0)),
        named("version 4294967295", &entry(4, u32::MAX)),
    ]
    .concat()
}

/// What each kind makes of the same bytes, which are as long as the longest entry; and that entry, a byte short.
fn kinds() -> String {
    let of = |kind: u8| [&[kind][..], &[0x11; 130]].concat();
    let lines: String = [0, 1, 2, 3, 4, 5, 6, 7, 8, 255]
        .iter()
        .map(|&kind| format!("kind {kind}: {}\n", found(&of(kind), 0)))
        .collect();
    let short = found(&of(7)[..130], 0);
    format!("Kinds\n{lines}kind 7, a byte short: {short}\n")
}
