//! The published vectors of 32-bit FNV-1a.

use reference::fnv::fnv1a;
use reference::Key;

#[test]
fn published_vectors() {
    let vectors: [(&str, u32); 13] = [
        ("", 0x811c_9dc5),
        ("a", 0xe40c_292c),
        ("b", 0xe70c_2de5),
        ("c", 0xe60c_2c52),
        ("d", 0xe10c_2473),
        ("e", 0xe00c_22e0),
        ("f", 0xe30c_2799),
        ("fo", 0x6222_e842),
        ("foo", 0xa9f3_7ed7),
        ("foob", 0x3f50_76ef),
        ("fooba", 0x39aa_a18a),
        ("foobar", 0xbf9c_f968),
        ("chongo was here!\n", 0xd499_30d5),
    ];
    for (text, hash) in vectors {
        assert_eq!(fnv1a(text.as_bytes()), hash, "{text:?}");
    }
}

#[test]
fn a_key_is_hashed_as_it_is_stored() {
    let key = Key {
        table: u16::from_le_bytes(*b"fo"),
        key: u32::from_le_bytes(*b"obar"),
    };
    assert_eq!(&key.stored(), b"foobar");
    assert_eq!(key.hash(), 0xbf9c_f968);
}
