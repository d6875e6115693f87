//! Level 11: format is told the edition, the record has it, and versions have 64 bits. The lines are written out by hand;
//! both follow them, and any other word is caught.

use compare::vectors::fnv::fnv1a;
use compare::vectors::level::Level;
use compare::vectors::run::{replay, Report};

/// The first next version above 32 bits.
const NEXT: u64 = 1 << 32;

/// An area of four slots of 256 bytes after its format in edition 2 over `ee`, with this next version, and perhaps an
/// object of that version behind the digest.
fn area(next: u64, object: bool) -> Vec<u8> {
    let mut area = vec![0xEE; 1024];
    for slot in 0..4 {
        area[slot * 256] = 0;
    }
    let mut bytes = vec![8, 1, 0, 0, 0, 1, 0, 0, 0];
    bytes.extend(next.to_le_bytes());
    if object {
        bytes.extend(entry());
    }
    bytes.push(0);
    area[..bytes.len()].copy_from_slice(&bytes);
    area
}

/// An object of eight bytes under table 7, key 9.
fn entry() -> Vec<u8> {
    let mut bytes = vec![9, 7, 0, 9, 0, 0, 0];
    bytes.extend(NEXT.to_le_bytes());
    bytes.extend([0x11; 8]);
    bytes
}

fn hex(bytes: &[u8]) -> String {
    bytes.iter().map(|byte| format!("{byte:02x}")).collect()
}

/// A history of edition 2, a line for each event, and an image with a slot of edition 2 under a head of edition 1.
fn lines() -> Vec<String> {
    let fnv = |area: &[u8]| format!("{:016x}", fnv1a(area));
    let (fresh, written) = (area(1, false), area(NEXT, true));
    let mixed = {
        let mut area = written.clone();
        area[256..270].copy_from_slice(&[5, 2, 0, 0, 0, 3, 0, 0, 0, 1, 0, 0, 0, 0]);
        area
    };
    vec![
        "history editions 4 256 2".into(),
        format!("format fill ee -> {}", fnv(&fresh)),
        "recover 16 00010203 -> 4 256 16 0 17 1 1 1 0 - 0 0 0 0 2".into(),
        "patch 9 0000000001000000".into(),
        "recover 16 00010203 -> 4 256 16 0 17 1 1 4294967296 0 - 0 0 0 0 2".into(),
        "with edition 3".into(),
        "present -> refused 4".into(),
        "with next 0".into(),
        "present -> refused 4".into(),
        format!(
            "write 7 9 1111111111111111 0 0 65535 -> 24 4 256 16 0 17 1 1 4294967296 0 24 0 0 0 0 2 {}",
            hex(&entry())
        ),
        format!(
            "steps 24 -> 0 4294967296 {} 4 256 16 0 40 1 1 4294967297 1 - 23 0 0 0 2",
            fnv(&written)
        ),
        "present -> 1 7 9 4294967296 9 32".into(),
        "read 7 9 7 7 -> 4294967296 9 32 8".into(),
        "scan_read 7 9 7 7 -> 4294967296 9 32 8".into(),
        "write 7 9 1111111111111111 1 0 65535 -> refused 21".into(),
        "fewest -> 0".into(),
        "join -> refused 23".into(),
        format!("end {} {}", fnv(&written), hex(&written)),
        format!("image 4 256 16 00010203 {} -> refused 28", hex(&mixed)),
    ]
}

fn replay_lines(lines: &[String]) -> Report {
    let level = Level::new(11).unwrap();
    let text = lines.join("\n");
    replay("editions", level, text.as_bytes()).expect("a text in memory")
}

#[test]
fn both_follow() {
    let lines = lines();
    let report = replay_lines(&lines);
    let failures: Vec<String> = report.failures().map(ToString::to_string).collect();
    assert!(report.is_clean(), "{}", failures.join("\n"));
    assert_eq!(report.events, lines.len() as u64);
}

/// Another word in the place of one that must be there is a mismatch of its own line, or of the next one that shows it.
#[test]
fn other_words_are_caught() {
    for (line, word, other) in [
        (0, 4, "1"),
        (0, 4, "3"),
        (2, 18, "1"),
        (4, 11, "1"),
        (4, 18, "1"),
        (5, 2, "2"),
        (9, 23, "1"),
        (10, 4, "1"),
        (10, 20, "1"),
        (11, 5, "4294967297"),
        (11, 6, "1"),
        (12, 6, "0"),
        (13, 7, "1"),
        (14, 4, "4294967296"),
        (18, 8, "18"),
    ] {
        let mut changed = lines();
        let mut words: Vec<&str> = changed[line].split(' ').collect();
        assert_ne!(words[word], other);
        words[word] = other;
        changed[line] = words.join(" ");
        let report = replay_lines(&changed);
        let caught = [&report.library, &report.reference].map(|tally| tally.failures > 0);
        assert_eq!(caught, [true; 2], "line {line}: {}", changed[line]);
    }
}
