//! The reader of the format: each level has its own words, and nothing else is taken.

use std::io::{self, BufReader, Read};

use compare::vectors::level::Level;
use compare::vectors::reader::event;
use compare::vectors::run::replay;

use crate::vectors::{level, text};

fn at(number: u32) -> Level {
    Level::new(number).unwrap()
}

/// The field that a line is at fault in; empty if it is none.
fn fault(level: u32, line: &str) -> String {
    match event(at(level), line) {
        Ok(Some(_)) => String::new(),
        Ok(None) => "no event".into(),
        Err(difference) => difference.field,
    }
}

/// Lines, each with the levels from the first to the last that take it.
const LINES: [(&str, u32, u32); 36] = [
    ("history h 4 256 1", 0, 13),
    ("history h 4 256 2", 11, 13),
    ("format fill ee05 -> c0b3d7123bbe3b45", 0, 13),
    ("format hex 00ff -> refused 1", 0, 13),
    ("image 4 256 16 00010203 00ff -> refused 1", 0, 13),
    ("image 4 256 16 00 05 -> 4 256 16 0 13 1 1 1 0 - 0", 0, 4),
    (
        "image 4 256 16 00 05 -> 4 256 16 0 13 1 1 1 0 - 0 0 0 0 1 7 9 1 1 24",
        5,
        10,
    ),
    (
        "image 4 256 16 00 05 -> 4 256 16 0 13 1 1 1 0 - 0 0 0 0 2 1 7 9 1 9 24",
        11,
        12,
    ),
    (
        "image 4 256 16 00 05 -> 4 256 16 0 13 1 1 1 0 - 0 0 0 0 1 0 1 7 9 1 7 24",
        13,
        13,
    ),
    ("patch 276 ffff", 0, 13),
    ("cut", 0, 13),
    ("recover 16 - -> refused 15", 0, 13),
    ("recover 16 - -> refused 24", 8, 13),
    ("recover 16 00 -> 4 256 16 0 13 1 1 1 0 -", 0, 4),
    ("present -> 1 7 9 1 7 24", 3, 13),
    ("present -> 1 7 9 4294967296 9 24", 11, 13),
    ("write 7 9 11 -> refused 7", 0, 0),
    ("write 7 9 11 - -> refused 7", 1, 1),
    ("write 7 9 11 4294967295 0 65535 -> refused 22", 2, 13),
    ("write 7 9 - -> 20 4 256 16 0 13 1 1 1 0 20 0107", 0, 0),
    ("delete 7 9 -> refused 8", 0, 1),
    ("delete 7 9 0 7 -> refused 8", 2, 13),
    ("clean 4294967295 -> refused 13", 0, 13),
    ("step -> 19 - 14 07 =", 0, 13),
    ("step -> 0 1 13 01 4 256 16 0 32 1 1 2 1 -", 0, 4),
    (
        "steps 3 -> 17 - c0b3d7123bbe3b45 4 256 16 0 13 1 1 1 0 17",
        0,
        4,
    ),
    ("read 7 9 -> 1 1 24 8", 0, 1),
    ("fewest -> 3", 5, 13),
    ("join -> 0 3", 7, 13),
    ("switch -> 1 256 16 0 80 1 1 2 1 - 67 1 1", 13, 13),
    ("scan_read 7 9 0 7 -> 1 1 24 8", 9, 13),
    ("from_float 00e4404666726565 -> 3930000066726565", 10, 13),
    ("convert 4 256 05 -> 08", 12, 13),
    ("convert_area -> 79bc4f94fbbaedf9", 12, 13),
    ("with count 31 244", 5, 13),
    ("end c0b3d7123bbe3b45 -", 0, 13),
];

#[test]
fn words_of_each_level() {
    for (line, first, last) in LINES {
        for level in 0..=Level::LAST {
            let taken = fault(level, line).is_empty();
            assert_eq!(taken, (first..=last).contains(&level), "{level}: {line}");
        }
    }
    for word in [
        "n", "s", "m", "head", "end", "number", "map", "next", "keys", "left",
    ] {
        assert_eq!(fault(0, &format!("with {word} 3")), "");
    }
    for word in ["area", "index", "work"] {
        assert_eq!(fault(0, &format!("with {word} 3")), "");
    }
    assert_eq!(fault(10, "with edition 3"), "what is changed");
    assert_eq!(fault(11, "with edition 3"), "");
    assert_eq!(fault(11, "with target 3"), "what is changed");
    assert_eq!(fault(12, "with target 3"), "");
    assert_eq!(fault(10, "with next 4294967296"), "value");
    assert_eq!(fault(11, "with next 4294967296"), "");
}

#[test]
fn no_word_more_or_less() {
    for (line, level, _) in LINES {
        assert_eq!(
            fault(level, &format!("{line} 1")),
            "surplus field",
            "{line}"
        );
        if let Some((shorter, _)) = line.rsplit_once(' ') {
            assert_ne!(fault(level, shorter), "", "{shorter}");
        }
    }
}

/// Lines that level 0 does not take, each with the field that is at fault.
const FAULTS: [(&str, &str); 34] = [
    ("frobnicate 1", "event"),
    ("fewest -> 3", "event"),
    ("# history", "no event"),
    (" ", "no event"),
    ("history h 4 256 2", "edition"),
    ("history h 4294967296 256 1", "N"),
    (
        "format full ee -> c0b3d7123bbe3b45",
        "how the area is given",
    ),
    ("format fill - -> c0b3d7123bbe3b45", "bytes"),
    ("format fill ee -> c0b3d7123bbe3b4", "FNV of the area"),
    ("format fill ee -> C0b3d7123bbe3b45", "FNV of the area"),
    ("format fill ee = c0b3d7123bbe3b45", "arrow"),
    ("patch 276 f", "bytes"),
    ("patch 276 FF", "bytes"),
    ("patch -1 ff", "place"),
    ("patch +1 ff", "place"),
    ("patch 16777217 ff", "place"),
    ("read 65536 9 -> refused 8", "table"),
    ("read 7 4294967296 -> refused 8", "key"),
    ("read 7 9 -> refused 0", "refusal"),
    ("read 7 9 -> refused 21", "refusal"),
    ("read 7 9 -> refused", "refusal"),
    ("read 7 9 -> refused 8 # absent", "surplus field"),
    ("read 7 9 -> 4294967296 1 24 8", "version"),
    ("present -> 2 7 9 1 1 24 7 9 2 1 43", "key"),
    ("present -> 1 7 9 1 4 24", "kind"),
    ("step -> 19 0 14 07 =", "version"),
    ("step -> 0 - 14 07 =", "version"),
    ("step -> 19 - 14 0707 =", "byte"),
    ("step -> 19 - 14 07 4 256 16 0 13 1 1 1 0 19", "record"),
    (
        "steps 0 -> 17 - c0b3d7123bbe3b45 4 256 16 0 13 1 1 1 0 17",
        "count",
    ),
    ("steps 1 -> refused 6", "left"),
    ("with colour 3", "what is changed"),
    ("with n", "value"),
    ("with n x", "value"),
];

#[test]
fn words_that_are_none() {
    for (line, field) in FAULTS {
        assert_eq!(fault(0, line), field, "{line}");
    }
}

/// The lines at fault that a replay names.
fn faults(text: &[u8]) -> Vec<u64> {
    let report = replay("text", at(0), text).unwrap();
    assert_eq!(report.is_clean(), report.lines.failures == 0);
    report
        .lines
        .first
        .iter()
        .map(|failure| failure.line)
        .collect()
}

#[test]
fn lines_out_of_order() {
    let history = "history h 4 256 1\nformat fill ee -> c0b3d7123bbe3b45\n";
    assert_eq!(faults(b""), [0]);
    assert_eq!(faults(b"# nothing\n"), [1]);
    assert_eq!(faults(b"cut\n"), [1]);
    assert_eq!(faults(history.as_bytes()), [0; 0]);
    assert_eq!(faults(format!("{history}\r\ncut\r\n").as_bytes()), [0; 0]);
    assert_eq!(faults(format!("{history}with n 3\n").as_bytes()), [3]);
    assert_eq!(faults(format!("{history}with n 3\ncut\n").as_bytes()), [4]);
    assert_eq!(
        faults(format!("{history}with n 3\nwith n 3\n").as_bytes()),
        [4]
    );
    assert_eq!(faults(format!("with n 3\n{history}").as_bytes()), [1]);
    assert_eq!(faults(&[history.as_bytes(), b"\xff"].concat()), [3]);
    let accepted = format!("{history}with n 3\nrecover 16 00010203 -> 4 256 16 0 13 1 1 1 0 -\n");
    assert_eq!(faults(accepted.as_bytes()), [4]);
}

/// Events that need what is not there are caught, and huge numbers ask for no memory.
#[test]
fn events_without_a_store() {
    for events in [
        "recover 16 00010203 -> refused 16",
        "present -> 0",
        "write 7 9 1111111111111111 -> refused 4",
        "step -> refused 6",
        "read 7 9 -> refused 8",
        "patch 0 00",
        "end c0b3d7123bbe3b45 -",
        "format fill 00 -> c0b3d7123bbe3b45\npatch 1024 00",
        "image 4294967295 4294967295 16 - - -> refused 1\nformat fill 00 -> refused 1",
    ] {
        let text = format!("history h 4 256 1\n{events}\n");
        let report = replay("text", at(0), text.as_bytes()).unwrap();
        assert_eq!(
            (report.library.failures, report.reference.failures),
            (1, 1),
            "{events}"
        );
    }
}

/// A conversion of the area needs one; that of an area in the line does not, and may be lent any second buffer.
#[test]
fn conversions_without_a_store() {
    let replayed = |events: &str| {
        let text = format!("history h 4 256 1\n{events}\n");
        let report = replay("text", at(12), text.as_bytes()).unwrap();
        assert_eq!(report.lines.failures, 0, "{events}");
        (report.library.failures, report.reference.failures)
    };
    assert_eq!(replayed("convert_area -> refused 16"), (1, 1));
    let zeros = "00".repeat(1024);
    assert_eq!(
        replayed(&format!("convert 4 256 {zeros} -> refused 16")),
        (0, 0)
    );
    for lent in [0, 1023, 1025] {
        let event = format!("with target {lent}\nconvert 4 256 {zeros} -> refused 1");
        assert_eq!(replayed(&event), (0, 0));
    }
    assert_eq!(
        replayed("convert 4294967295 4294967295 - -> refused 1"),
        (0, 0)
    );
}

/// A call on a record that no recovery gave is a mismatch that says so.
#[test]
fn calls_without_a_record() {
    let text = "history h 4 256 1\nswitch -> refused 4\nhistory h 4 256 1\nfewest -> refused 4\n";
    let report = replay("text", at(Level::LAST), text.as_bytes()).unwrap();
    assert_eq!((report.library.failures, report.reference.failures), (2, 2));
    for failure in report.failures() {
        assert_eq!(failure.difference.field, "record", "{failure}");
    }
}

/// A reader that gives the same text over and over.
struct Repeated {
    text: Vec<u8>,
    place: usize,
    times: usize,
}

impl Read for Repeated {
    fn read(&mut self, buffer: &mut [u8]) -> io::Result<usize> {
        if self.place == self.text.len() && self.times > 1 {
            self.place = 0;
            self.times -= 1;
        }
        let count = (&self.text[self.place..]).read(buffer)?;
        self.place += count;
        Ok(count)
    }
}

/// A file is read line by line, however long it is.
#[test]
fn a_long_file() {
    let once = replay("once", level(), text().as_bytes()).unwrap();
    let repeated = Repeated {
        text: text().into_bytes(),
        place: 0,
        times: 5,
    };
    let report = replay("repeated", level(), BufReader::new(repeated)).unwrap();
    assert!(report.is_clean());
    assert_eq!(report.events, 5 * once.events);
}
