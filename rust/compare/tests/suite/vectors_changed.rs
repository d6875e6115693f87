//! The replay can fail: one word of a file changed, in every kind of event and of field, is caught by both
//! implementations, at the line that must show it.

use std::collections::BTreeSet;

use compare::vectors::bench::Bench;
use compare::vectors::event::{Buffer, Changes, Event, Field, Geometry, Record};
use compare::vectors::level::Part;
use compare::vectors::library::Library;
use compare::vectors::reader;
use compare::vectors::second::Second;

use crate::vectors::{level, replay_text, text};

/// A change of one line that must show at a line.
#[derive(Clone, Debug)]
struct Change {
    /// The line that is changed, counted from 0.
    line: usize,
    /// What it becomes.
    text: String,
    /// The line that must be named, counted from 0.
    shows: usize,
    /// Event, answer and field, to tell kinds of changes apart.
    kind: String,
}

/// Another last character: another number or other bytes, and still a word of its kind.
fn other(word: &str) -> String {
    let (start, last) = word.split_at(word.len() - 1);
    let last = match (word, last) {
        ("=", _) => "-",
        (_, "0" | "-") => "1",
        _ => "0",
    };
    format!("{start}{last}")
}

/// The line with one word in place of another.
fn with_word(words: &[&str], place: usize, word: &str) -> String {
    let mut words = words.to_vec();
    words[place] = word;
    words.join(" ")
}

/// The changes of a line that must show at that line: every word of the answer, and the inputs that decide it.
fn changes_of(line: usize, event: &Event, text: &str) -> Vec<Change> {
    let words: Vec<&str> = text.split(' ').collect();
    let arrow = words.iter().position(|word| *word == "->");
    let refused = words.contains(&"refused");
    let first = match (arrow, event) {
        (Some(arrow), _) if refused => arrow + 2,
        (Some(arrow), _) => arrow + 1,
        (None, Event::End { .. }) => 1,
        (None, _) => words.len(),
    };
    let mut new_words: Vec<(usize, String)> = inputs_of(event, &words);
    new_words.extend((first..words.len()).map(|place| match refused {
        true => (place, other_refusal(words[place])),
        false => (place, other(words[place])),
    }));
    let change = |(place, word): (usize, String)| Change {
        line,
        text: with_word(&words, place, &word),
        shows: line,
        kind: kind_of(&words, arrow, place, refused),
    };
    let mut changes: Vec<Change> = new_words.into_iter().map(change).collect();
    if let (Some(arrow), false, true) = (arrow, refused, words[0] != "steps") {
        changes.push(Change {
            line,
            text: format!("{} -> refused 4", words[..arrow].join(" ")),
            shows: line,
            kind: format!("{}, accepted or not", words[0]),
        });
    }
    changes
}

fn other_refusal(number: &str) -> String {
    let number: u32 = number.parse().unwrap();
    (number % 20 + 1).to_string()
}

/// Event, answer and place of a word; the words of lists count as one.
fn kind_of(words: &[&str], arrow: Option<usize>, place: usize, refused: bool) -> String {
    let from_arrow = place as i64 - arrow.unwrap_or(0) as i64;
    let answer = if refused { "refused" } else { "accepted" };
    let list = matches!(words[0], "present" | "image").then_some(20);
    let field = from_arrow.min(list.unwrap_or(i64::MAX));
    format!("{}, {answer}, word {field}", words[0])
}

/// Inputs of an accepted event, changed so that its answer must be another.
fn inputs_of(event: &Event, words: &[&str]) -> Vec<(usize, String)> {
    let others = |places: &[usize]| -> Vec<(usize, String)> {
        let place = |place: &usize| (*place, other(words[*place]));
        places.iter().map(place).collect()
    };
    match event {
        Event::Format { owed: Ok(_), .. } => others(&[2]),
        Event::Image {
            owed: Ok((record, _)),
            ..
        } => {
            let mut new_words = others(&[1, 2, 3]);
            new_words.push((4, not_an_order(words[4])));
            new_words.push((5, other_digest_number(words[5], record)));
            new_words
        }
        Event::Recover { owed: Ok(_), .. } => {
            let mut new_words = others(&[1]);
            new_words.push((2, not_an_order(words[2])));
            new_words
        }
        Event::Write {
            owed: Ok(_),
            expected,
            ..
        } => match expected {
            None => [others(&[1, 2, 3]), other_tables(words, 5)].concat(),
            Some(_) => [others(&[1, 2, 3, 4]), other_tables(words, 5)].concat(),
        },
        Event::Delete { owed: Ok(_), .. }
        | Event::Read { owed: Ok(_), .. }
        | Event::ScanRead { owed: Ok(_), .. } => [others(&[1, 2]), other_tables(words, 3)].concat(),
        Event::Clean { owed: Ok(_), .. } => vec![(1, "0".into())],
        Event::Convert { owed: Ok(_), .. } => others(&[1, 2]),
        Event::Steps(_) => others(&[1]),
        _ => Vec::new(),
    }
}

/// Ranges that begin above the table or end below it, where the level has ranges: they stand from this place on.
fn other_tables(words: &[&str], place: usize) -> Vec<(usize, String)> {
    if !level().has(Part::Range) {
        return Vec::new();
    }
    let table: u16 = words[1].parse().unwrap();
    let above = table.checked_add(1).map(|first| (place, first));
    let below = table.checked_sub(1).map(|last| (place + 1, last));
    let changed = above.into_iter().chain(below);
    changed
        .map(|(place, end)| (place, end.to_string()))
        .collect()
}

/// An order that names its first slot twice.
fn not_an_order(order: &str) -> String {
    format!("{}{}{}", &order[..2], &order[..2], &order[4..])
}

/// The image with another digest number in its head.
fn other_digest_number(area: &str, record: &Record) -> String {
    let place = (record.head * record.slot_bytes + 1) as usize * 2;
    let (before, rest) = area.split_at(place);
    let (byte, after) = rest.split_at(2);
    format!("{before}{}{after}", other(byte))
}

/// What the store has where a `with` changes it.
fn genuine(changes: &Changes, geometry: Geometry, record: Option<&Record>) -> Option<u64> {
    let area = u64::from(geometry.slots) * u64::from(geometry.slot_bytes);
    let lent = [
        (Buffer::Area, Some(area)),
        (Buffer::Work, Some(geometry.slot_bytes.into())),
        (Buffer::Index, record.map(|record| record.cells.into())),
        (Buffer::Target, Some(area)),
    ];
    let lent = lent
        .iter()
        .find(|(buffer, _)| changes.lent(*buffer).is_some());
    if let Some((_, length)) = lent {
        return *length;
    }
    let (field, _) = changes.fields().next()?;
    match (field, record) {
        (Field::Slots, _) => Some(geometry.slots.into()),
        (Field::SlotBytes, _) => Some(geometry.slot_bytes.into()),
        (Field::Edition, _) => {
            let own = record.and_then(|record| record.edition);
            own.or(geometry.edition).map(u64::from)
        }
        (Field::Next, Some(record)) => Some(record.next),
        (field, Some(record)) => field_of(field, record).map(u64::from),
        (_, None) => None,
    }
}

fn field_of(field: Field, record: &Record) -> Option<u32> {
    match field {
        Field::Cells => Some(record.cells),
        Field::Head => Some(record.head),
        Field::End => Some(record.end),
        Field::Number => Some(record.number),
        Field::Map => Some(record.map),
        Field::Keys => Some(record.keys),
        Field::Left => record.left,
        Field::PresentBytes(slot) => {
            let present = record.present_bytes.as_ref()?;
            Some(present.get(slot as usize).copied().unwrap_or(0))
        }
        _ => None,
    }
}

/// N and S that an event has besides those of its history.
fn geometry_of(event: &Event) -> Option<Geometry> {
    match *event {
        Event::Convert {
            slots, slot_bytes, ..
        } => Some(Geometry {
            slots,
            slot_bytes,
            edition: None,
        }),
        _ => None,
    }
}

/// A walk through the file with both implementations, which gives the changes that must show.
struct Walk {
    library: Bench<Library>,
    reference: Bench<Second>,
    /// What the `with` lines just read change, and the last of these lines.
    changes: Changes,
    with: String,
    found: Vec<Change>,
}

impl Walk {
    fn new() -> Walk {
        let geometry = Geometry {
            slots: 0,
            slot_bytes: 0,
            edition: None,
        };
        Walk {
            library: Bench::new(level(), geometry),
            reference: Bench::new(level(), geometry),
            changes: Changes::default(),
            with: String::new(),
            found: Vec::new(),
        }
    }

    /// The file is right up to here, so both must follow it.
    fn go(&mut self, line: usize, text: &str) {
        let Some(event) = reader::event(level(), text).unwrap() else {
            return;
        };
        if let Event::With(with) = event {
            self.changes.add(with).unwrap();
            self.with = text.into();
            return;
        }
        self.found.extend(changes_of(line, &event, text));
        self.found.extend(self.change_of_with(line, &event, text));
        let changes = std::mem::take(&mut self.changes);
        self.library.replay(&event, &changes).unwrap();
        self.reference.replay(&event, &changes).unwrap();
    }

    /// A single `with` that is the cause of a refusal with 1, 3 or 4, changed to what the store has.
    fn change_of_with(&self, line: usize, event: &Event, text: &str) -> Option<Change> {
        let (_, refusal) = text.rsplit_once(" refused ")?;
        let single = self.changes.len() == 1 && ["1", "3", "4"].contains(&refusal);
        let record = self.reference.record_said();
        let geometry = geometry_of(event).unwrap_or(self.reference.geometry());
        let value = genuine(&self.changes, geometry, record.as_ref());
        let value = value.filter(|_| single)?;
        let (start, _) = self.with.rsplit_once(' ')?;
        Some(Change {
            line: line - 1,
            text: format!("{start} {value}"),
            shows: line,
            kind: start.into(),
        })
    }

    /// Whether both implementations, or the reader, catch a changed line in place of this one.
    fn catches(&self, text: &str) -> bool {
        let Ok(Some(event)) = reader::event(level(), text) else {
            return true;
        };
        let library = self.library.clone().replay(&event, &self.changes);
        let reference = self.reference.clone().replay(&event, &self.changes);
        library.is_err() && reference.is_err()
    }
}

/// Every word of every answer in the file, and every input that decides an answer: on the store as it stands there.
#[test]
fn every_line() {
    let text = text();
    let mut walk = Walk::new();
    let mut tried = 0;
    for (line, words) in text.lines().enumerate() {
        let event = reader::event(level(), words).unwrap();
        for change in event
            .iter()
            .flat_map(|event| changes_of(line, event, words))
        {
            assert!(walk.catches(&change.text), "{change:?}");
            tried += 1;
        }
        walk.go(line, words);
    }
    println!("{tried} changed lines caught");
    assert!(tried > 10_000, "{tried}");
}

/// The history that a line is in, with every other line of the file a comment, and one line changed.
fn history_with(lines: &[&str], change: &Change) -> String {
    let begins = |line: &&str| line.starts_with("history ");
    let start = lines[..=change.line].iter().rposition(begins).unwrap_or(0);
    let rest = lines[change.line + 1..].iter().position(begins);
    let end = rest.map_or(lines.len(), |place| change.line + 1 + place);
    let part = lines.iter().enumerate().map(|(line, text)| match line {
        _ if line == change.line => &change.text,
        _ if (start..end).contains(&line) => *text,
        _ => "#",
    });
    part.collect::<Vec<&str>>().join("\n")
}

/// The lines that a replay names first, counted from 0: of the reader, or of each implementation.
fn named(text: &str) -> Vec<usize> {
    let report = replay_text(text);
    let tallies = match report.lines.first.first() {
        Some(_) => vec![&report.lines],
        None => vec![&report.library, &report.reference],
    };
    let first = |tally: &compare::vectors::run::Tally| match tally.first.first() {
        Some(failure) => failure.line as usize - 1,
        None => usize::MAX,
    };
    tallies.into_iter().map(first).collect()
}

/// What the changes must be about, at the least.
const TRIED: [&str; 20] = [
    "history",
    "format",
    "image",
    "patch",
    "recover",
    "present",
    "write",
    "delete",
    "clean",
    "step,",
    "steps",
    "read",
    "fewest",
    "join",
    "scan_read",
    "from_float",
    "to_float",
    "convert,",
    "convert_area",
    "end",
];

/// The buffers and fields that a single `with` of the file changes before a call that is refused with 1, 3 or 4. The
/// stores left are changed on records without an operation too, where there is nothing to set them back to.
fn changed_alone(lines: &[&str]) -> BTreeSet<String> {
    let is_with = |line: &str| line.starts_with("with ");
    let refused = |line: &str| {
        [" 1", " 3", " 4"]
            .iter()
            .any(|end| line.ends_with(&format!("refused{end}")))
    };
    let alone = |part: &&[&str]| !is_with(part[0]) && is_with(part[1]) && refused(part[2]);
    let named = lines.windows(3).filter(alone);
    let words = named.filter_map(|part| part[1].rsplit_once(' '));
    words
        .map(|(start, _)| start.to_string())
        .filter(|start| start != "with left")
        .collect()
}

/// One change of each kind, in a copy of the file's history, through the whole replay: the right line is named.
#[test]
fn each_kind() {
    let text = text();
    let lines: Vec<&str> = text.lines().collect();
    let mut walk = Walk::new();
    for (line, words) in lines.iter().enumerate() {
        walk.go(line, words);
    }
    walk.found.extend(changes_of_histories(&lines));
    walk.found.extend(changes_of_patches(&lines));
    let mut kinds = BTreeSet::new();
    for change in walk.found {
        if !kinds.insert(change.kind.clone()) {
            continue;
        }
        let named = named(&history_with(&lines, &change));
        let right = named.iter().all(|line| *line == change.shows);
        assert!(right, "{change:?}: {named:?}");
    }
    println!("{} kinds of changes caught", kinds.len());
    let alone = changed_alone(&lines);
    assert!(alone.len() >= 6, "{alone:?}");
    for tried in TRIED.into_iter().chain(alone.iter().map(String::as_str)) {
        let is_tried = kinds.iter().any(|kind| kind.starts_with(tried));
        assert!(is_tried, "{tried} was not tried");
    }
}

/// N, S or edition of a history that a format follows, which then leaves another area or is refused. Before there are
/// editions the word is always 1.
fn changes_of_histories(lines: &[&str]) -> Vec<Change> {
    let mut found = Vec::new();
    for (line, pair) in lines.windows(2).enumerate() {
        if !pair[0].starts_with("history ") || !pair[1].starts_with("format ") {
            continue;
        }
        let words: Vec<&str> = pair[0].split(' ').collect();
        found.extend((2..5).map(|place| Change {
            line,
            text: with_word(&words, place, &other(words[place])),
            shows: match place {
                4 if !level().has(Part::Edition) => line,
                _ => line + 1,
            },
            kind: format!("history, word {place}"),
        }));
    }
    found
}

/// Bytes or place of a patch after which nothing is stored up to the end of its history: the area is another there,
/// and whatever shows first is named.
fn changes_of_patches(lines: &[&str]) -> Vec<Change> {
    let mut found = Vec::new();
    for (line, text) in lines.iter().enumerate() {
        let words: Vec<&str> = text.split(' ').collect();
        let rest = &lines[line + 1..];
        let Some(end) = rest.iter().position(|text| text.starts_with("end ")) else {
            continue;
        };
        let stores = |text: &&str| {
            ["patch", "step", "format", "image", "history"]
                .iter()
                .any(|event| text.starts_with(event))
        };
        if words[0] != "patch" || rest[..end].iter().any(stores) {
            continue;
        }
        for place in [1, 2] {
            let change = Change {
                line,
                text: with_word(&words, place, &other(words[place])),
                shows: line,
                kind: format!("patch, word {place}, line {line}"),
            };
            let shows = named(&history_with(lines, &change));
            assert!(shows
                .iter()
                .all(|shows| (line..=line + 1 + end).contains(shows)));
            found.push(Change {
                shows: shows[0],
                ..change
            });
        }
    }
    assert!(!found.is_empty());
    found
}
