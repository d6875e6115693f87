//! The reader of the format: one line of text becomes one event. Nothing is passed over but comments, blank lines and
//! the names of histories: a word that is unknown, missing or too much is a [`Difference`].

use super::difference::Difference;
use super::event::{
    Before, Buffer, Event, Field, Found, Geometry, Key, Owed, PresentKey, Range, Record, Started,
    Step, Steps, Told, With,
};
use super::level::{Level, Part};
use super::words::{Parsed, Words};

/// The event of a line; none if the line is blank or a comment, which begins with `#`.
pub fn event(level: Level, line: &str) -> Parsed<Option<Event>> {
    let text = line.trim_ascii();
    if text.is_empty() || text.starts_with('#') {
        return Ok(None);
    }
    let mut words = Words::new(level, text);
    let name = words.word("event")?;
    let event = match name {
        "history" | "format" | "image" | "patch" | "cut" | "with" | "end" => {
            making_event(name, &mut words)
        }
        "recover" | "present" | "write" | "delete" | "clean" | "step" | "steps" | "read" => {
            base_event(name, &mut words)
        }
        _ => later_event(name, &mut words),
    }?;
    words.end()?;
    Ok(Some(event))
}

fn unknown(field: &str, level: Level, found: &str) -> Difference {
    let expected = format!("one that level {} has", level.number());
    Difference::new(field, expected, format!("`{found}`"))
}

/// Events that are not calls on a store, or make one.
fn making_event(name: &str, words: &mut Words) -> Parsed<Event> {
    match name {
        "history" => history(words),
        "format" => Ok(Event::Format {
            before: before(words)?,
            owed: words.answer(|words| words.fnv("FNV of the area"))?,
        }),
        "image" => image(words),
        "patch" => Ok(Event::Patch {
            place: words.length("place")?,
            bytes: words.bytes("bytes")?,
        }),
        "cut" => Ok(Event::Cut),
        "with" => with(words).map(Event::With),
        _ => end(words),
    }
}

/// The calls that every level has.
fn base_event(name: &str, words: &mut Words) -> Parsed<Event> {
    match name {
        "recover" => Ok(Event::Recover {
            cells: words.length("M")?,
            order: words.bytes("order")?,
            owed: words.answer(record)?,
        }),
        "present" => Ok(Event::Present(words.answer(keys)?)),
        "write" => write(words),
        "delete" => Ok(Event::Delete {
            key: key(words)?,
            range: maybe_range(words)?,
            owed: started(words)?,
        }),
        "clean" => Ok(Event::Clean {
            victims: words.u32("victims")?,
            owed: started(words)?,
        }),
        "step" => Ok(Event::Step(words.answer(step)?)),
        "steps" => steps(words),
        _ => Ok(Event::Read {
            key: key(words)?,
            range: maybe_range(words)?,
            owed: words.answer(found)?,
        }),
    }
}

/// The calls that requests bring, each from its level on.
fn later_event(name: &str, words: &mut Words) -> Parsed<Event> {
    match name {
        "fewest" if words.has(Part::PresentBytes) => {
            words.answer(|words| words.u32("slot")).map(Event::Fewest)
        }
        "join" if words.has(Part::Join) => words
            .answer(|words| Ok((words.u32("first slot")?, words.u32("second slot")?)))
            .map(Event::Join),
        "switch" if words.has(Part::Switch) => words.answer(record).map(Event::Switch),
        "scan_read" if words.has(Part::ScanRead) => Ok(Event::ScanRead {
            key: key(words)?,
            range: range(words)?,
            owed: words.answer(found)?,
        }),
        "from_float" if words.has(Part::Floats) => Ok(Event::FromFloat {
            value: words.bytes("value")?,
            owed: words.answer(|words| words.bytes("value told"))?,
        }),
        "to_float" if words.has(Part::Floats) => Ok(Event::ToFloat {
            value: words.bytes("value")?,
            owed: words.answer(|words| words.bytes("value told"))?,
        }),
        "convert" if words.has(Part::Convert) => Ok(Event::Convert {
            slots: words.u32("N")?,
            slot_bytes: words.u32("S")?,
            source: words.bytes("source")?,
            owed: words.answer(|words| words.bytes("target"))?,
        }),
        "convert_area" if words.has(Part::Convert) => words
            .answer(|words| words.fnv("FNV of the target"))
            .map(Event::ConvertArea),
        _ => Err(unknown("event", words.level(), name)),
    }
}

/// Name, N, S and edition. Before there are editions the last word is 1.
fn history(words: &mut Words) -> Parsed<Event> {
    words.word("name")?;
    let (slots, slot_bytes) = (words.u32("N")?, words.u32("S")?);
    let edition = if words.has(Part::Edition) {
        Some(words.u32("edition")?)
    } else {
        words.within("edition", 1, 1)?;
        None
    };
    Ok(Event::History(Geometry {
        slots,
        slot_bytes,
        edition,
    }))
}

fn before(words: &mut Words) -> Parsed<Before> {
    match words.word("how the area is given")? {
        "hex" => words.bytes("area").map(Before::Hex),
        "fill" => match words.bytes("bytes")? {
            bytes if bytes.is_empty() => Err(Difference::new("bytes", "at least one", "none")),
            bytes => Ok(Before::Fill(bytes)),
        },
        word => Err(Difference::new(
            "how the area is given",
            "`fill` or `hex`",
            format!("`{word}`"),
        )),
    }
}

fn image(words: &mut Words) -> Parsed<Event> {
    Ok(Event::Image {
        slots: words.u32("N")?,
        slot_bytes: words.u32("S")?,
        cells: words.length("M")?,
        order: words.bytes("order")?,
        area: words.bytes("area")?,
        owed: words.answer(|words| Ok((record(words)?, keys(words)?)))?,
    })
}

fn write(words: &mut Words) -> Parsed<Event> {
    Ok(Event::Write {
        key: key(words)?,
        value: words.bytes("value")?,
        expected: expected(words)?,
        range: maybe_range(words)?,
        owed: started(words)?,
    })
}

/// The expected version of a write: none below its level, and none where `-` stands.
fn expected(words: &mut Words) -> Parsed<Option<u64>> {
    if !words.has(Part::Expected) || words.takes("-") {
        return Ok(None);
    }
    words.version("expected version").map(Some)
}

fn key(words: &mut Words) -> Parsed<Key> {
    Ok(Key {
        table: words.u16("table")?,
        key: words.u32("key")?,
    })
}

fn maybe_range(words: &mut Words) -> Parsed<Option<Range>> {
    if words.has(Part::Range) {
        range(words).map(Some)
    } else {
        Ok(None)
    }
}

fn range(words: &mut Words) -> Parsed<Range> {
    Ok(Range {
        first: words.u16("first table")?,
        last: words.u16("last table")?,
    })
}

fn record(words: &mut Words) -> Parsed<Record> {
    let slots = words.u32("record, N")?;
    Ok(Record {
        slots,
        slot_bytes: words.u32("record, S")?,
        cells: words.u32("record, M")?,
        head: words.u32("record, head")?,
        end: words.u32("record, end")?,
        number: words.u32("record, digest number")?,
        map: words.u32("record, slot map")?,
        next: words.version("record, next version")?,
        keys: words.u32("record, keys")?,
        left: left(words)?,
        present_bytes: later(words, Part::PresentBytes, |words| {
            (0..slots)
                .map(|slot| words.u32(&format!("record, present bytes of slot {slot}")))
                .collect()
        })?,
        edition: later(words, Part::Edition, |words| words.u32("record, edition"))?,
        switched: later(words, Part::Switch, |words| {
            words
                .within("record, switched", 0, 1)
                .map(|switched| switched as u32)
        })?,
    })
}

fn left(words: &mut Words) -> Parsed<Option<u32>> {
    if words.takes("-") {
        return Ok(None);
    }
    words.u32("record, left").map(Some)
}

/// A field that stands here from the level of its part on.
fn later<'a, T>(
    words: &mut Words<'a>,
    part: Part,
    parse: impl FnOnce(&mut Words<'a>) -> Parsed<T>,
) -> Parsed<Option<T>> {
    words.has(part).then(|| parse(words)).transpose()
}

/// The present keys, by table and key, each once.
fn keys(words: &mut Words) -> Parsed<Vec<PresentKey>> {
    let count = words.u32("number of present keys")?;
    let mut keys: Vec<PresentKey> = Vec::new();
    for _ in 0..count {
        let next = present_key(words)?;
        if keys.last().is_some_and(|last| last.key >= next.key) {
            let expected = "keys in ascending order";
            let Key { table, key } = next.key;
            return Err(Difference::new("key", expected, format!("{table} {key}")));
        }
        keys.push(next);
    }
    Ok(keys)
}

/// A present key; the length of its value follows from its kind.
fn present_key(words: &mut Words) -> Parsed<PresentKey> {
    let key = key(words)?;
    let version = words.version("version")?;
    let kind = words.u32("kind")?;
    let place = words.length("place")?;
    let level = words.level();
    let length = level
        .value_bytes(kind)
        .ok_or_else(|| unknown("kind", level, &kind.to_string()))?;
    let found = Found {
        version,
        kind,
        place,
        length,
    };
    Ok(PresentKey { key, found })
}

fn found(words: &mut Words) -> Parsed<Found> {
    Ok(Found {
        version: words.version("version")?,
        kind: words.u32("kind")?,
        place: words.length("place")?,
        length: words.length("length")?,
    })
}

fn started(words: &mut Words) -> Parsed<Owed<Started>> {
    words.answer(|words| {
        Ok(Started {
            stores: words.u32("stores")?,
            record: record(words)?,
            work: words.bytes("work bytes")?,
        })
    })
}

/// A step that is not the last tells no version, and its record is `=`.
fn step(words: &mut Words) -> Parsed<Step> {
    let left = words.u32("left")?;
    let version = version_after(words, left)?;
    let place = words.length("place")?;
    let byte = match words.bytes("byte")?[..] {
        [byte] => byte,
        _ => {
            return Err(Difference::new(
                "byte",
                "one byte",
                "another number of them",
            ))
        }
    };
    let told = match version {
        None => {
            words.mark("record", "=")?;
            Told::More(left)
        }
        Some(version) => Told::Done(version, record(words)?),
    };
    Ok(Step { told, place, byte })
}

fn version_after(words: &mut Words, left: u32) -> Parsed<Option<u64>> {
    if left == 0 {
        return words.version("version").map(Some);
    }
    words.mark("version", "-")?;
    Ok(None)
}

/// Accepted steps: a refusal is no answer here.
fn steps(words: &mut Words) -> Parsed<Event> {
    let count = words.within("count", 1, u32::MAX.into())? as u32;
    words.mark("arrow", "->")?;
    let left = words.u32("left")?;
    Ok(Event::Steps(Steps {
        count,
        left,
        version: version_after(words, left)?,
        fnv: words.fnv("FNV of the area")?,
        record: record(words)?,
    }))
}

fn with(words: &mut Words) -> Parsed<With> {
    let level = words.level();
    let name = words.word("what is changed")?;
    let buffer = match name {
        "area" => Some(Buffer::Area),
        "index" => Some(Buffer::Index),
        "work" => Some(Buffer::Work),
        "target" if level.has(Part::Convert) => Some(Buffer::Target),
        _ => None,
    };
    if let Some(buffer) = buffer {
        return Ok(With::Lent(buffer, words.length("length")?));
    }
    let field = match name {
        "n" => Field::Slots,
        "s" => Field::SlotBytes,
        "m" => Field::Cells,
        "head" => Field::Head,
        "end" => Field::End,
        "number" => Field::Number,
        "map" => Field::Map,
        "next" => return Ok(With::Field(Field::Next, words.version("value")?)),
        "keys" => Field::Keys,
        "left" => Field::Left,
        "edition" if level.has(Part::Edition) => Field::Edition,
        "count" if level.has(Part::PresentBytes) => {
            Field::PresentBytes(words.within("slot", 0, 31)? as u32)
        }
        _ => return Err(unknown("what is changed", level, name)),
    };
    Ok(With::Field(field, words.u32("value")?.into()))
}

fn end(words: &mut Words) -> Parsed<Event> {
    Ok(Event::End {
        fnv: words.fnv("FNV of the area")?,
        area: match words.takes("-") {
            true => None,
            false => Some(words.bytes("area")?),
        },
    })
}
