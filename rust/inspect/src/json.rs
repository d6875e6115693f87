//! Reports as JSON.

use std::fmt;

use crate::between::Run;
use crate::entries::{Entry, Newer, Reason};
use crate::history::{History, Remains};
use crate::image::{Geometry, Place};
use crate::lost::Lost;
use crate::plans::{Operation, Site};
use crate::report::Report;
use crate::slots::Row;
use crate::text;
use crate::under_way::{Candidate, Finding, UnderWay};
use crate::verdict::{Recovered, Refused};
use crate::words;

/// A JSON value.
#[derive(Clone, PartialEq, Eq, Debug)]
pub enum Json {
    /// No value.
    Null,
    /// True or false.
    Bool(bool),
    /// A whole number.
    Number(u64),
    /// Text.
    Text(String),
    /// An array.
    List(Vec<Json>),
    /// An object, its members in this order.
    Object(Vec<(&'static str, Json)>),
}

impl fmt::Display for Json {
    fn fmt(&self, f: &mut fmt::Formatter) -> fmt::Result {
        match self {
            Json::Null => f.write_str("null"),
            Json::Bool(value) => write!(f, "{value}"),
            Json::Number(value) => write!(f, "{value}"),
            Json::Text(value) => quoted(f, value),
            Json::List(values) => {
                f.write_str("[")?;
                for (number, value) in values.iter().enumerate() {
                    write!(f, "{}{value}", comma(number))?;
                }
                f.write_str("]")
            }
            Json::Object(members) => {
                f.write_str("{")?;
                for (number, (name, value)) in members.iter().enumerate() {
                    write!(f, "{}\"{name}\":{value}", comma(number))?;
                }
                f.write_str("}")
            }
        }
    }
}

fn comma(number: usize) -> &'static str {
    if number == 0 {
        ""
    } else {
        ","
    }
}

fn quoted(f: &mut fmt::Formatter, text: &str) -> fmt::Result {
    f.write_str("\"")?;
    for letter in text.chars() {
        match letter {
            '"' => f.write_str("\\\"")?,
            '\\' => f.write_str("\\\\")?,
            letter if letter < ' ' => write!(f, "\\u{:04x}", u32::from(letter))?,
            letter => write!(f, "{letter}")?,
        }
    }
    f.write_str("\"")
}

fn number(value: impl TryInto<u64>) -> Json {
    value.try_into().map_or(Json::Null, Json::Number)
}

fn text_of(value: impl Into<String>) -> Json {
    Json::Text(value.into())
}

fn hex(bytes: &[u8]) -> Json {
    Json::Text(words::hex(bytes))
}

fn optional(value: Option<impl TryInto<u64>>) -> Json {
    value.map_or(Json::Null, number)
}

fn list<T>(values: &[T], json: impl Fn(&T) -> Json) -> Json {
    Json::List(values.iter().map(json).collect())
}

fn place(place: Place) -> [(&'static str, Json); 2] {
    [
        ("slot", number(place.slot)),
        ("offset", number(place.offset)),
    ]
}

fn slots(map: reference::SlotMap) -> Json {
    Json::List(map.slots().map(number).collect())
}

/// The geometry and the whole report of an image.
pub fn report(geometry: Geometry, report: &Report) -> Json {
    let mut members = head(geometry, report);
    members.push(("lost", list(&report.lost, lost)));
    members.push(("slots", list(&report.rows, row)));
    members.push(("entries", list(&report.entries, entry)));
    if let (Ok(recovered), Some(found)) = (&report.verdict, &report.under_way) {
        members.push(("under_way", under_way(recovered, found)));
    }
    Json::Object(members)
}

fn head(geometry: Geometry, report: &Report) -> Vec<(&'static str, Json)> {
    let geometry = vec![
        ("slots", number(geometry.slots)),
        ("size", number(geometry.slot_bytes)),
    ];
    vec![
        ("geometry", Json::Object(geometry)),
        ("verdict", verdict(report)),
    ]
}

/// The verdict of recovery, and its cause.
pub fn verdict(report: &Report) -> Json {
    Json::Object(match &report.verdict {
        Ok(Recovered { record, .. }) => vec![
            ("accepted", Json::Bool(true)),
            ("edition", number(record.edition.0)),
            ("next_version", number(record.next.0)),
            ("digest", number(record.digest.0)),
            ("head", number(record.head)),
            ("end", number(record.end)),
            ("log", slots(record.map)),
            ("present_keys", number(report.present())),
        ],
        Err(Refused { refusal, cause }) => vec![
            ("accepted", Json::Bool(false)),
            ("number", number(refusal.number())),
            ("meaning", text_of(refusal.meaning())),
            ("cause", text_of(cause.what.as_str())),
            (
                "at",
                list(&cause.spots, |spot| {
                    let mut members = place(spot.place).to_vec();
                    members.push(("bytes", hex(&spot.bytes)));
                    Json::Object(members)
                }),
            ),
        ],
    })
}

fn newer(newer: Newer) -> Json {
    let mut members = vec![("version", number(newer.version.0))];
    members.extend(place(newer.place));
    Json::Object(members)
}

fn lost(lost: &Lost) -> Json {
    Json::Object(vec![
        ("table", number(lost.key.table)),
        ("key", number(lost.key.key)),
        ("present", newer(lost.present)),
        ("newer", newer(lost.newer)),
        ("was_deleted", Json::Bool(lost.was_deleted)),
    ])
}

fn row(row: &Row) -> Json {
    let digest = row.digest;
    let used = row.used.as_ref();
    Json::Object(vec![
        ("slot", number(row.slot)),
        ("role", text_of(text::role(row.role))),
        (
            "edition",
            optional(digest.map(|digest| digest.layout.edition.0)),
        ),
        ("digest", optional(digest.map(|digest| digest.number.0))),
        ("map", digest.map_or(Json::Null, |digest| slots(digest.map))),
        ("next_version", optional(digest.map(|digest| digest.next.0))),
        ("entries", optional(used.map(|used| used.entries))),
        (
            "present_bytes",
            optional(used.and_then(|used| used.present)),
        ),
        ("kept_bytes", optional(used.and_then(|used| used.kept))),
        ("end", optional(used.map(|used| used.end))),
        ("unused_bytes", optional(used.and_then(|used| used.unused))),
    ])
}

fn entry(entry: &Entry) -> Json {
    let mut members = place(entry.place).to_vec();
    let fields = entry.fields;
    members.extend([
        ("kind", number(fields.kind)),
        ("table", number(fields.key.table)),
        ("key", number(fields.key.key)),
        ("version", number(fields.version.0)),
        ("value", hex(&entry.value)),
        ("reason", text_of(word(entry.reason))),
    ]);
    match entry.reason {
        Reason::Overwritten(by) | Reason::Deleted(by) | Reason::Outlived(by) => {
            members.push(("by", newer(by)));
        }
        Reason::Needed(object) => {
            members.push(("because_of", Json::Object(place(object).to_vec())));
        }
        Reason::Present | Reason::Needless | Reason::Undecided => {}
    }
    Json::Object(members)
}

/// The reason of an entry in one word.
pub fn word(reason: Reason) -> &'static str {
    match reason {
        Reason::Present => "present",
        Reason::Overwritten(_) => "overwritten",
        Reason::Deleted(_) => "deleted",
        Reason::Needed(_) => "needed",
        Reason::Needless => "needless",
        Reason::Outlived(_) => "outlived",
        Reason::Undecided => "undecided",
    }
}

fn under_way(recovered: &Recovered, under_way: &UnderWay) -> Json {
    Json::Object(vec![
        ("doubtful", Json::Bool(under_way.is_doubtful)),
        (
            "places",
            list(&under_way.findings, |one| finding(recovered, one)),
        ),
        ("stray_slots", list(&under_way.strays, |&slot| number(slot))),
    ])
}

fn finding(recovered: &Recovered, finding: &Finding) -> Json {
    let site = match finding.site {
        Site::Tail => "tail",
        Site::NewHead => "new head",
    };
    let condition = match finding.doubts.as_slice() {
        [] => Json::Null,
        _ => text_of(text::condition(recovered, finding)),
    };
    let mut members = vec![("site", text_of(site))];
    members.extend(place(finding.place));
    members.extend([
        ("certainly_done", number(finding.range.least)),
        ("at_most_done", number(finding.range.most)),
        ("condition", condition),
        ("operations", list(&finding.candidates, candidate)),
    ]);
    Json::Object(members)
}

fn candidate(candidate: &Candidate) -> Json {
    let mut members = operation(candidate.operation);
    members.extend([
        ("switched", Json::Bool(candidate.is_switched)),
        ("stores", optional(candidate.total)),
        ("certainly_done", number(candidate.range.least)),
        ("at_most_done", number(candidate.range.most)),
    ]);
    Json::Object(members)
}

fn operation(operation: Operation) -> Vec<(&'static str, Json)> {
    let named = |key: Option<reference::Key>| {
        [
            ("table", optional(key.map(|key| key.table))),
            ("key", optional(key.map(|key| key.key))),
        ]
    };
    let mut members = vec![];
    match operation {
        Operation::Write(bytes, key) => {
            members.push(("operation", text_of("write")));
            members.push(("bytes", number(bytes)));
            members.extend(named(key));
        }
        Operation::Delete(key) => {
            members.push(("operation", text_of("delete")));
            members.extend(named(key));
        }
        Operation::FullDelete(key, slot) => {
            members.push(("operation", text_of("full delete")));
            members.extend(named(key));
            members.push(("victims", Json::List(vec![number(slot)])));
        }
        Operation::Clean(victims) => {
            members.push(("operation", text_of("cleaning")));
            members.push(("victims", slots(victims)));
        }
        Operation::NewHead => members.push(("operation", text_of("new head"))),
    }
    members
}

/// The verdict and the history of one key.
pub fn history(geometry: Geometry, report: &Report, history: &History) -> Json {
    let mut members = head(geometry, report);
    let of_key = report.lost.iter().filter(|one| one.key == history.key);
    members.push(("lost", Json::List(of_key.map(lost).collect())));
    let told = vec![
        ("table", number(history.key.table)),
        ("key", number(history.key.key)),
        ("log", list(&history.entries, entry)),
        ("not_counting", list(&history.remains, remains)),
    ];
    members.push(("history", Json::Object(told)));
    Json::Object(members)
}

fn remains(remains: &Remains) -> Json {
    let mut members = place(remains.place).to_vec();
    members.extend([
        ("kind", number(remains.fields.kind)),
        ("version", number(remains.fields.version.0)),
        ("value", hex(&remains.value)),
        ("free_slot", Json::Bool(remains.is_in_free_slot)),
    ]);
    Json::Object(members)
}

/// Two verdicts, what differs and what explains it.
pub fn comparison(
    geometry: Geometry,
    before: &Report,
    after: &Report,
    runs: &[Run],
    explanations: Option<&[Candidate]>,
) -> Json {
    let run = |run: &Run| {
        let mut members = place(run.place).to_vec();
        members.push(("before", hex(&run.before)));
        members.push(("after", hex(&run.after)));
        Json::Object(members)
    };
    let mut members = head(geometry, before);
    members[1].0 = "before";
    members.extend([
        ("after", verdict(after)),
        ("differences", list(runs, run)),
        (
            "explanations",
            explanations.map_or(Json::Null, |found| list(found, candidate)),
        ),
    ]);
    Json::Object(members)
}

#[cfg(test)]
mod tests {
    use super::Json;

    #[test]
    fn values_are_written_as_json() {
        let list = vec![Json::Number(7), Json::Bool(true), Json::Null];
        let value = Json::Object(vec![
            ("text", Json::Text("a \"b\" \\ \n".into())),
            ("list", Json::List(list)),
            ("none", Json::List(vec![])),
        ]);
        let expected = r#"{"text":"a \"b\" \\ \u000a","list":[7,true,null],"none":[]}"#;
        assert_eq!(value.to_string(), expected);
    }
}
