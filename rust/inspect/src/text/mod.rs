//! Reports as plain text.

mod between;
mod under_way;

use std::fmt::Write;

use reference::{Edition, Key};

use crate::entries::{Entry, Newer, Reason};
use crate::history::{History, Remains};
use crate::lost::Lost;
use crate::report::Report;
use crate::slots::{Role, Row};
use crate::verdict::{Recovered, Refused};
use crate::words::{count, hex, key, kind, slots, spaced_hex};

pub use between::comparison;
pub use under_way::{condition, finding_line, under_way};

/// The whole report.
pub fn report(report: &Report) -> String {
    let mut text = verdict(report) + &lost(report, None);
    let _ = write!(text, "\nslots\n{}", slot_table(&report.rows));
    let _ = write!(text, "\nentries\n{}", entry_table(&report.entries));
    if let (Ok(recovered), Some(found)) = (&report.verdict, &report.under_way) {
        let _ = write!(text, "\nunder way\n{}", under_way(recovered, found));
    }
    text
}

/// The verdict of recovery, and its cause.
pub fn verdict(report: &Report) -> String {
    match &report.verdict {
        Ok(Recovered { record, .. }) => format!(
            "accepted: next version {}, digest {}, head slot {}, {} present{}\n",
            record.next.0,
            record.digest.0,
            record.head,
            count(report.present(), "key"),
            other_edition(record.edition),
        ),
        Err(Refused { refusal, cause }) => {
            let mut text = format!("refused {}: {}\n", refusal.number(), refusal.meaning());
            let _ = writeln!(text, "  {}", cause.what);
            for spot in &cause.spots {
                let _ = writeln!(text, "  {}: {}", spot.place, spaced_hex(&spot.bytes));
            }
            text
        }
    }
}

/// Said of a store that is not of the first edition.
fn other_edition(edition: Edition) -> String {
    match edition {
        Edition::FIRST => String::new(),
        Edition(number) => format!(", edition {number}"),
    }
}

/// The keys whose newest entry was lost: all, or one.
pub fn lost(report: &Report, only: Option<Key>) -> String {
    let is_asked = |one: &&Lost| only.is_none_or(|key| key == one.key);
    let lines = report.lost.iter().filter(is_asked).map(|one| {
        let (present, newer) = (one.present, one.newer);
        let kind = if one.was_deleted {
            "a tombstone"
        } else {
            "an object"
        };
        format!(
            "lost: {} is present with version {} at {}, but version {} at {}, {kind}, counted before\n",
            key(one.key),
            present.version.0,
            present.place,
            newer.version.0,
            newer.place
        )
    });
    lines.collect()
}

/// Rows of cells in columns; numbers stand right, but for the last column.
fn table(heads: &[&str], rows: &[Vec<String>]) -> String {
    let heads: Vec<String> = heads.iter().map(|head| head.to_string()).collect();
    let lines: Vec<&Vec<String>> = std::iter::once(&heads).chain(rows).collect();
    let width = |column: usize| lines.iter().map(|line| line[column].len()).max();
    let widths: Vec<usize> = (0..heads.len() - 1).filter_map(width).collect();
    let mut text = String::new();
    for line in lines {
        let mut row = String::new();
        for (cell, &width) in line.iter().zip(&widths) {
            let is_number = cell.bytes().all(|byte| byte.is_ascii_digit());
            let _ = match is_number {
                true => write!(row, "  {cell:>width$}"),
                false => write!(row, "  {cell:<width$}"),
            };
        }
        row.extend(["  ", &line[widths.len()]]);
        let _ = writeln!(text, "{}", row.trim_end());
    }
    text
}

/// A value, or a dash where there is none.
pub fn shown<T: ToString>(value: Option<T>) -> String {
    value.map_or("-".into(), |value| value.to_string())
}

/// The word for a slot's role.
pub fn role(role: Role) -> &'static str {
    match role {
        Role::Head => "head",
        Role::Log => "log",
        Role::Free => "free",
        Role::Unknown => "unknown",
    }
}

fn slot_table(rows: &[Row]) -> String {
    let heads = [
        "slot", "role", "edition", "digest", "next", "entries", "present", "kept", "unused", "map",
    ];
    let cells = rows.iter().map(|row| {
        let used = row.used.as_ref();
        vec![
            row.slot.to_string(),
            role(row.role).into(),
            shown(row.digest.map(|digest| digest.layout.edition.0)),
            shown(row.digest.map(|digest| digest.number.0)),
            shown(row.digest.map(|digest| digest.next.0)),
            shown(used.map(|used| used.entries)),
            shown(used.and_then(|used| used.present)),
            shown(used.and_then(|used| used.kept)),
            shown(used.and_then(|used| used.unused)),
            row.digest.map_or("-".into(), |digest| slots(digest.map)),
        ]
    });
    table(&heads, &cells.collect::<Vec<_>>())
}

fn newer(word: &str, newer: Newer) -> String {
    format!("{word} by version {} at {}", newer.version.0, newer.place)
}

/// The reason of an entry.
pub fn reason(entry: &Entry) -> String {
    match entry.reason {
        Reason::Present => "present".into(),
        Reason::Overwritten(by) => newer("overwritten", by),
        Reason::Deleted(by) => newer("deleted", by),
        Reason::Needed(object) if object.slot == entry.place.slot => {
            format!("tombstone needed because of the object at {object}, which goes when this slot is cleaned")
        }
        Reason::Needed(object) => format!("tombstone needed because of the object at {object}"),
        Reason::Needless => "tombstone no longer needed: no object of its key is left".into(),
        Reason::Outlived(by) => newer("tombstone no longer needed: outlived", by),
        Reason::Undecided => "undecided: recovery is refused".into(),
    }
}

fn entry_table(entries: &[Entry]) -> String {
    let heads = [
        "slot", "offset", "kind", "table", "key", "version", "reason", "value",
    ];
    let cells = entries.iter().map(|entry| {
        vec![
            entry.place.slot.to_string(),
            entry.place.offset.to_string(),
            kind(entry.fields.kind),
            entry.fields.key.table.to_string(),
            entry.fields.key.key.to_string(),
            entry.fields.version.0.to_string(),
            reason(entry),
            hex(&entry.value),
        ]
    });
    table(&heads, &cells.collect::<Vec<_>>())
}

/// The history of one key.
pub fn history(history: &History) -> String {
    let mut text = format!("key {} in the log\n", key(history.key));
    text.push_str(&match history.entries.as_slice() {
        [] => "  no entry\n".into(),
        entries => entry_table(entries),
    });
    let _ = writeln!(text, "elsewhere, not counting");
    text.push_str(&match history.remains.as_slice() {
        [] => "  nothing\n".into(),
        remains => remains_table(remains),
    });
    text
}

fn remains_table(remains: &[Remains]) -> String {
    let heads = ["slot", "offset", "kind", "version", "where", "value"];
    let cells = remains.iter().map(|one| {
        let place = if one.is_in_free_slot {
            "free slot"
        } else {
            "behind the end"
        };
        vec![
            one.place.slot.to_string(),
            one.place.offset.to_string(),
            kind(one.fields.kind),
            one.fields.version.0.to_string(),
            place.into(),
            hex(&one.value),
        ]
    });
    table(&heads, &cells.collect::<Vec<_>>())
}
