//! The report as one page that needs nothing else: a picture of the area, and lists.

mod bars;

use std::fmt::Write;

use crate::entries::{Entry, Reason};
use crate::image::Image;
use crate::report::Report;
use crate::slots::Row;
use crate::text;
use crate::verdict::Refused;
use crate::words::{hex, kind, slots};

/// What the bytes of a slot are, by colour, pattern and letter.
#[derive(Clone, Copy, PartialEq, Eq, Debug)]
enum Part {
    Digest,
    Present,
    Dead,
    Needed,
    Needless,
    Undecided,
    Unfinished,
    Perhaps,
    Fault,
    Unused,
}

impl Part {
    const ALL: [Part; 10] = [
        Part::Digest,
        Part::Present,
        Part::Dead,
        Part::Needed,
        Part::Needless,
        Part::Unfinished,
        Part::Perhaps,
        Part::Unused,
        Part::Undecided,
        Part::Fault,
    ];

    fn of(entry: &Entry) -> Part {
        match entry.reason {
            Reason::Present => Part::Present,
            Reason::Overwritten(_) | Reason::Deleted(_) => Part::Dead,
            Reason::Needed(_) => Part::Needed,
            Reason::Needless | Reason::Outlived(_) => Part::Needless,
            Reason::Undecided => Part::Undecided,
        }
    }

    /// The letter in the picture and in the list, the class of its pattern, and its name.
    fn words(self) -> (&'static str, &'static str, &'static str) {
        match self {
            Part::Digest => ("#", "digest", "digest"),
            Part::Present => ("P", "present", "present object"),
            Part::Dead => ("D", "dead", "dead object"),
            Part::Needed => ("T", "needed", "needed tombstone"),
            Part::Needless => ("t", "needless", "needless tombstone"),
            Part::Undecided => ("?", "undecided", "undecided entry"),
            Part::Unfinished => ("U", "unfinished", "unfinished operation, certain"),
            Part::Perhaps => ("u", "perhaps", "unfinished operation, at most"),
            Part::Fault => ("!", "fault", "cause of the refusal"),
            Part::Unused => ("", "unused", "unused or free"),
        }
    }
}

/// The page of an image with this name.
pub fn page(name: &str, image: &Image, report: &Report) -> String {
    let mut html = String::new();
    let name = escaped(name);
    let _ = write!(
        html,
        "<!DOCTYPE html>\n<html lang=\"en\"><head><meta charset=\"utf-8\">\n<title>{name}</title>\n<style>\n{}</style></head>\n<body>\n<h1>{name}</h1>\n<p>{} slots of {} bytes</p>\n",
        include_str!("page.css"),
        image.slots,
        image.slot_bytes
    );
    html.push_str(&verdict(report));
    html.push_str(&bars::picture(image, report));
    html.push_str(&under_way(report));
    html.push_str(&slot_list(&report.rows));
    html.push_str(&entry_list(&report.entries));
    html.push_str("</body></html>\n");
    html
}

fn escaped(text: &str) -> String {
    text.replace('&', "&amp;")
        .replace('<', "&lt;")
        .replace('>', "&gt;")
        .replace('"', "&quot;")
}

fn verdict(report: &Report) -> String {
    let class = if report.verdict.is_ok() {
        "accepted"
    } else {
        "refused"
    };
    let told = text::verdict(report) + &text::lost(report, None);
    let lines = escaped(told.trim_end());
    format!("<pre class=\"verdict {class}\">{lines}</pre>\n")
}

fn under_way(report: &Report) -> String {
    match (&report.verdict, &report.under_way) {
        (Ok(recovered), Some(found)) => format!(
            "<h2>Under way</h2>\n<pre>{}</pre>\n",
            escaped(&text::under_way(recovered, found))
        ),
        (Err(Refused { .. }), _) | (_, None) => String::new(),
    }
}

/// A table; the first row is its head.
fn table(rows: &[Vec<String>]) -> String {
    let mut html = String::from("<table>\n");
    for (number, row) in rows.iter().enumerate() {
        let tag = if number == 0 { "th" } else { "td" };
        html.push_str("<tr>");
        for cell in row {
            let _ = write!(html, "<{tag}>{}</{tag}>", escaped(cell));
        }
        html.push_str("</tr>\n");
    }
    html.push_str("</table>\n");
    html
}

fn cells(words: &[&str]) -> Vec<String> {
    words.iter().map(|word| word.to_string()).collect()
}

fn slot_list(rows: &[Row]) -> String {
    let mut lines = vec![cells(&[
        "slot", "role", "edition", "digest", "map", "next", "entries", "present", "kept", "unused",
    ])];
    lines.extend(rows.iter().map(|row| {
        let used = row.used.as_ref();
        let digest = row.digest;
        vec![
            row.slot.to_string(),
            text::role(row.role).into(),
            text::shown(digest.map(|digest| digest.layout.edition.0)),
            text::shown(digest.map(|digest| digest.number.0)),
            text::shown(digest.map(|digest| slots(digest.map))),
            text::shown(digest.map(|digest| digest.next.0)),
            text::shown(used.map(|used| used.entries)),
            text::shown(used.and_then(|used| used.present)),
            text::shown(used.and_then(|used| used.kept)),
            text::shown(used.and_then(|used| used.unused)),
        ]
    }));
    format!(
        "<h2>Slots</h2>\n{}<p>present: bytes of present objects; kept: bytes that a cleaning of the slot alone would keep</p>\n",
        table(&lines)
    )
}

fn entry_list(entries: &[Entry]) -> String {
    let mut lines = vec![cells(&[
        "", "slot", "offset", "kind", "table", "key", "version", "reason", "value",
    ])];
    lines.extend(entries.iter().map(|entry| {
        let fields = entry.fields;
        vec![
            Part::of(entry).words().0.into(),
            entry.place.slot.to_string(),
            entry.place.offset.to_string(),
            kind(fields.kind),
            fields.key.table.to_string(),
            fields.key.key.to_string(),
            fields.version.0.to_string(),
            text::reason(entry),
            hex(&entry.value),
        ]
    }));
    format!("<h2>Entries</h2>\n{}", table(&lines))
}
