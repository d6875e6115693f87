//! The area as a picture: a bar for each slot, to scale.

use std::fmt::Write;

use super::{escaped, Part};
use crate::entries::Entry;
use crate::image::Image;
use crate::plans::Site;
use crate::report::Report;
use crate::slots::{Role, Row};
use crate::text;
use crate::under_way::Finding;
use crate::words::{key, kind};

/// Width of a whole slot, in units of the picture.
const WIDTH: f64 = 1000.0;
/// Room for a slot's name before its bar.
const LEFT: f64 = 150.0;
/// From one bar to the next.
const PITCH: usize = 34;
/// Height of a bar.
const HEIGHT: usize = 24;
/// Width that one letter of a label takes.
const LETTER: f64 = 6.6;

/// A part of a bar: bytes from one offset to another, and what is said of them.
struct Piece {
    part: Part,
    from: usize,
    to: usize,
    label: String,
    title: String,
}

/// The picture and its legend.
pub fn picture(image: &Image, report: &Report) -> String {
    let height = PITCH * report.rows.len();
    let width = LEFT + WIDTH + 2.0;
    let mut html = format!(
        "<svg viewBox=\"0 0 {width} {height}\" role=\"img\" aria-label=\"the slots of the area\">\n{}",
        include_str!("patterns.svg")
    );
    for (number, row) in report.rows.iter().enumerate() {
        html.push_str(&bar(image, report, row, number * PITCH + 1));
    }
    html.push_str("</svg>\n");
    html.push_str(&legend());
    html
}

fn legend() -> String {
    let mut html = String::from("<p class=\"legend\">");
    for part in Part::ALL {
        let (letter, class, name) = part.words();
        let _ = write!(
            html,
            "<span><svg viewBox=\"0 0 30 18\" class=\"sample\"><rect class=\"{class}\" x=\"1\" y=\"1\" width=\"28\" height=\"16\"/><text x=\"15\" y=\"13\" text-anchor=\"middle\">{letter}</text></svg> {name}</span> "
        );
    }
    html.push_str("</p>\n");
    html
}

fn bar(image: &Image, report: &Report, row: &Row, top: usize) -> String {
    let role = match row.role {
        Role::Unknown => String::new(),
        role => format!(" · {}", text::role(role)),
    };
    let digest = row
        .digest
        .map_or(String::new(), |digest| format!(" · #{}", digest.number.0));
    let mut html = format!(
        "<text class=\"name\" x=\"0\" y=\"{}\">slot {}{role}{digest}</text>\n",
        top + 16,
        row.slot
    );
    for piece in pieces(image, report, row) {
        html.push_str(&draw(&piece, f64::from(image.slot_bytes), top));
    }
    html
}

/// The parts of a slot, those that are drawn over others last.
fn pieces(image: &Image, report: &Report, row: &Row) -> Vec<Piece> {
    let mut pieces = vec![whole(image, row)];
    if matches!(row.role, Role::Head | Role::Log | Role::Unknown) {
        pieces.extend(digest(row));
        let of_slot = |entry: &&Entry| entry.place.slot == row.slot;
        pieces.extend(report.entries.iter().filter(of_slot).map(entry_piece));
    }
    if let Some(found) = &report.under_way {
        let is_shown = |one: &&Finding| {
            one.place.slot == row.slot && (one.range.least > 0 || found.is_doubtful)
        };
        pieces.extend(found.findings.iter().filter(is_shown).flat_map(unfinished));
    }
    if let Err(refused) = &report.verdict {
        let spots = refused.cause.spots.iter();
        pieces.extend(
            spots
                .filter(|spot| spot.place.slot == row.slot)
                .map(|spot| Piece {
                    part: Part::Fault,
                    from: spot.place.offset,
                    to: spot.place.offset + spot.bytes.len(),
                    label: "!".into(),
                    title: format!("{}: {}", spot.place, refused.cause.what),
                }),
        );
    }
    pieces
}

fn whole(image: &Image, row: &Row) -> Piece {
    let title = match (row.role, row.digest) {
        (Role::Free, Some(digest)) => {
            format!(
                "slot {}: free, with the old digest {}",
                row.slot, digest.number.0
            )
        }
        (Role::Free, None) => format!("slot {}: free", row.slot),
        _ => format!("slot {}: unused", row.slot),
    };
    Piece {
        part: Part::Unused,
        from: 0,
        to: image.slot_bytes as usize,
        label: String::new(),
        title,
    }
}

fn digest(row: &Row) -> Option<Piece> {
    let digest = row.digest?;
    Some(Piece {
        part: Part::Digest,
        from: 0,
        to: digest.layout.digest_bytes(),
        label: "#".into(),
        title: format!(
            "slot {}, offset 0: digest {}, slots {}, next version {}",
            row.slot,
            digest.number.0,
            crate::words::slots(digest.map),
            digest.next.0
        ),
    })
}

fn entry_piece(entry: &Entry) -> Piece {
    let fields = entry.fields;
    let part = Part::of(entry);
    let (letter, name) = (part.words().0, key(fields.key));
    let version = fields.version.0;
    Piece {
        part,
        from: entry.place.offset,
        to: entry.place.offset + fields.length,
        label: format!("{letter} {name} v{version}"),
        title: format!(
            "{}: {} of {name}, version {version}: {}",
            entry.place,
            kind(fields.kind),
            text::reason(entry)
        ),
    }
}

/// The bytes that an unfinished operation has stored for certain, and those that it has stored at most.
fn unfinished(finding: &Finding) -> [Piece; 2] {
    // Behind the head's end the first store goes one byte further: the kind byte is the last.
    let start = finding.place.offset + usize::from(finding.site == Site::Tail);
    let piece = |part: Part, from: usize, to: usize| Piece {
        part,
        from: start + from,
        to: start + to,
        label: part.words().0.into(),
        title: text::finding_line(finding),
    };
    let range = finding.range;
    [
        piece(Part::Unfinished, 0, range.least),
        piece(Part::Perhaps, range.least, range.most),
    ]
}

fn draw(piece: &Piece, slot_bytes: f64, top: usize) -> String {
    let x = |offset: usize| LEFT + WIDTH * (offset as f64).min(slot_bytes) / slot_bytes;
    let (left, width) = (x(piece.from), x(piece.to) - x(piece.from));
    let (_, class, _) = piece.part.words();
    let mut html = format!(
        "<g><title>{}</title><rect class=\"{class}\" x=\"{left:.2}\" y=\"{top}\" width=\"{width:.2}\" height=\"{HEIGHT}\"/>",
        escaped(&piece.title)
    );
    let letters = (width / LETTER) as usize;
    let label = match piece.label.chars().count() {
        long if long > letters => piece.label.chars().take(letters.min(1)).collect(),
        _ => piece.label.clone(),
    };
    if !label.is_empty() {
        let _ = write!(
            html,
            "<text x=\"{:.2}\" y=\"{}\" text-anchor=\"middle\">{}</text>",
            left + width / 2.0,
            top + 16,
            escaped(&label)
        );
    }
    html.push_str("</g>\n");
    html
}
