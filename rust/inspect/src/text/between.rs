//! What differs between two images, in words.

use std::fmt::Write;

use super::under_way::candidates;
use crate::between::Run;
use crate::image::Place;
use crate::under_way::Candidate;
use crate::words::{count, spaced_hex};

/// Bytes of a difference in one line.
const BYTES_IN_LINE: usize = 16;

/// The bytes of a run, some to a line.
fn difference(run: &Run) -> String {
    let lines = run
        .before
        .chunks(BYTES_IN_LINE)
        .zip(run.after.chunks(BYTES_IN_LINE));
    let mut text = String::new();
    for (number, (before, after)) in lines.enumerate() {
        let place = Place {
            offset: run.place.offset + number * BYTES_IN_LINE,
            ..run.place
        };
        let (before, after) = (spaced_hex(before), spaced_hex(after));
        let _ = writeln!(text, "  {place}: {before} -> {after}");
    }
    text
}

/// What differs between two images and what explains it; no explanations are given where the first is refused.
pub fn comparison(runs: &[Run], explanations: Option<&[Candidate]>) -> String {
    let bytes = runs.iter().map(|run| run.before.len()).sum();
    let verb = if bytes == 1 { "differs" } else { "differ" };
    let mut text = format!("{} {verb}\n", count(bytes, "byte"));
    for run in runs {
        text.push_str(&difference(run));
    }
    match explanations {
        None => text.push_str("nothing explains them: the first image is refused\n"),
        Some(_) if bytes == 0 => text.push_str("no store was made, or none that shows\n"),
        Some([]) => text.push_str("no single operation explains them\n"),
        Some(found) => {
            text.push_str(match found {
                [_] => "one operation explains them\n",
                _ => "any one of these operations explains them\n",
            });
            text.push_str(&candidates(found, "  "));
        }
    }
    text
}
