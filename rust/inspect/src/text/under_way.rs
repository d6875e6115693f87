//! What was under way, in words.

use std::collections::BTreeSet;
use std::fmt::Write;

use crate::evidence::Range;
use crate::plans::{Operation, Site};
use crate::under_way::{Candidate, Doubt, Finding, UnderWay};
use crate::verdict::Recovered;
use crate::words::{alternatives, count, key, slots};

/// Lines of candidates that are told at most for one place.
const MOST_CANDIDATES: usize = 12;

/// An operation in words. A write is of one of these lengths.
fn operation(operation: Operation, lengths: &[String]) -> String {
    let named = |name: Option<_>| name.map_or("a key not yet told".into(), key);
    match operation {
        Operation::Write(_, name) => {
            format!(
                "write of {} bytes under {}",
                alternatives(lengths),
                named(name)
            )
        }
        Operation::Delete(name) => format!("delete of {}", named(name)),
        Operation::FullDelete(name, slot) => {
            format!(
                "delete of {}, done as a cleaning of slot {slot}",
                named(name)
            )
        }
        Operation::Clean(victims) if victims.count() == 1 => {
            format!("cleaning of slot {}", slots(victims))
        }
        Operation::Clean(victims) => format!("cleaning of slots {}", slots(victims)),
        Operation::NewHead => "new head whose slots are not yet told".into(),
    }
}

/// How many stores are done, of so many.
fn progress(range: Range, totals: &[String]) -> String {
    let Range { least, most } = range;
    let done = if least == most {
        most.to_string()
    } else {
        format!("{least} to {most}")
    };
    match totals {
        [] => format!("{done} stores"),
        [total] if *total == done => format!("all {total} stores, finished"),
        totals => format!("{done} of {} stores", alternatives(totals)),
    }
}

/// Said of an operation of a store that was switched.
const SWITCHED: &str = ", in edition 2 after a switch";

/// Candidates that differ in nothing but the length of a write, told as one.
fn told(alike: &[Candidate]) -> Option<String> {
    let first = alike.first()?;
    let lengths: Vec<String> = alike
        .iter()
        .filter_map(|one| match one.operation {
            Operation::Write(bytes, _) => Some(bytes.to_string()),
            _ => None,
        })
        .collect();
    let totals: Vec<String> = alike
        .iter()
        .filter_map(|one| Some(one.total?.to_string()))
        .collect();
    let name = operation(first.operation, &lengths);
    let switched = if first.is_switched { SWITCHED } else { "" };
    Some(format!(
        "{name}{switched}: {}",
        progress(first.range, &totals)
    ))
}

/// Whether two candidates are told as one.
fn are_alike(one: &Candidate, other: &Candidate) -> bool {
    match (one.operation, other.operation) {
        (Operation::Write(_, key), Operation::Write(_, other_key)) => {
            key == other_key && one.range == other.range && one.is_switched == other.is_switched
        }
        _ => false,
    }
}

/// What one place shows, in one line.
pub fn finding_line(finding: &Finding) -> String {
    let place = match finding.site {
        Site::Tail => format!("behind the head's end, {}", finding.place),
        Site::NewHead => format!("next head, slot {}", finding.place.slot),
    };
    let range = finding.range;
    let told = match (range.least, range.most) {
        (_, 0) => "no store is done".into(),
        (0, most) => format!("no store is certain, at most {most} done"),
        (least, most) if least == most => format!("exactly {} done", count(least, "store")),
        (least, most) => format!("at least {least} and at most {most} stores done"),
    };
    format!("{place}: {told}")
}

/// On what condition the certain stores of a place are.
pub fn condition(recovered: &Recovered, finding: &Finding) -> String {
    let record = recovered.record;
    let doubt = |doubt: &Doubt| match (doubt, finding.site) {
        (Doubt::CutShort, Site::Tail) => format!(
            "another write or delete was cut short since version {} became the next",
            record.next.0
        ),
        (Doubt::CutShort, Site::NewHead) => format!(
            "another new head was cut short since digest {} was made",
            record.digest.0
        ),
        (Doubt::ByChance, _) => format!("older bytes read as version {}", record.next.0),
        (Doubt::BeforeFormat, _) => "the slot held the same before the format".into(),
    };
    let doubts: Vec<String> = finding.doubts.iter().map(doubt).collect();
    format!("certain unless {}", doubts.join(", or "))
}

/// What was under way.
pub fn under_way(recovered: &Recovered, under_way: &UnderWay) -> String {
    let mut text = String::new();
    for finding in &under_way.findings {
        let _ = writeln!(text, "  {}", finding_line(finding));
        text.push_str(&candidates(&finding.candidates, "    "));
        if finding.range.least > 0 {
            let _ = writeln!(text, "    {}", condition(recovered, finding));
        }
    }
    if under_way.is_doubtful {
        let _ = writeln!(text, "  {DOUBTFUL}");
    }
    for slot in &under_way.strays {
        let _ = writeln!(
            text,
            "  slot {slot} begins like the next head, which goes elsewhere: {STRAY}"
        );
    }
    text
}

/// Said of a slot that no new head goes to.
const STRAY: &str = "it stood there before the format, or the rules were broken";

/// Said where both places have stores that only an unfinished operation makes.
const DOUBTFUL: &str =
    "both places show the next number, and an operation stores at one: the other is from one cut short before, or older";

/// The operations that may have been under way, some to a line, and what the bytes leave open.
pub(super) fn candidates(candidates: &[Candidate], indent: &str) -> String {
    let lines: Vec<String> = candidates.chunk_by(are_alike).filter_map(told).collect();
    let mut text = String::new();
    for line in lines.iter().take(MOST_CANDIDATES) {
        let _ = writeln!(text, "{indent}{line}");
    }
    if lines.len() > MOST_CANDIDATES {
        let _ = writeln!(text, "{indent}and {} more", lines.len() - MOST_CANDIDATES);
    }
    let unknown = unknown(candidates);
    if !unknown.is_empty() {
        let _ = writeln!(text, "{indent}not known: {}", unknown.join(", "));
    }
    text
}

/// What stays open of unfinished operations whose keys are told.
fn unknown(candidates: &[Candidate]) -> Vec<&'static str> {
    let open = || {
        let is_open = |one: &&Candidate| Some(one.range.least) != one.total;
        candidates.iter().filter(is_open)
    };
    let length = |one: &Candidate| match one.operation {
        Operation::Write(bytes, Some(_)) => Some(bytes),
        _ => None,
    };
    let lengths: BTreeSet<usize> = open().filter_map(length).collect();
    let writes = lengths.len();
    let deletes = open()
        .filter(|one| matches!(one.operation, Operation::Delete(Some(_))))
        .count();
    let cases = [
        (
            writes > 0 && deletes > 0,
            "whether it is a write or a delete",
        ),
        (writes > 1, "the length of a value"),
        (writes > 0, "the value beyond the bytes that are stored"),
    ];
    let open = cases.into_iter().filter(|(is_open, _)| *is_open);
    open.map(|(_, what)| what).collect()
}
