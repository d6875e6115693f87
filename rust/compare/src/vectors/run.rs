//! A whole file, line by line, through both implementations or through one of them.

use std::fmt;
use std::io::{self, BufRead};

use super::bench::Bench;
use super::difference::Difference;
use super::event::{Changes, Event};
use super::level::Level;
use super::library::Library;
use super::reader;
use super::second::Second;
use super::subject::Subject;

/// How many failures of one kind a report keeps.
const KEPT: usize = 5;

/// Which implementations a replay leads through a file.
#[derive(Clone, Copy, PartialEq, Eq, Debug)]
pub enum Through {
    /// Both.
    Both,
    /// The static library alone.
    Library,
    /// The reference alone.
    Reference,
}

/// Something that is not as the file has it, or a line that does not keep to the format.
#[derive(Clone, PartialEq, Eq, Debug)]
pub struct Failure {
    /// The file.
    pub file: String,
    /// The line, counted from 1.
    pub line: u64,
    /// The implementation, or that the line itself is at fault.
    pub by: &'static str,
    /// The event with its inputs, cut if they are long.
    pub event: String,
    /// The field, what was expected and what was found.
    pub difference: Difference,
}

impl fmt::Display for Failure {
    fn fmt(&self, out: &mut fmt::Formatter<'_>) -> fmt::Result {
        let Failure {
            file,
            line,
            by,
            event,
            difference,
        } = self;
        write!(out, "{file}:{line}: {by}: {event}: {difference}")
    }
}

/// Failures of one kind: their number, the first of them, and how many events were not replayed after them.
#[derive(Clone, Default, Debug)]
pub struct Tally {
    /// How many there are.
    pub failures: u64,
    /// The first.
    pub first: Vec<Failure>,
    /// Events that were not replayed: those from a failure up to the next history.
    pub skipped: u64,
}

impl Tally {
    fn add(&mut self, failure: Failure) {
        self.failures += 1;
        if self.first.len() < KEPT {
            self.first.push(failure);
        }
    }
}

/// How the replay of a file went.
#[derive(Clone, Debug)]
pub struct Report {
    /// The file.
    pub file: String,
    /// What was led through it.
    pub through: Through,
    /// The events in it: every line but blank ones and comments.
    pub events: u64,
    /// Lines that do not keep to the format.
    pub lines: Tally,
    /// Mismatches of the static library.
    pub library: Tally,
    /// Mismatches of the reference.
    pub reference: Tally,
}

impl Report {
    /// Whether every event was replayed, and every answer was the file's.
    pub fn is_clean(&self) -> bool {
        self.tallies()
            .all(|(_, tally)| tally.failures == 0 && tally.skipped == 0)
    }

    /// The first failures of every kind.
    pub fn failures(&self) -> impl Iterator<Item = &Failure> {
        self.tallies().flat_map(|(_, tally)| tally.first.iter())
    }

    /// The lines at fault, and the mismatches of what was led through the file.
    fn tallies(&self) -> impl Iterator<Item = (&'static str, &Tally)> {
        let library = (self.through != Through::Reference)
            .then_some(("mismatches of the library", &self.library));
        let reference = (self.through != Through::Library)
            .then_some(("mismatches of the reference", &self.reference));
        std::iter::once(("lines at fault", &self.lines))
            .chain(library)
            .chain(reference)
    }
}

impl fmt::Display for Report {
    /// One line: the file, its events, and how many failures of each kind there are.
    fn fmt(&self, out: &mut fmt::Formatter<'_>) -> fmt::Result {
        write!(out, "{}: {} events", self.file, self.events)?;
        for (name, tally) in self.tallies() {
            write!(out, ", {} {name}", tally.failures)?;
            if tally.skipped > 0 {
                write!(out, " ({} events not replayed after them)", tally.skipped)?;
            }
        }
        Ok(())
    }
}

/// Replays a file of the level through the static library and through the reference.
///
/// After a failure the implementation is not led further through that history; the next one begins anew. After a line
/// at fault neither is. Fails only if the text cannot be read.
pub fn replay(file: &str, level: Level, text: impl BufRead) -> io::Result<Report> {
    replay_through(Through::Both, file, level, text)
}

/// [`replay`] through both implementations or through one of them.
pub fn replay_through(
    through: Through,
    file: &str,
    level: Level,
    text: impl BufRead,
) -> io::Result<Report> {
    let mut run = Run::new(through, file, level);
    for line in text.split(b'\n') {
        run.line(&line?);
    }
    Ok(run.end())
}

/// One implementation in a run. It has no bench before the first history and after a failure.
struct Lane<S: Subject> {
    bench: Option<Bench<S>>,
    tally: Tally,
}

impl<S: Subject> Lane<S> {
    fn new() -> Lane<S> {
        Lane {
            bench: None,
            tally: Tally::default(),
        }
    }

    fn replay(&mut self, level: Level, event: &Event, changes: &Changes) -> Result<(), Difference> {
        if let Event::History(geometry) = event {
            self.bench = Some(Bench::new(level, *geometry));
            return Ok(());
        }
        let Some(bench) = &mut self.bench else {
            self.tally.skipped += 1;
            return Ok(());
        };
        let checked = bench.replay(event, changes);
        if checked.is_err() {
            self.bench = None;
        }
        checked
    }
}

/// The replay of one file, as far as it has come.
struct Run {
    level: Level,
    report: Report,
    library: Lane<Library>,
    reference: Lane<Second>,
    /// What the `with` lines just read change.
    changes: Changes,
    line: u64,
    begun: bool,
}

impl Run {
    fn new(through: Through, file: &str, level: Level) -> Run {
        Run {
            level,
            report: Report {
                file: file.into(),
                through,
                events: 0,
                lines: Tally::default(),
                library: Tally::default(),
                reference: Tally::default(),
            },
            library: Lane::new(),
            reference: Lane::new(),
            changes: Changes::default(),
            line: 0,
            begun: false,
        }
    }

    fn line(&mut self, bytes: &[u8]) {
        self.line += 1;
        let Ok(text) = std::str::from_utf8(bytes) else {
            let difference = Difference::new("text", "UTF-8", "other bytes");
            return self.fault("", difference);
        };
        match reader::event(self.level, text) {
            Ok(None) => {}
            Ok(Some(event)) => {
                self.report.events += 1;
                self.event(text, &event);
            }
            Err(difference) => {
                self.report.events += 1;
                self.fault(text, difference);
            }
        }
    }

    fn event(&mut self, text: &str, event: &Event) {
        if let Err(difference) = self.in_order(event) {
            return self.fault(text, difference);
        }
        if let Event::With(with) = event {
            if let Err(difference) = self.changes.add(*with) {
                self.fault(text, difference);
            }
            return;
        }
        let changes = std::mem::take(&mut self.changes);
        let through = self.report.through;
        if through != Through::Reference {
            if let Err(difference) = self.library.replay(self.level, event, &changes) {
                let failure = self.failure(text, Library::NAME, difference);
                self.library.tally.add(failure);
            }
        }
        if through != Through::Library {
            if let Err(difference) = self.reference.replay(self.level, event, &changes) {
                let failure = self.failure(text, Second::NAME, difference);
                self.reference.tally.add(failure);
            }
        }
    }

    /// A history comes first, and after `with` a call that is refused.
    fn in_order(&mut self, event: &Event) -> Result<(), Difference> {
        self.begun |= matches!(event, Event::History(_));
        if !self.begun {
            return Err(Difference::new("event", "a history first", "none"));
        }
        let with = matches!(event, Event::With(_));
        if self.changes.is_empty() || with || event.may_follow_with() {
            return Ok(());
        }
        let expected = "a refused call or `fewest` after `with`";
        Err(Difference::new("event", expected, "another event"))
    }

    fn failure(&self, text: &str, by: &'static str, difference: Difference) -> Failure {
        Failure {
            file: self.report.file.clone(),
            line: self.line,
            by,
            event: headline(text),
            difference,
        }
    }

    /// A line at fault ends the history for both implementations.
    fn fault(&mut self, text: &str, difference: Difference) {
        let failure = self.failure(text, "line at fault", difference);
        self.report.lines.add(failure);
        self.changes = Changes::default();
        self.library.bench = None;
        self.reference.bench = None;
    }

    fn end(mut self) -> Report {
        if !self.changes.is_empty() {
            let difference = Difference::new("event", "a call after `with`", "the end");
            self.fault("with", difference);
        }
        if self.report.events == 0 {
            self.fault("", Difference::new("event", "a history", "the end"));
        }
        self.report.library = self.library.tally;
        self.report.reference = self.reference.tally;
        self.report
    }
}

/// The event and its inputs, cut if they are long.
fn headline(text: &str) -> String {
    let inputs = text.split(" -> ").next().unwrap_or(text).trim();
    match inputs.char_indices().nth(60) {
        None => inputs.into(),
        Some((end, _)) => format!("{}...", &inputs[..end]),
    }
}
