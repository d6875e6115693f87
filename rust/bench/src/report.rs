//! The two tables: all cases, and the worst of each single call.

use crate::timing::Timing;

/// A single call of the store.
#[derive(Clone, Copy, PartialEq, Eq)]
pub enum Call {
    /// A read.
    Read,
    /// The start of a write.
    WriteStart,
    /// The start of a write that expects a version.
    ConditionalWriteStart,
    /// The start of a delete.
    DeleteStart,
    /// The start of a delete in a full store, which is done as a cleaning.
    FullDeleteStart,
    /// The start of a cleaning.
    CleanStart,
    /// A step that is not the last.
    MiddleStep,
    /// The last step of a write, which leads the index to the entry.
    LastStepOfWrite,
    /// The last step of a cleaning or of a delete in a full store, which rebuilds the index.
    LastStepOfCleaning,
    /// A recovery.
    Recovery,
    /// The slot with the fewest present bytes.
    Fewest,
    /// The switch to the second edition.
    Switch,
    /// The next store told.
    NextStore,
    /// The two slots to join.
    Join,
    /// A read by a scan of the log.
    ScanRead,
    /// The conversion of a position.
    Position,
    /// The conversion of an area.
    Conversion,
}

impl Call {
    const ALL: [(Call, &'static str); 17] = [
        (Call::Read, "read"),
        (Call::WriteStart, "start of a write"),
        (Call::ConditionalWriteStart, "start of a conditional write"),
        (Call::DeleteStart, "start of a delete"),
        (Call::FullDeleteStart, "start of a delete in a full store"),
        (Call::CleanStart, "start of a cleaning"),
        (Call::MiddleStep, "a step before the last"),
        (Call::LastStepOfWrite, "last step of a write"),
        (Call::LastStepOfCleaning, "last step of a cleaning"),
        (Call::Recovery, "recovery"),
        (Call::Fewest, "slot with the fewest present bytes"),
        (Call::Switch, "switch"),
        (Call::NextStore, "the next store told"),
        (Call::Join, "two slots to join"),
        (Call::ScanRead, "read by a scan"),
        (Call::Position, "conversion of a position"),
        (Call::Conversion, "conversion of an area"),
    ];
}

/// Which keys a case has.
#[derive(Clone, Copy, PartialEq, Eq)]
pub enum Keys {
    /// Keys that nobody chose against the index.
    Plain,
    /// Keys whose searches all start at one cell.
    OneCell,
}

/// What was timed so far.
pub struct Report {
    calls: Vec<(Call, Keys, String, Timing)>,
}

impl Report {
    /// Begins the table of all cases.
    pub fn new() -> Report {
        println!("| case | proved | reference | ratio | noise |");
        println!("|---|---|---|---|---|");
        Report { calls: Vec::new() }
    }

    /// A line of the table.
    pub fn line(&self, case: &str, timing: Timing) {
        println!("| {case} | {} |", columns(timing));
    }

    /// A line whose time is that of one call.
    pub fn call(&mut self, call: Call, keys: Keys, case: &str, timing: Timing) {
        self.line(case, timing);
        self.calls.push((call, keys, case.to_string(), timing));
    }

    /// The table of the worst single calls.
    pub fn worst_calls(&self) {
        println!();
        println!("| call | keys | worst case | proved | reference | ratio | noise |");
        println!("|---|---|---|---|---|---|---|");
        for (call, name) in Call::ALL {
            for (keys, which) in [(Keys::Plain, "plain"), (Keys::OneCell, "one start cell")] {
                if let Some((case, timing)) = self.worst(call, keys) {
                    println!("| {name} | {which} | {case} | {} |", columns(timing));
                }
            }
        }
    }

    /// The case in which the proved call took longest.
    fn worst(&self, call: Call, keys: Keys) -> Option<(&str, Timing)> {
        self.calls
            .iter()
            .filter(|timed| timed.0 == call && timed.1 == keys)
            .max_by(|one, other| one.3.proved.total_cmp(&other.3.proved))
            .map(|timed| (timed.2.as_str(), timed.3))
    }
}

fn columns(timing: Timing) -> String {
    format!(
        "{} | {} | {:.2} | {:.0} %",
        time(timing.proved),
        time(timing.reference),
        timing.proved / timing.reference,
        timing.noise * 100.0
    )
}

fn time(nanoseconds: f64) -> String {
    if nanoseconds < 10_000.0 {
        format!("{nanoseconds:.0} ns")
    } else if nanoseconds < 10_000_000.0 {
        format!("{:.1} µs", nanoseconds / 1000.0)
    } else {
        format!("{:.1} ms", nanoseconds / 1_000_000.0)
    }
}
