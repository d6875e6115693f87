//! Times of the proved store as ratios to the reference's, in one run, on the same bytes.
//!
//! `cargo run --release -p bench` prints the tables of docs/PERFORMANCE.md. With the word `joins` behind `--` it prints the
//! last one alone, which counts and does not time; with the word `floats` it tries the conversions of positions on all
//! patterns of 32 bits, and does nothing else.

mod calls;
mod conversion;
mod editions;
mod history;
mod image;
mod joins;
mod operations;
mod positions;
mod recoveries;
mod report;
mod store;
mod switching;
mod timing;
mod tombstones;
mod versions;

use report::Report;

fn main() {
    match std::env::args().nth(1).as_deref() {
        Some("joins") => joins::table(),
        Some("floats") => positions::all_patterns(),
        _ => {
            times();
            joins::table();
        }
    }
}

fn times() {
    let mut report = Report::new();
    recoveries::cases(&mut report);
    operations::cases(&mut report);
    tombstones::cases(&mut report);
    history::cases(&mut report);
    calls::cases(&mut report);
    positions::cases(&mut report);
    editions::cases(&mut report);
    conversion::cases(&mut report);
    switching::cases(&mut report);
    report.worst_calls();
}
