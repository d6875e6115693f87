//! Rewrites an image of the store in the other edition.

use std::io::{self, Write};
use std::process::ExitCode;

use convert::run::run;

fn main() -> ExitCode {
    let outcome = run(std::env::args_os().skip(1));
    // A reader that has gone away is no fault of the image.
    let _ = io::stdout().lock().write_all(outcome.output.as_bytes());
    let _ = io::stderr().lock().write_all(outcome.error.as_bytes());
    ExitCode::from(outcome.status)
}
