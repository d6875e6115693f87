//! The program without its process: arguments in, text and status out.

use std::ffi::OsString;

use crate::args::{parse, Args, Asked, USAGE};
use crate::{files, words};

/// What the program writes, and its exit status.
#[derive(Clone, PartialEq, Eq, Debug)]
pub struct Outcome {
    /// For standard output.
    pub output: String,
    /// One line for standard error; empty if nothing is wrong.
    pub error: String,
    /// 0 converted, 1 refused, 2 wrong use.
    pub status: u8,
}

/// Runs the program with the arguments after its name.
pub fn run(args: impl IntoIterator<Item = OsString>) -> Outcome {
    let answer = match parse(args) {
        Ok(Asked::Help) => Ok(USAGE.into()),
        Ok(Asked::Conversion(args)) => convert(&args),
        Err(fault) => Err((fault, 2)),
    };
    match answer {
        Ok(output) => Outcome {
            output,
            error: String::new(),
            status: 0,
        },
        Err((fault, status)) => Outcome {
            output: String::new(),
            error: format!("convert: {}\n", fault.replace('\n', " ")),
            status,
        },
    }
}

/// What is to be said of an accepted conversion, or what is wrong and the status.
fn convert(args: &Args) -> Result<String, (String, u8)> {
    let source = files::read(args).map_err(|fault| (fault, 2))?;
    let mut target = vec![0; source.len()];
    kurdavel::convert(args.slots, args.slot_bytes, &source, &mut target)
        .map_err(|refusal| (words::refused(args, refusal, source.len()), 1))?;
    files::write(args, &target).map_err(|fault| (fault, 2))?;
    Ok(format!("{}\n", words::accepted(args, &target)))
}
