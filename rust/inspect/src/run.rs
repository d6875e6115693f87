//! The program without its process: arguments in, text and status out.

use std::ffi::OsString;
use std::path::Path;

use crate::args::{parse, Args, USAGE};
use crate::between::{differences, explanations};
use crate::history::history;
use crate::image::Image;
use crate::report::Report;
use crate::{json, page, text};

/// What the program writes, and its exit status.
#[derive(Clone, PartialEq, Eq, Debug)]
pub struct Outcome {
    /// For standard output.
    pub output: String,
    /// One line for standard error; empty if nothing is wrong.
    pub error: String,
    /// 0 accepted, 1 refused, 2 wrong use.
    pub status: u8,
}

/// Runs the program with the arguments after its name.
pub fn run(args: impl IntoIterator<Item = OsString>) -> Outcome {
    match parse(args).and_then(|args| answer(&args)) {
        Ok((output, status)) => Outcome {
            output,
            error: String::new(),
            status,
        },
        Err(fault) => Outcome {
            output: String::new(),
            error: format!("inspect: {}\n", fault.replace('\n', " ")),
            status: 2,
        },
    }
}

fn answer(args: &Args) -> Result<(String, u8), String> {
    match args.images.as_slice() {
        _ if args.help => Ok((USAGE.into(), 0)),
        [before, after] => compare(args, before, after),
        [path] => one(args, path),
        _ => Err("no image".into()),
    }
}

fn one(args: &Args, path: &Path) -> Result<(String, u8), String> {
    let image = Image::load(path, args.geometry)?;
    let report = Report::of(&image);
    if let Some(file) = &args.html {
        let name = path
            .file_name()
            .unwrap_or(path.as_os_str())
            .to_string_lossy();
        std::fs::write(file, page::page(&name, &image, &report))
            .map_err(|fault| format!("{}: {fault}", file.display()))?;
    }
    let history = args.key.map(|key| history(&image, &report, key));
    let geometry = image.geometry();
    let output = match (history, args.json) {
        (None, false) => text::report(&report),
        (None, true) => format!("{}\n", json::report(geometry, &report)),
        (Some(history), false) => {
            let lost = text::lost(&report, Some(history.key));
            text::verdict(&report) + &lost + &text::history(&history)
        }
        (Some(history), true) => format!("{}\n", json::history(geometry, &report, &history)),
    };
    Ok((output, u8::from(report.verdict.is_err())))
}

fn compare(args: &Args, before: &Path, after: &Path) -> Result<(String, u8), String> {
    let before = Image::load(before, args.geometry)?;
    let after = Image::load(after, args.geometry)?;
    if before.geometry() != after.geometry() {
        return Err("the images differ in geometry".into());
    }
    let reports = [Report::of(&before), Report::of(&after)];
    let runs = differences(&before, &after);
    let recovered = reports[0].verdict.as_ref().ok();
    let found = recovered.map(|recovered| explanations(&before, recovered, &after));
    let found = found.as_deref();
    let output = if args.json {
        let geometry = before.geometry();
        let told = json::comparison(geometry, &reports[0], &reports[1], &runs, found);
        format!("{told}\n")
    } else {
        format!(
            "before {}after  {}{}",
            text::verdict(&reports[0]),
            text::verdict(&reports[1]),
            text::comparison(&runs, found)
        )
    };
    let refused = reports.iter().any(|report| report.verdict.is_err());
    Ok((output, u8::from(refused)))
}
