//! Replays files of vectors through the static library and through the reference.
//!
//! `replay [--level N] [--only library|reference] FILE...`: the level of a file is that of its name, `level-NN.txt`,
//! unless `--level` gives it for all files; `--only` leads one implementation alone through them. Prints a line for each file with the number of its events, and below it the first mismatches. The exit
//! status is 0 if there are none, 1 if there are, and 2 if the program is not used so or a file cannot be read.

use std::fs::File;
use std::io::{self, BufReader, Write};
use std::path::Path;
use std::process::ExitCode;

use compare::vectors::level::Level;
use compare::vectors::run::{replay_through, Report, Through};

const USAGE: &str = "usage: replay [--level N] [--only library|reference] FILE...
The level of a file, 0 to 13, is told by its name, level-NN.txt, or by --level for all files.
--only replays the files through one implementation alone.";

/// What the options before the files say.
struct Options {
    level: Option<Level>,
    through: Through,
}

fn main() -> ExitCode {
    let arguments: Option<Vec<String>> = std::env::args_os()
        .skip(1)
        .map(|argument| argument.into_string().ok())
        .collect();
    let replayed = arguments
        .ok_or_else(|| "an argument is not UTF-8".to_string())
        .and_then(|arguments| {
            let (options, files) = options(&arguments)?;
            replay_all(options.through, with_levels(options.level, files)?)
        });
    match replayed {
        Ok(true) => ExitCode::SUCCESS,
        Ok(false) => ExitCode::from(1),
        Err(reason) => {
            eprintln!("replay: {reason}\n{USAGE}");
            ExitCode::from(2)
        }
    }
}

/// The options, and what follows them.
fn options(arguments: &[String]) -> Result<(Options, &[String]), String> {
    let mut options = Options {
        level: None,
        through: Through::Both,
    };
    let mut rest = arguments;
    while let [option, value @ ..] = rest {
        let value = value.split_first();
        match option.as_str() {
            "--level" => {
                let (number, files) = value.ok_or("--level needs a number")?;
                options.level = Some(level_of_option(number)?);
                rest = files;
            }
            "--only" => {
                let (name, files) = value.ok_or("--only needs a name")?;
                options.through = through_of_option(name)?;
                rest = files;
            }
            _ => break,
        }
    }
    Ok((options, rest))
}

fn through_of_option(name: &str) -> Result<Through, String> {
    match name {
        "library" => Ok(Through::Library),
        "reference" => Ok(Through::Reference),
        _ => Err(format!("{name} is neither library nor reference")),
    }
}

/// The files, each with its level.
fn with_levels(level: Option<Level>, files: &[String]) -> Result<Vec<(String, Level)>, String> {
    if files.is_empty() {
        return Err("no file is named".into());
    }
    let leveled = files.iter().map(|file| {
        if file.starts_with('-') {
            return Err(format!("unknown option {file}"));
        }
        let level = level.or_else(|| Level::of_file(Path::new(file)));
        let level = level.ok_or_else(|| format!("{file}: its name tells no level"))?;
        Ok((file.clone(), level))
    });
    leveled.collect()
}

fn level_of_option(number: &str) -> Result<Level, String> {
    let level = number.parse().ok().and_then(Level::new);
    level.ok_or_else(|| format!("{number} is no level"))
}

/// Replays one file after another and reports each; says whether all were clean.
fn replay_all(through: Through, files: Vec<(String, Level)>) -> Result<bool, String> {
    let mut clean = true;
    for (file, level) in files {
        let report = replay_file(through, &file, level)?;
        print(&report).map_err(|error| format!("the report cannot be written: {error}"))?;
        clean &= report.is_clean();
    }
    Ok(clean)
}

fn print(report: &Report) -> io::Result<()> {
    let mut out = io::stdout().lock();
    writeln!(out, "{report}")?;
    for failure in report.failures() {
        writeln!(out, "  {failure}")?;
    }
    out.flush()
}

fn replay_file(through: Through, file: &str, level: Level) -> Result<Report, String> {
    let unreadable = |error| format!("{file} cannot be read: {error}");
    let text = File::open(file).map_err(unreadable)?;
    replay_through(through, file, level, BufReader::new(text)).map_err(unreadable)
}
