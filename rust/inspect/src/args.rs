//! The command line.

use std::ffi::OsString;
use std::path::PathBuf;

use reference::Key;

use crate::image::Geometry;

/// How the program is used.
pub const USAGE: &str = "\
usage: inspect IMAGE [--slots N --size S] [--key TABLE KEY] [--json] [--html FILE]
       inspect BEFORE AFTER [--slots N --size S] [--json]

IMAGE is an area of N slots of S bytes; without --slots and --size it begins with N (1 byte) and S (2 bytes, low first).
--key gives the history of one key, --json the report for a script, --html writes it as a page.
Two images of one drive are compared. Exit status: 0 accepted, 1 refused, 2 wrong use.
";

/// What the user asks for.
#[derive(Clone, PartialEq, Eq, Debug, Default)]
pub struct Args {
    /// The images: one, or two to compare.
    pub images: Vec<PathBuf>,
    /// N and S, if the images are areas alone.
    pub geometry: Option<Geometry>,
    /// The key whose history is asked for.
    pub key: Option<Key>,
    /// The page to write.
    pub html: Option<PathBuf>,
    /// Whether JSON is asked for.
    pub json: bool,
    /// Whether only the usage is asked for.
    pub help: bool,
}

/// Reads the arguments after the program's name.
pub fn parse(args: impl IntoIterator<Item = OsString>) -> Result<Args, String> {
    let mut rest = args.into_iter();
    let mut parsed = Args::default();
    let (mut slots, mut slot_bytes) = (None, None);
    while let Some(arg) = rest.next() {
        match arg.to_str() {
            Some("--slots") => slots = Some(number("--slots", rest.next())?),
            Some("--size") => slot_bytes = Some(number("--size", rest.next())?),
            Some("--key") => {
                parsed.key = Some(Key {
                    table: number("--key TABLE", rest.next())?,
                    key: number("--key TABLE KEY", rest.next())?,
                });
            }
            Some("--html") => {
                let file = rest.next().ok_or("--html needs a file")?;
                parsed.html = Some(PathBuf::from(file));
            }
            Some("--json") => parsed.json = true,
            Some("--help" | "-h") => parsed.help = true,
            Some(option) if option.starts_with('-') => {
                return Err(format!("no option {option}"));
            }
            _ => parsed.images.push(PathBuf::from(arg)),
        }
    }
    parsed.geometry = match (slots, slot_bytes) {
        (Some(slots), Some(slot_bytes)) => Some(Geometry { slots, slot_bytes }),
        (None, None) => None,
        _ => return Err("--slots and --size go together".into()),
    };
    check(parsed)
}

fn number<T: std::str::FromStr>(option: &str, value: Option<OsString>) -> Result<T, String> {
    let value = value.ok_or_else(|| format!("{option} needs a number"))?;
    let text = value.to_string_lossy();
    text.parse()
        .map_err(|_| format!("{option}: {text} is no number in its range"))
}

fn check(args: Args) -> Result<Args, String> {
    match args.images.len() {
        _ if args.help => Ok(args),
        0 => Err("no image".into()),
        1 => Ok(args),
        2 if args.key.is_some() || args.html.is_some() => {
            Err("--key and --html are for one image".into())
        }
        2 => Ok(args),
        _ => Err("more than two images".into()),
    }
}
