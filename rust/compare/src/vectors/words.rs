//! The words of one line: numbers, bytes and marks, each taken under the name of its field.

use std::iter::Peekable;
use std::str::SplitAsciiWhitespace;

use super::difference::Difference;
use super::level::{Level, Part};

/// A part of a line, or why it is none.
pub type Parsed<T> = Result<T, Difference>;

/// The longest buffer, in bytes or cells, that a line may ask for. Calls are lent at most 65,536 by their limits; this
/// leaves room for lengths that must be refused, and bounds the memory that a file can ask for.
pub const LONGEST: u64 = 1 << 24;

/// The words of a line that are not taken yet.
pub struct Words<'a> {
    words: Peekable<SplitAsciiWhitespace<'a>>,
    level: Level,
}

impl<'a> Words<'a> {
    /// The words of a line.
    pub fn new(level: Level, line: &'a str) -> Words<'a> {
        Words {
            words: line.split_ascii_whitespace().peekable(),
            level,
        }
    }

    /// The level of the file.
    pub fn level(&self) -> Level {
        self.level
    }

    /// Whether the level has a part.
    pub fn has(&self, part: Part) -> bool {
        self.level.has(part)
    }

    /// The next word.
    pub fn word(&mut self, field: &str) -> Parsed<&'a str> {
        self.words
            .next()
            .ok_or_else(|| Difference::new(field, "a word", "the end of the line"))
    }

    /// A word that must stand here.
    pub fn mark(&mut self, field: &str, mark: &str) -> Parsed<()> {
        let found = self.word(field)?;
        if found == mark {
            return Ok(());
        }
        Err(Difference::new(field, format!("`{mark}`"), quoted(found)))
    }

    /// Takes the next word if it is this one.
    pub fn takes(&mut self, mark: &str) -> bool {
        self.words.next_if_eq(&mark).is_some()
    }

    /// Fails if a word is left.
    pub fn end(&mut self) -> Parsed<()> {
        match self.words.next() {
            None => Ok(()),
            Some(word) => Err(Difference::new(
                "surplus field",
                "the end of the line",
                quoted(word),
            )),
        }
    }

    /// A decimal number within limits.
    pub fn within(&mut self, field: &str, least: u64, most: u64) -> Parsed<u64> {
        let word = self.word(field)?;
        let digits = word.bytes().all(|byte| byte.is_ascii_digit());
        match word.parse().ok().filter(|_| digits) {
            Some(number) if (least..=most).contains(&number) => Ok(number),
            _ => {
                let expected = format!("a number from {least} to {most}");
                Err(Difference::new(field, expected, quoted(word)))
            }
        }
    }

    /// A number of 16 bits.
    pub fn u16(&mut self, field: &str) -> Parsed<u16> {
        self.within(field, 0, u16::MAX.into())
            .map(|number| number as u16)
    }

    /// A number of 32 bits.
    pub fn u32(&mut self, field: &str) -> Parsed<u32> {
        self.within(field, 0, u32::MAX.into())
            .map(|number| number as u32)
    }

    /// A version, of as many bits as the level has.
    pub fn version(&mut self, field: &str) -> Parsed<u64> {
        self.within(field, 0, self.level.last_version())
    }

    /// A length of a buffer.
    pub fn length(&mut self, field: &str) -> Parsed<usize> {
        self.within(field, 0, LONGEST).map(|length| length as usize)
    }

    /// Bytes in lower-case hexadecimal; `-` is no bytes.
    pub fn bytes(&mut self, field: &str) -> Parsed<Vec<u8>> {
        let word = self.word(field)?;
        if word == "-" {
            return Ok(Vec::new());
        }
        let pairs = word.as_bytes().chunks(2);
        let bytes: Option<Vec<u8>> = pairs.map(pair_of_digits).collect();
        bytes.ok_or_else(|| {
            let expected = "bytes in lower-case hexadecimal, or `-`";
            Difference::new(field, expected, quoted(word))
        })
    }

    /// The FNV-1a of a buffer: 16 hexadecimal digits.
    pub fn fnv(&mut self, field: &str) -> Parsed<u64> {
        let word = self.word(field)?;
        let digits = word.len() == 16 && word.bytes().all(|byte| digit(byte).is_some());
        let number = u64::from_str_radix(word, 16).ok().filter(|_| digits);
        number.ok_or_else(|| {
            let expected = "16 digits of lower-case hexadecimal";
            Difference::new(field, expected, quoted(word))
        })
    }

    /// What follows the arrow: a refusal, or an answer of the event's own, up to the end of the line.
    pub fn answer<T>(
        &mut self,
        accepted: impl FnOnce(&mut Words<'a>) -> Parsed<T>,
    ) -> Parsed<Result<T, u32>> {
        self.mark("arrow", "->")?;
        let answer = if self.takes("refused") {
            let last = self.level.last_refusal().into();
            Err(self.within("refusal", 1, last)? as u32)
        } else {
            Ok(accepted(self)?)
        };
        self.end()?;
        Ok(answer)
    }
}

/// A word as a report shows it; long ones are cut.
fn quoted(word: &str) -> String {
    match word.char_indices().nth(40) {
        None => format!("`{word}`"),
        Some((end, _)) => format!("`{}...`", &word[..end]),
    }
}

fn digit(byte: u8) -> Option<u8> {
    match byte {
        b'0'..=b'9' => Some(byte - b'0'),
        b'a'..=b'f' => Some(byte - b'a' + 10),
        _ => None,
    }
}

fn pair_of_digits(pair: &[u8]) -> Option<u8> {
    match pair {
        [high, low] => Some(digit(*high)? << 4 | digit(*low)?),
        _ => None,
    }
}
