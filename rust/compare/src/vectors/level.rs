//! Levels: which requests of 02 a file of vectors has, and so which words its lines have.

use std::path::Path;

/// Level NN is 01 with the requests R-1 to R-NN; level 0 is the base.
#[derive(Clone, Copy, PartialEq, Eq, Debug)]
pub struct Level(u32);

/// A part of the format that the base does not have.
#[derive(Clone, Copy, PartialEq, Eq, Debug)]
pub enum Part {
    /// The expected version of a write.
    Expected,
    /// The first and last table of a read, write or delete.
    Range,
    /// Objects of kind 7.
    Kind7,
    /// The present bytes of each slot, in the record and in `with count`; the event `fewest`.
    PresentBytes,
    /// The event `join`.
    Join,
    /// The event `scan_read`.
    ScanRead,
    /// The events `from_float` and `to_float`.
    Floats,
    /// The edition, in the record, in `with edition` and as an argument of format; wide versions.
    Edition,
    /// The events `convert` and `convert_area`, and `with target`.
    Convert,
    /// Whether the store is switched, in the record; the event `switch`.
    Switch,
}

impl Part {
    /// The first level that has it.
    pub const fn since(self) -> u32 {
        match self {
            Part::Expected => 1,
            Part::Range => 2,
            Part::Kind7 => 3,
            Part::PresentBytes => 5,
            Part::Join => 7,
            Part::ScanRead => 9,
            Part::Floats => 10,
            Part::Edition => 11,
            Part::Convert => 12,
            Part::Switch => 13,
        }
    }
}

/// The highest refusal of each level.
const LAST_REFUSAL: [u32; 14] = [20, 21, 22, 22, 22, 22, 22, 23, 25, 25, 27, 28, 30, 30];

impl Level {
    /// The highest level there is.
    pub const LAST: u32 = LAST_REFUSAL.len() as u32 - 1;

    /// The level with this number, if there is one.
    pub fn new(number: u32) -> Option<Level> {
        (number <= Level::LAST).then_some(Level(number))
    }

    /// The level that a file's name tells: `level-NN.txt`.
    ///
    /// ```
    /// use compare::vectors::level::Level;
    /// assert_eq!(Level::of_file("some/where/level-05.txt".as_ref()), Level::new(5));
    /// assert_eq!(Level::of_file("level-5.txt".as_ref()), None);
    /// ```
    pub fn of_file(path: &Path) -> Option<Level> {
        let name = path.file_name()?.to_str()?;
        let digits = name.strip_prefix("level-")?.strip_suffix(".txt")?;
        let two = digits.len() == 2 && digits.bytes().all(|byte| byte.is_ascii_digit());
        Level::new(digits.parse().ok().filter(|_| two)?)
    }

    /// Its number.
    pub const fn number(self) -> u32 {
        self.0
    }

    /// Whether it has a part.
    pub const fn has(self, part: Part) -> bool {
        self.0 >= part.since()
    }

    /// The highest number that a call is refused with.
    pub fn last_refusal(self) -> u32 {
        LAST_REFUSAL[self.0 as usize]
    }

    /// The highest version field: 32 bits, and 64 once there are two editions.
    pub const fn last_version(self) -> u64 {
        if self.has(Part::Edition) {
            u64::MAX
        } else {
            u32::MAX as u64
        }
    }

    /// How many value bytes an object of this kind has; none if the level has no such kind.
    pub const fn value_bytes(self, kind: u32) -> Option<usize> {
        match kind {
            1 => Some(8),
            2 => Some(24),
            3 => Some(56),
            7 if self.has(Part::Kind7) => Some(120),
            9..=12 if self.has(Part::Edition) => Some([8, 24, 56, 120][kind as usize - 9]),
            _ => None,
        }
    }
}
