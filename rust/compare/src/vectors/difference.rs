//! What is wrong: a field, what it should be and what it is.

use std::fmt;

/// A field that is not as it should be: of a line that does not keep to the format, or of an answer.
#[derive(Clone, PartialEq, Eq, Debug)]
pub struct Difference {
    /// The field.
    pub field: String,
    /// What it should be.
    pub expected: String,
    /// What it is.
    pub found: String,
}

impl Difference {
    /// A difference in a field.
    pub fn new(
        field: impl Into<String>,
        expected: impl fmt::Display,
        found: impl fmt::Display,
    ) -> Difference {
        Difference {
            field: field.into(),
            expected: expected.to_string(),
            found: found.to_string(),
        }
    }
}

impl fmt::Display for Difference {
    fn fmt(&self, out: &mut fmt::Formatter<'_>) -> fmt::Result {
        let Difference {
            field,
            expected,
            found,
        } = self;
        write!(out, "{field}: expected {expected}, found {found}")
    }
}

/// Fails unless a field is as it should be.
pub fn same<T: PartialEq + fmt::Display>(
    field: &str,
    expected: T,
    found: T,
) -> Result<(), Difference> {
    if expected == found {
        Ok(())
    } else {
        Err(Difference::new(field, expected, found))
    }
}

/// Fails unless two buffers are equal; names the first element that differs.
pub fn same_buffer<T: PartialEq + fmt::Display>(
    buffer: &str,
    expected: &[T],
    found: &[T],
) -> Result<(), Difference> {
    same(
        &format!("length of the {buffer}"),
        expected.len(),
        found.len(),
    )?;
    match expected.iter().zip(found).position(|(a, b)| a != b) {
        None => Ok(()),
        Some(place) => Err(Difference::new(
            format!("{buffer} at {place}"),
            &expected[place],
            &found[place],
        )),
    }
}
