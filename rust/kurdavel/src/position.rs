//! Head positions as floats and as whole counts.

use crate::refusal::Refusal;
use crate::slices;

/// The value of an old head record, whose first four bytes are the position as a 32-bit float, as that of a new one, which
/// has the same position there as a whole number. The other four bytes are kept. Nothing is rounded: what is not a whole
/// number from 0 to 67,108,864 with a clear sign bit is refused.
///
/// ```
/// use kurdavel::{from_float, to_float, Refusal};
/// let value = |position: [u8; 4]| [position, [0xde, 0xad, 0xbe, 0xef]].concat();
/// let old = value(1000.0f32.to_le_bytes());
/// let new = from_float(&old)?;
/// assert_eq!(new[..], value(1000u32.to_le_bytes()));
/// assert_eq!(to_float(&new)?[..], old);
///
/// for position in [-0.0, 0.5, f32::INFINITY] {
///     assert_eq!(from_float(&value(position.to_le_bytes())), Err(Refusal::BadFloat));
/// }
/// assert_eq!(from_float(&[0; 24]), Err(Refusal::ValueLength));
/// # Ok::<(), Refusal>(())
/// ```
#[inline]
pub fn from_float(value: &[u8]) -> Result<[u8; 8], Refusal> {
    let mut converted = [0; 8];
    let answer = slices::from_float(value, &mut converted);
    Refusal::unless_accepted(answer).map(|()| converted)
}

/// The way back. A count that no float holds, or that is above 67,108,864, is refused.
///
/// ```
/// use kurdavel::{to_float, Refusal};
/// let value = |count: u32| [count.to_le_bytes(), [0; 4]].concat();
/// assert_eq!(to_float(&value(16_777_217)), Err(Refusal::BadCount));
/// assert_eq!(to_float(&value(16_777_218))?[..4], 16_777_218.0f32.to_le_bytes());
/// # Ok::<(), Refusal>(())
/// ```
#[inline]
pub fn to_float(value: &[u8]) -> Result<[u8; 8], Refusal> {
    let mut converted = [0; 8];
    let answer = slices::to_float(value, &mut converted);
    Refusal::unless_accepted(answer).map(|()| converted)
}
