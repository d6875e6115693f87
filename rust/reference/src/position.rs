//! Head positions as floats and as whole counts (02, R-10), by the machine's own float.

use crate::refusal::Refusal;

/// The highest position in counts.
pub const HIGHEST: u32 = 67_108_864;

/// A value of eight bytes that begins with a position as a float, with the position as a count. Refuses
/// with 7 another length and with 26 what is no whole count from 0 to [`HIGHEST`], negative zero among it.
pub fn from_float(value: &[u8]) -> Result<[u8; 8], Refusal> {
    let (position, free) = parts(value)?;
    let position = f32::from_le_bytes(position);
    // A NaN is in no range.
    let within = (0.0..=HIGHEST as f32).contains(&position) && position.is_sign_positive();
    if !within || position.fract() != 0.0 {
        return Err(Refusal::Float);
    }
    Ok(joined((position as u32).to_le_bytes(), free))
}

/// The way back. Refuses with 7 another length, and with 27 a count above [`HIGHEST`] or one that a float
/// does not hold.
pub fn to_float(value: &[u8]) -> Result<[u8; 8], Refusal> {
    let (count, free) = parts(value)?;
    let count = u32::from_le_bytes(count);
    let position = count as f32;
    if count > HIGHEST || position as u32 != count {
        return Err(Refusal::Count);
    }
    Ok(joined(position.to_le_bytes(), free))
}

/// The first four bytes and the free ones.
#[inline]
fn parts(value: &[u8]) -> Result<([u8; 4], [u8; 4]), Refusal> {
    match *value {
        [a, b, c, d, e, f, g, h] => Ok(([a, b, c, d], [e, f, g, h])),
        _ => Err(Refusal::ValueLength),
    }
}

#[inline]
fn joined([a, b, c, d]: [u8; 4], [e, f, g, h]: [u8; 4]) -> [u8; 8] {
    [a, b, c, d, e, f, g, h]
}
