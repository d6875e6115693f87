//! 32-bit FNV-1a, with which the index search begins (01, "Index").

/// The state before the first byte.
pub const OFFSET_BASIS: u32 = 2_166_136_261;
/// The factor applied after each byte.
pub const PRIME: u32 = 16_777_619;

/// The product reduced modulo 2^32.
#[inline]
fn times(state: u32, factor: u32) -> u32 {
    state.wrapping_mul(factor)
}

/// FNV-1a of a string of bytes.
#[inline]
pub fn fnv1a(bytes: &[u8]) -> u32 {
    bytes.iter().fold(OFFSET_BASIS, |state, &byte| {
        times(state ^ u32::from(byte), PRIME)
    })
}
