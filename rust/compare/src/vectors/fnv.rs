//! 64-bit FNV-1a, by which the vectors name the bytes of a buffer.

const OFFSET_BASIS: u64 = 14_695_981_039_346_656_037;
const PRIME: u64 = 1_099_511_628_211;

/// FNV-1a of a buffer.
///
/// ```
/// assert_eq!(compare::vectors::fnv::fnv1a(b"a"), 0xaf63_dc4c_8601_ec8c);
/// ```
pub fn fnv1a(bytes: &[u8]) -> u64 {
    bytes.iter().fold(OFFSET_BASIS, |state, &byte| {
        (state ^ u64::from(byte)).wrapping_mul(PRIME)
    })
}
