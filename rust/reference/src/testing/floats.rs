//! The conversions of head positions over the patterns of 32 bits, beside the machine's own float.

/// A conversion: eight bytes, or the number of a refusal.
pub type Answer = Result<[u8; 8], u32>;

/// How many patterns were tried, and how many of them each conversion accepted.
#[derive(Clone, Copy, PartialEq, Eq, Debug, Default)]
pub struct Tally {
    /// Patterns.
    pub tried: u64,
    /// As floats.
    pub floats: u64,
    /// As counts.
    pub counts: u64,
}

/// The tally of all 2^32 patterns: a float holds every count up to 2^24, every second one up to 2^25, and every fourth up
/// to 2^26.
pub const WHOLE: Tally = Tally {
    tried: 1 << 32,
    floats: (1 << 24) + 1 + (1 << 23) + (1 << 23),
    counts: (1 << 24) + 1 + (1 << 23) + (1 << 23),
};

const HIGHEST: f32 = 67_108_864.0;

/// The count that the machine's float has, if it is whole, not negative and not above the highest.
fn machine_count(bits: u32) -> Option<u32> {
    let position = f32::from_bits(bits);
    let whole = position.is_finite() && position.trunc() == position;
    let within = !position.is_sign_negative() && position <= HIGHEST;
    (whole && within).then_some(position as u32)
}

/// The bits of the machine's float that has this count, if there is one.
fn machine_bits(count: u32) -> Option<u32> {
    let position = count as f32;
    let held = f64::from(position) == f64::from(count) && position <= HIGHEST;
    held.then_some(position.to_bits())
}

fn value(first: u32, free: u32) -> [u8; 8] {
    (u64::from(free) << 32 | u64::from(first)).to_le_bytes()
}

/// Tries every pattern that is a multiple of the stride, as a float and as a count, beside the machine's own float; what is
/// accepted is taken back. Panics at the first difference.
pub fn walk(
    stride: u32,
    from_float: impl Fn(&[u8; 8]) -> Answer,
    to_float: impl Fn(&[u8; 8]) -> Answer,
) -> Tally {
    let mut tally = Tally::default();
    for bits in (0..=u32::MAX).step_by(stride as usize) {
        let free = bits.rotate_left(7) ^ 0x5A5A_A5A5;
        let given = value(bits, free);
        let owed = machine_count(bits).map(|count| value(count, free));
        let told = from_float(&given);
        assert_eq!(told, owed.ok_or(26), "{bits:08x} from float");
        if let Ok(count) = told {
            assert_eq!(to_float(&count), Ok(given), "{bits:08x} taken back");
            tally.floats += 1;
        }
        let owed = machine_bits(bits).map(|float| value(float, free));
        let told = to_float(&given);
        assert_eq!(told, owed.ok_or(27), "{bits} to float");
        if let Ok(float) = told {
            assert_eq!(from_float(&float), Ok(given), "{bits} taken back");
            tally.counts += 1;
        }
        tally.tried += 1;
    }
    tally
}
