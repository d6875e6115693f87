//! Float positions and whole counts (02, R-10), held to the meaning of the 32-bit float's bits.

use reference::testing::floats::walk;
use reference::{from_float, to_float, Refusal};

const FREE: [u8; 4] = [0xDE, 0xAD, 0x00, 0xFF];

fn value(position: u32) -> Vec<u8> {
    [position.to_le_bytes(), FREE].concat()
}

fn converted(answer: Result<[u8; 8], Refusal>) -> Result<u32, u32> {
    let bytes = answer.map_err(Refusal::number)?;
    assert_eq!(bytes[4..], FREE, "the free bytes are kept");
    Ok(u32::from_le_bytes([bytes[0], bytes[1], bytes[2], bytes[3]]))
}

/// What the bits of a float say: a sign, an exponent of eight bits and a fraction of 23. The number is 2^(e - 127) times
/// 1 and the fraction, or for e 0 the fraction times 2^-126; e 255 is no number.
fn count_of_bits(bits: u32) -> Option<u32> {
    let (sign, exponent, fraction) = (bits >> 31, bits >> 23 & 255, bits & 0x7F_FFFF);
    if sign == 1 || exponent == 255 {
        return None;
    }
    // In units of 2^-149 the number is `units` shifted left by so much.
    let (units, shift) = match exponent {
        0 => (u64::from(fraction), 0),
        _ => (u64::from(fraction) + (1 << 23), exponent - 1),
    };
    if units == 0 {
        return Some(0);
    }
    // A count is whole: it has no bit below 2^149 units.
    let below = 149u32.saturating_sub(shift);
    if below > units.trailing_zeros() {
        return None;
    }
    let above = shift.saturating_sub(149);
    let count = (units >> below).checked_shl(above).filter(|_| above < 20)?;
    (count <= 67_108_864).then_some(count as u32)
}

fn check_bits(bits: u32) -> bool {
    let told = converted(from_float(&value(bits)));
    assert_eq!(told, count_of_bits(bits).ok_or(26), "{bits:08x}");
    if let Ok(count) = told {
        assert_eq!(converted(to_float(&value(count))), Ok(bits));
    }
    told.is_ok()
}

/// Named numbers, both ways.
#[test]
fn worked_values() {
    let float = |number: f32| converted(from_float(&value(number.to_bits())));
    let counts = [
        0, 1, 2, 1000, 16_777_215, 16_777_216, 16_777_218, 33_554_432, 33_554_436, 67_108_860,
        67_108_864,
    ];
    for count in counts {
        assert_eq!(float(count as f32), Ok(count));
        let bits = (count as f32).to_bits();
        assert_eq!(converted(to_float(&value(count))), Ok(bits));
    }
    for number in [
        -0.0,
        -1.0,
        0.5,
        1.5,
        1e-40,
        8_388_607.5,
        67_108_872.0,
        1e10,
        f32::MAX,
        f32::INFINITY,
        f32::NEG_INFINITY,
        f32::NAN,
        -f32::NAN,
        f32::MIN_POSITIVE,
    ] {
        assert_eq!(float(number), Err(26), "{number}");
    }
    for count in [
        16_777_217,
        16_777_219,
        33_554_434,
        33_554_435,
        33_554_433,
        67_108_862,
        67_108_863,
        67_108_865,
        67_108_866,
        67_108_868,
        1 << 27,
        u32::MAX,
    ] {
        assert_eq!(converted(to_float(&value(count))), Err(27), "{count}");
    }
}

/// Beside the machine's float, written once more.
#[test]
fn beside_the_machine() {
    let tally = walk(
        127,
        |value| from_float(value).map_err(Refusal::number),
        |value| to_float(value).map_err(Refusal::number),
    );
    assert!(
        tally.floats > 200_000 && tally.counts > 200_000,
        "{tally:?}"
    );
}

/// The length is tested before the number: any but 8 is 7, also that of another kind.
#[test]
fn lengths() {
    for bytes in (0..=140).filter(|&bytes| bytes != 8) {
        let value = vec![0xFF; bytes];
        assert_eq!(from_float(&value), Err(Refusal::ValueLength));
        assert_eq!(to_float(&value), Err(Refusal::ValueLength));
    }
}

/// Patterns all over, and all near where the answer changes.
#[test]
fn patterns() {
    let mut accepted = 0u32;
    for step in 0..(1u32 << 24) {
        accepted += u32::from(check_bits(step.wrapping_mul(257)));
    }
    // 2^25 + 1 of 2^32 patterns are accepted, and of these some every 128th.
    assert!((120_000..140_000).contains(&accepted), "{accepted}");
    for exponent in 0..512u32 {
        for fraction in (0..40)
            .chain(0x3F_FFF0..0x40_0010)
            .chain(0x7F_FFD8..0x80_0000)
        {
            check_bits(exponent << 23 | fraction);
        }
    }
}

/// Counts all over, and all near where the answer changes: a count is converted exactly if a float holds it, which is
/// where what stands above its highest 24 bits is 0.
#[test]
fn counts() {
    let check = |count: u32| {
        let bits = 32 - count.leading_zeros();
        let holds = count.trailing_zeros() + 24 >= bits;
        let told = converted(to_float(&value(count)));
        match told {
            Ok(bits) => {
                assert!(holds && count <= 67_108_864, "{count}");
                assert_eq!(count_of_bits(bits), Some(count));
                assert_eq!(converted(from_float(&value(bits))), Ok(count));
            }
            Err(refusal) => {
                assert_eq!(refusal, 27);
                assert!(!holds || count > 67_108_864, "{count}");
            }
        }
    };
    (0..1 << 17).for_each(check);
    (0..1 << 20).map(|step: u32| step * 65).for_each(check);
    (0..1 << 16).map(|step: u32| step * 65_537).for_each(check);
    for power in 20..32 {
        let near = 1u32 << power;
        (near - 300..near + 300).for_each(check);
    }
}
