//! The conversions of head positions (02, R-10) beside the machine's own float and the reference. `bench floats` walks over all
//! 2^32 patterns; here are some of them, and all near where an answer changes.

use compare::guarded::Guarded;
use kurdavel::{slices, Refusal};
use reference::rng::Rng;
use reference::testing::floats::{walk, Answer};

fn from_float(value: &[u8; 8]) -> Answer {
    kurdavel::from_float(value).map_err(Refusal::number)
}

fn to_float(value: &[u8; 8]) -> Answer {
    kurdavel::to_float(value).map_err(Refusal::number)
}

#[test]
fn beside_the_machine() {
    let tally = walk(61, from_float, to_float);
    println!("{tally:?}");
    assert!(tally.tried > 70_000_000 && tally.floats > 500_000 && tally.counts > 500_000);
}

/// One value through both conversions of both, the eight bytes among memory that stays.
fn same(value: &[u8]) {
    let lent = Guarded::new(value, 5);
    for (proved, owed) in [
        (
            slices::from_float as fn(&[u8], &mut [u8; 8]) -> u32,
            reference::from_float(value),
        ),
        (slices::to_float, reference::to_float(value)),
    ] {
        let mut converted = [0x77; 8];
        let answer = proved(&lent, &mut converted);
        let told = (answer, converted);
        let owed = owed.map_or_else(|refusal| (refusal.number(), [0; 8]), |bytes| (0, bytes));
        assert_eq!(told, owed, "{value:02x?}");
    }
    assert!(lent[..] == *value && lent.is_intact());
}

#[test]
fn near_the_limits() {
    for exponent in 0..512u32 {
        for fraction in (0..70)
            .chain(0x3F_FFE0..0x40_0020)
            .chain(0x7F_FFC0..0x80_0000)
        {
            let bits = exponent << 23 | fraction;
            same(&[bits.to_le_bytes(), fraction.to_be_bytes()].concat());
        }
    }
    for power in 16..32 {
        for count in (1u32 << power) - 1000..(1 << power) + 1000 {
            same(&[count.to_le_bytes(), [power, 2, 3, 4]].concat());
        }
    }
}

/// Values of every length near the lengths of values, and of random bytes.
#[test]
fn lengths_and_random_values() {
    let mut rng = Rng::new(61);
    for length in 0..=140 {
        for _ in 0..50 {
            let mut value = vec![0; length];
            rng.fill(&mut value);
            same(&value);
        }
    }
    for _ in 0..200_000 {
        let mut value = [0; 8];
        rng.fill(&mut value);
        let bits = match rng.below(3) {
            0 => (rng.below(1 << 27) as f32).to_bits(),
            1 => rng.below(1 << 27),
            _ => rng.bits() as u32,
        };
        value[..4].copy_from_slice(&bits.to_le_bytes());
        same(&value);
    }
}
