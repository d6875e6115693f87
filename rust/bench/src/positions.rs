//! Conversions of head positions: their times, and all 2^32 patterns beside the machine's own float.

use std::hint::black_box;

use reference::testing::floats::{walk, WHOLE};

use crate::report::{Call, Keys, Report};
use crate::timing::compare;

/// The cases.
pub fn cases(report: &mut Report) {
    for (case, first) in [
        ("accepted", 1_234_567.0f32.to_le_bytes()),
        ("refused", 0.5f32.to_le_bytes()),
    ] {
        let value = [first, [1, 2, 3, 4]].concat();
        let timing = compare(
            &mut (),
            |()| {
                let _ = black_box(kurdavel::from_float(black_box(&value)));
            },
            |()| {
                let _ = black_box(reference::from_float(black_box(&value)));
            },
        );
        let case = format!("position from float, {case}");
        report.call(Call::Position, Keys::Plain, &case, timing);
    }
    for (case, count) in [("accepted", 1_234_567u32), ("refused", 16_777_217)] {
        let value = [count.to_le_bytes(), [1, 2, 3, 4]].concat();
        let timing = compare(
            &mut (),
            |()| {
                let _ = black_box(kurdavel::to_float(black_box(&value)));
            },
            |()| {
                let _ = black_box(reference::to_float(black_box(&value)));
            },
        );
        let case = format!("position to float, {case}");
        report.call(Call::Position, Keys::Plain, &case, timing);
    }
}

/// Every pattern of 32 bits, as a float and as a count. Panics at the first that is not as the machine's float has it.
pub fn all_patterns() {
    let tally = walk(
        1,
        |value| kurdavel::from_float(value).map_err(kurdavel::Refusal::number),
        |value| kurdavel::to_float(value).map_err(kurdavel::Refusal::number),
    );
    assert_eq!(tally, WHOLE);
    println!(
        "{} patterns as the machine's float has them: {} accepted as floats, {} as counts",
        tally.tried, tally.floats, tally.counts
    );
}
