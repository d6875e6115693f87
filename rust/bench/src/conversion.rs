//! Conversions of a whole area, up and down: as many 8-byte objects as fill the slots of the second edition.

use std::hint::black_box;

use reference::edition::{Layout, FIRST, SECOND};

use crate::image::{lay_out_of, objects, SLOT_BYTES};
use crate::report::{Call, Keys, Report};
use crate::store::SLOTS;
use crate::timing::compare;

/// The longest log of either edition that has room in the other.
fn area(layout: &Layout) -> Vec<u8> {
    lay_out_of(layout, SLOTS, |at| {
        (at.within < objects(&SECOND)).then(|| at.object(at.count % 2000))
    })
}

/// The cases.
pub fn cases(report: &mut Report) {
    for (case, layout) in [
        ("conversion up, 8-byte objects", &FIRST),
        ("conversion down, 8-byte objects", &SECOND),
    ] {
        let source = area(layout);
        let (n, s) = (SLOTS as u32, SLOT_BYTES as u32);
        let mut target = vec![0; source.len()];
        let accepted = kurdavel::convert(n, s, &source, &mut target);
        accepted.expect("the other edition has room");
        let timing = compare(
            &mut target,
            |target| {
                let _ = black_box(kurdavel::convert(n, s, &source, target));
            },
            |target| {
                let _ = black_box(reference::convert(n, s, &source, target));
            },
        );
        report.call(Call::Conversion, Keys::Plain, case, timing);
    }
}
