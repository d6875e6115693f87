//! Whole, damaged and random images: the verdict is recovery's, its cause is where it is told to be, the present entries
//! are those that `dump` prints, and nothing panics.

use inspect::between::{differences, explanations};
use inspect::entries::Reason;
use inspect::history::history;
use inspect::image::{Geometry, Image};
use inspect::report::Report;
use inspect::{json, page, text};
use reference::edition::{FIRST, SECOND};
use reference::layout::CELLS;
use reference::rng::Rng;
use reference::testing::images::{Image as Made, Shape};
use reference::{dump, recover, Edition, Refusal};

fn image(made: Made) -> Image {
    let geometry = Geometry {
        slots: made.slots,
        slot_bytes: made.slot_bytes,
    };
    Image::new(geometry, made.area).expect("the generators keep the limits")
}

/// Looks at an image in every view. Gives 0 or the number of the refusal.
fn look(image: &Image, rng: &mut Rng) -> u32 {
    let report = Report::of(image);
    let order = rng.order(image.slots);
    let mut index = vec![0; *CELLS.end() as usize];
    let answer = recover(
        image.slots,
        image.slot_bytes,
        &image.area,
        &mut index,
        &order,
    );
    let told = report.verdict.as_ref();
    assert_eq!(
        told.map(|told| told.record).map_err(|told| told.refusal),
        answer
    );
    if let Err(refused) = told {
        check_cause(image, refused.refusal, &report);
    }
    check_present(image, &report);
    let key = rng.pick(&[0, 1, 2]);
    let key = reference::Key {
        table: *key,
        key: rng.below(5),
    };
    let history = history(image, &report, key);
    let views = [
        text::report(&report),
        text::history(&history),
        json::report(image.geometry(), &report).to_string(),
        page::page("image", image, &report),
    ];
    assert!(views.iter().all(|view| !view.is_empty()));
    answer.map_or_else(Refusal::number, |_| 0)
}

/// Compares two images: the differences make the one into the other.
fn look_at_both(before: &Image, after: &Image) {
    let runs = differences(before, after);
    let mut area = before.area.clone();
    for run in &runs {
        let at = before.at(run.place);
        assert_eq!(area[at..at + run.before.len()], run.before);
        area[at..at + run.after.len()].copy_from_slice(&run.after);
    }
    assert_eq!(area, after.area);
    let (old, new) = (Report::of(before), Report::of(after));
    let recovered = old.verdict.as_ref().ok();
    let found = recovered.map(|recovered| explanations(before, recovered, after));
    let told = json::comparison(before.geometry(), &old, &new, &runs, found.as_deref());
    let views = [told.to_string(), text::comparison(&runs, found.as_deref())];
    assert!(views.iter().all(|view| !view.is_empty()));
}

/// The bytes that are told stand where they are told to.
fn check_cause(image: &Image, refusal: Refusal, report: &Report) {
    let cause = &report.verdict.as_ref().expect_err("refused").cause;
    assert!(!cause.spots.is_empty(), "{refusal:?}");
    for spot in &cause.spots {
        let at = image.at(spot.place);
        assert_eq!(spot.bytes, image.area[at..at + spot.bytes.len()]);
    }
    match refusal {
        Refusal::NoDigest => {
            let is_digest = |kind: u8| kind == FIRST.digest || kind == SECOND.digest;
            assert!(cause.spots.iter().all(|spot| !is_digest(spot.bytes[0])));
        }
        Refusal::Editions => {
            assert!(cause.log.is_none());
            assert_ne!(cause.spots[0].bytes, cause.spots[1].bytes);
        }
        Refusal::VersionShared => assert_eq!(cause.spots[0].bytes[7..], cause.spots[1].bytes[7..]),
        Refusal::Entry | Refusal::TooManyKeys => assert!(cause.log.is_some()),
        _ => assert!(cause.log.is_none(), "{refusal:?}"),
    }
}

/// The entries called present are the lines that `dump` prints.
fn check_present(image: &Image, report: &Report) {
    let mut input = vec![image.slots as u8];
    input.extend((image.slot_bytes as u16).to_le_bytes());
    input.extend(&image.area);
    let mut present: Vec<(u16, u32, u64, u8)> = report
        .entries
        .iter()
        .filter(|entry| entry.reason == Reason::Present)
        .map(|entry| {
            let fields = entry.fields;
            (
                fields.key.table,
                fields.key.key,
                fields.version.0,
                fields.kind,
            )
        })
        .collect();
    present.sort_unstable();
    let Ok(recovered) = &report.verdict else {
        return;
    };
    let mut lines = format!(
        "next {} digest {} keys {}\n",
        recovered.record.next.0,
        recovered.record.digest.0,
        present.len()
    );
    for (table, key, version, kind) in present {
        lines += &format!("{table} {key} {version} {kind}\n");
    }
    assert_eq!(dump(&input), lines);
}

/// A shape of either edition.
fn any_shape(rng: &mut Rng) -> Shape {
    let edition = *rng.pick(&Edition::ALL);
    Shape::random(rng, edition)
}

#[test]
fn whole_images() {
    let mut rng = Rng::new(1);
    let made = (0..120).map(|_| look(&image(any_shape(&mut rng).make(&mut rng)), &mut Rng::new(1)));
    let accepted = made.filter(|&number| number == 0).count();
    assert!(accepted > 60, "{accepted}");
}

#[test]
fn damaged_images() {
    let mut rng = Rng::new(5);
    let mut met = [0; 64];
    for _ in 0..300 {
        let mut made = any_shape(&mut rng).make(&mut rng);
        let whole = made.area.clone();
        for _ in 0..rng.within(1, 6) {
            made.damage(&mut rng);
        }
        if rng.one_in(8) {
            let slot = rng.below(made.slots) * made.slot_bytes;
            made.area[slot as usize] = *rng.pick(&[FIRST.digest, SECOND.digest]);
        }
        let damaged = image(made);
        met[look(&damaged, &mut rng) as usize] += 1;
        let whole = Image::new(damaged.geometry(), whole).unwrap();
        look_at_both(&whole, &damaged);
        look_at_both(&damaged, &whole);
    }
    println!("{met:?}");
    for number in [0, 17, 18, 19, 28] {
        assert!(met[number] > 0, "{met:?}");
    }
}

/// Bytes of few kinds only, so that much looks like entries and digests.
#[test]
fn random_bytes() {
    let mut rng = Rng::new(3);
    for _ in 0..300 {
        let (slots, slot_bytes) = (rng.within(4, 32), rng.within(256, 600));
        let mut area = vec![0; (slots * slot_bytes) as usize];
        let kinds = rng.within(2, 15);
        for byte in &mut area {
            *byte = rng.below(kinds) as u8;
        }
        let geometry = Geometry { slots, slot_bytes };
        look(&Image::new(geometry, area).unwrap(), &mut rng);
    }
}

/// Logs with more keys than the largest index takes.
#[test]
fn too_many_keys() {
    let mut rng = Rng::new(4);
    let mut met = [0; 64];
    for round in 0..6 {
        let mut made = Shape {
            slots: 32,
            slot_bytes: 2048,
            layout: &FIRST,
            older_slots: false,
            keys: 200_000,
            versions: reference::testing::images::Versions::InARow,
            values: vec![0, 0, 0, 8],
            full: true,
        }
        .make(&mut rng);
        if round % 2 == 1 {
            made.share_a_version(&mut rng);
        }
        met[look(&image(made), &mut rng) as usize] += 1;
    }
    assert!(met[20] > 0, "{met:?}");
}
