//! Small images by hand: where each refusal's cause is told to be, each reason of an entry, and a write that was cut.

use inspect::entries::Reason;
use inspect::image::{Geometry, Image, Place};
use inspect::plans::Operation;
use inspect::report::Report;
use reference::edition::{Layout, FIRST, SECOND};
use reference::segment::Digest;
use reference::{DigestNumber, Key, SlotMap, Version};

const KEY: Key = Key { table: 7, key: 9 };

/// Four slots of 256 bytes, those of the map with digests numbered from 1, the highest one the head.
fn store(map: u32) -> Vec<u8> {
    store_of(&FIRST, map)
}

fn store_of(layout: &'static Layout, map: u32) -> Vec<u8> {
    let mut area = vec![0; 1024];
    for (number, slot) in (1..).zip(SlotMap(map).slots()) {
        let digest = Digest {
            layout,
            number: DigestNumber(number),
            map: SlotMap(map),
            next: Version(1),
        };
        let start = slot as usize * 256;
        digest.lay(&mut area[start..]);
    }
    area
}

fn entry(kind: u8, version: u64) -> Vec<u8> {
    entry_of(&FIRST, kind, version)
}

fn entry_of(layout: &Layout, kind: u8, version: u64) -> Vec<u8> {
    let length = layout.entry_bytes(kind).unwrap();
    let mut bytes = vec![kind];
    bytes.extend(KEY.stored());
    bytes.extend(&version.to_le_bytes()[..layout.version_bytes]);
    bytes.resize(length, 0x11);
    bytes
}

fn put(area: &mut [u8], at: usize, bytes: &[u8]) {
    area[at..at + bytes.len()].copy_from_slice(bytes);
}

fn image(area: Vec<u8>) -> Image {
    let geometry = Geometry {
        slots: 4,
        slot_bytes: 256,
    };
    Image::new(geometry, area).unwrap()
}

/// The first place of the cause is here, and the words say what is wrong.
fn is_refused(area: Vec<u8>, slot: u32, offset: usize, words: &str) {
    let report = Report::of(&image(area));
    let refused = report.verdict.as_ref().expect_err(words);
    assert_eq!(
        refused.cause.spots[0].place,
        Place { slot, offset },
        "{words}"
    );
    assert!(refused.cause.what.contains(words), "{:?}", refused.cause);
    assert!(refused.refusal.meaning().ends_with('.'));
}

/// A store of two slots with some bytes changed.
fn with(at: usize, bytes: &[u8]) -> Vec<u8> {
    let mut area = store(0b0011);
    put(&mut area, at, bytes);
    area
}

#[test]
fn faults_of_digests() {
    let head = 256;
    is_refused(vec![0; 1024], 0, 0, "byte 0 of no slot is 5 or 8");
    is_refused(
        with(head + 1, &[1]),
        0,
        1,
        "2 slots have the highest digest number, 1",
    );
    is_refused(
        with(head + 9, &[0]),
        1,
        9,
        "next version in the head's digest is 0",
    );
    is_refused(with(head + 5, &[0x13]), 1, 5, "not below 4: 4");
    is_refused(with(head + 5, &[0x01]), 1, 5, "lacks the head, slot 1");
    is_refused(with(head + 5, &[0x0F]), 1, 5, "leaves no slot free");
    is_refused(
        with(head + 5, &[0x07]),
        2,
        0,
        "names slot 2, whose byte 0 is neither 5 nor 8",
    );
    let mut zero = vec![0; 1024];
    zero[0] = 5;
    is_refused(zero, 0, 1, "highest digest number is 0");
}

#[test]
fn faults_of_entries() {
    is_refused(with(13, &[6]), 0, 13, "no entry of edition 1 has kind 6");
    is_refused(with(13, &entry(1, 0)), 0, 13, "no entry has this version");
    let mut area = with(13, &entry(7, 1));
    put(&mut area, 144, &entry(3, 2));
    put(&mut area, 211, &entry(1, 3));
    put(&mut area, 230, &[2]);
    is_refused(
        area,
        0,
        230,
        "kind 2 has 35 bytes, and the slot has 26 left",
    );
    let mut area = with(13, &entry(1, 3));
    put(&mut area, 256 + 13, &entry(1, 3));
    is_refused(area, 0, 13, "two entries have version 3");
}

/// Version 1 of a key in one slot, version 2 and tombstone 3 in another, then version 4 behind them.
#[test]
fn reasons() {
    let mut area = store(0b0011);
    put(&mut area, 13, &entry(1, 1));
    put(&mut area, 256 + 13, &entry(1, 2));
    put(&mut area, 256 + 32, &entry(4, 3));
    let told = |area: &[u8]| {
        let report = Report::of(&image(area.to_vec()));
        let reasons = report.entries.iter().map(|entry| entry.reason);
        let kept = report.rows.iter().map(|row| row.used.as_ref()?.kept);
        (reasons.collect::<Vec<_>>(), kept.collect::<Vec<_>>())
    };
    let (first, second) = (
        Place {
            slot: 0,
            offset: 13,
        },
        Place {
            slot: 1,
            offset: 13,
        },
    );
    let (reasons, kept) = told(&area);
    assert!(matches!(reasons[0], Reason::Deleted(by) if by.version == Version(3)));
    assert!(matches!(reasons[1], Reason::Deleted(by) if by.place.offset == 32));
    assert_eq!(reasons[2], Reason::Needed(first));
    assert_eq!(kept, [Some(0), Some(11), None, None]);
    area[13] = 0;
    assert_eq!(told(&area).0[1..], [Reason::Needed(second)]);
    assert_eq!(told(&area).1[1], Some(0));
    put(&mut area, 256 + 13, &entry(4, 2));
    area[256 + 24] = 0;
    assert_eq!(told(&area).0, [Reason::Needless]);
    put(&mut area, 13, &entry(2, 4));
    let (reasons, _) = told(&area);
    assert_eq!(reasons[0], Reason::Present);
    assert!(matches!(reasons[1], Reason::Outlived(by) if by.place == first));
    put(&mut area, 13 + 35, &entry(1, 5));
    assert!(matches!(told(&area).0[0], Reason::Overwritten(by) if by.version == Version(5)));
}

/// All stores of a write but the last: the version stands there, the kind does not.
#[test]
fn write_cut_before_its_last_store() {
    let mut area = store(1);
    put(&mut area, 13, &entry(1, 1));
    area[13] = 0;
    let report = Report::of(&image(area));
    let found = report.under_way.expect("accepted");
    let tail = &found.findings[0];
    assert_eq!((tail.range.least, tail.range.most), (7, 131));
    let write = tail.candidates[0];
    assert_eq!(write.operation, Operation::Write(8, Some(KEY)));
    assert_eq!(
        (write.range.least, write.range.most, write.total),
        (7, 19, Some(20))
    );
}

/// The second edition: entries from 17 on, versions of 8 bytes, and its own kinds.
#[test]
fn faults_of_the_second_edition() {
    let with = |changes: &[(usize, &[u8])]| {
        let mut area = store_of(&SECOND, 0b0011);
        for (at, bytes) in changes {
            put(&mut area, *at, bytes);
        }
        area
    };
    let entry = |kind, version| entry_of(&SECOND, kind, version);
    let next = [0; 8];
    is_refused(
        with(&[(256 + 9, &next)]),
        1,
        9,
        "next version in the head's digest is 0",
    );
    is_refused(
        with(&[(17, &[4])]),
        0,
        17,
        "no entry of edition 2 has kind 4",
    );
    is_refused(
        with(&[(17, &entry(9, u64::MAX))]),
        0,
        17,
        "no entry has this version",
    );
    let wide = entry(13, 1 << 32 | 1);
    let shared = [(17, &wide[..]), (256 + 17, &wide[..])];
    is_refused(with(&shared), 0, 17, "two entries have version 4294967297");
    let report = Report::of(&image(with(&[(17, &entry(10, 1 << 32))])));
    let [only] = &report.entries[..] else {
        panic!("{:?}", report.entries);
    };
    assert_eq!((only.reason, only.value.len()), (Reason::Present, 24));
    let text = inspect::text::report(&report);
    assert!(text.starts_with(
        "accepted: next version 4294967297, digest 2, head slot 1, 1 key present, edition 2\n"
    ));
    assert!(text.contains("object 24"), "{text}");
}

/// A log of both editions is refused with 28, whichever the head is of, and each slot is listed by its own.
#[test]
fn log_of_both_editions() {
    for (own, other) in [(&FIRST, &SECOND), (&SECOND, &FIRST)] {
        let mut area = store_of(own, 0b0011);
        put(&mut area, 0, &store_of(other, 0b0011)[..17]);
        let first = entry_of(other, other.objects[0], 3);
        let second = entry_of(own, own.objects[1], 4);
        put(&mut area, other.digest_bytes(), &first);
        put(&mut area, 256 + own.digest_bytes(), &second);
        let report = Report::of(&image(area.clone()));
        let values = report.entries.iter().map(|entry| entry.value.len());
        assert_eq!(values.collect::<Vec<_>>(), [8, 24]);
        if own == &FIRST {
            let words = "slot 0 of the log is of edition 2, and the head, slot 1, of edition 1";
            is_refused(area, 0, 0, words);
            let refused = report.verdict.as_ref().unwrap_err();
            assert_eq!(refused.refusal.number(), 28);
        } else {
            // A store on its way over: each slot is told in its own edition.
            let recovered = report.verdict.as_ref().unwrap();
            assert_eq!(recovered.record.edition.0, 2);
            let editions = report.rows[..2].iter().map(|row| row.digest.unwrap());
            let editions: Vec<u32> = editions.map(|digest| digest.layout.edition.0).collect();
            assert_eq!(editions, [1, 2]);
        }
    }
}

/// A cleaning in a switched store whose old slot was the head, cut before its last store: the new head is of the second
/// edition, which the old one does not tell.
#[test]
fn switched_cleaning_cut_before_its_last_store() {
    let mut area = store_of(&FIRST, 1);
    put(&mut area, 13, &entry_of(&FIRST, 1, 1));
    put(&mut area, 256, &store_of(&SECOND, 2)[..17]);
    put(&mut area, 256 + 1, &[2, 0, 0, 0, 2]);
    put(&mut area, 256 + 9, &[2, 0, 0, 0, 0, 0, 0, 0]);
    put(&mut area, 256 + 17, &entry_of(&SECOND, 9, 1));
    area[256] = 0;
    area[256 + 40] = 0;
    let report = Report::of(&image(area));
    let found = report.under_way.expect("accepted");
    let new_head = &found.findings[1];
    assert_eq!(new_head.range.most, 17 + 23 + 1);
    let cleaning = new_head.candidates.iter().find(|one| one.is_switched);
    let cleaning = cleaning.expect("a cleaning of a switched store");
    assert_eq!(cleaning.operation, Operation::Clean(SlotMap(1)));
    assert_eq!(cleaning.total, Some(17 + 23 + 2));
}

/// All stores of a write of the second edition but the last.
#[test]
fn wide_write_cut_before_its_last_store() {
    let mut area = store_of(&SECOND, 1);
    put(&mut area, 17, &entry_of(&SECOND, 9, 1));
    area[17] = 0;
    let report = Report::of(&image(area));
    let found = report.under_way.expect("accepted");
    let tail = &found.findings[0];
    assert_eq!((tail.range.least, tail.range.most), (7, 135));
    let write = tail.candidates[0];
    assert_eq!(write.operation, Operation::Write(8, Some(KEY)));
    assert_eq!(
        (write.range.least, write.range.most, write.total),
        (7, 23, Some(24))
    );
}
