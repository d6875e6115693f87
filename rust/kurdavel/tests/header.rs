//! The header and the wrapper give the same names and numbers.

use std::collections::BTreeMap;

use kurdavel::{DigestNumber, Edition, Fields, Pending, Record, Refusal, SlotMap, Version, WORDS};

const HEADER: &str = include_str!("../../../include/kurdavel.h");

/// The names with a prefix and their numbers, from an enum or a macro.
fn numbers(prefix: &str) -> BTreeMap<String, u32> {
    HEADER
        .lines()
        .filter_map(|line| {
            let line = line.trim_start().trim_start_matches("#define ");
            let (name, rest) = line.strip_prefix(prefix)?.split_once(' ')?;
            let digits: String = rest
                .trim_start_matches("= ")
                .chars()
                .take_while(char::is_ascii_digit)
                .collect();
            Some((name.to_owned(), digits.parse().ok()?))
        })
        .collect()
}

/// `ValueLength` as `VALUE_LENGTH`.
fn upper(name: &str) -> String {
    let mut upper = String::new();
    for letter in name.chars() {
        if letter.is_ascii_uppercase() && !upper.is_empty() {
            upper.push('_');
        }
        upper.push(letter.to_ascii_uppercase());
    }
    upper
}

#[test]
fn refusals() {
    let wrapper: BTreeMap<String, u32> = Refusal::ALL
        .iter()
        .map(|refusal| (upper(&format!("{refusal:?}")), refusal.number()))
        .collect();
    assert_eq!(numbers("KURDAVEL_REFUSED_"), wrapper);
}

/// `KURDAVEL_EDITION_1` and `_2` are the editions that the wrapper has.
#[test]
fn editions() {
    let wrapper: Vec<u32> = Edition::ALL.into_iter().map(Edition::number).collect();
    let stated = numbers("KURDAVEL_EDITION_");
    assert!(stated.values().eq(&wrapper));
    for (name, number) in stated {
        assert_eq!(name, number.to_string());
        assert_eq!(
            Edition::from_number(number).map(Edition::number),
            Some(number)
        );
    }
}

#[test]
fn words_of_a_record() {
    assert_eq!(numbers("KURDAVEL_RECORD_")["WORDS"] as usize, WORDS);
    let named = numbers("KURDAVEL_WORD_");
    let mut words: Vec<u32> = named.values().copied().collect();
    words.sort_unstable();
    assert!(words.into_iter().eq(0..=named["PRESENT"]));
    assert_eq!(
        named["PRESENT"] + numbers("KURDAVEL_SLOTS_")["MAX"],
        WORDS as u32
    );
}

/// The wrapper has each field in the word that the header names.
#[test]
fn fields_of_a_record() {
    let named = numbers("KURDAVEL_WORD_");
    let fields = Fields {
        slots: 1,
        slot_bytes: 2,
        cells: 3,
        head: 4,
        end: 5,
        digest: DigestNumber(6),
        map: SlotMap(7),
        next: Version(8 | 9 << 32),
        keys: 10,
        edition: Edition::Second,
        switched: true,
        pending: Pending::Forget {
            slot: 11,
            victims: SlotMap(12),
            length: 13,
            left: 14,
        },
        present_bytes: std::array::from_fn(|slot| 100 + slot as u32),
    };
    let record = Record::of(fields);
    let word = |name: &str| record.words()[named[name] as usize];
    let order = [
        "SLOTS",
        "SLOT_BYTES",
        "CELLS",
        "HEAD",
        "END",
        "DIGEST",
        "MAP",
        "NEXT",
        "NEXT_HIGH",
        "KEYS",
        "EDITION",
        "SWITCHED",
    ];
    assert_eq!(order.map(word), [1, 2, 3, 4, 5, 6, 7, 8, 9, 10, 2, 1]);
    let pending = ["PENDING", "SLOT", "VICTIMS", "LENGTH", "LEFT"];
    assert_eq!(pending.map(word), [4, 11, 12, 13, 14]);
    let present = &record.words()[named["PRESENT"] as usize..];
    assert_eq!(present, fields.present_bytes);
    assert_eq!(record.fields(), Some(fields));
    assert_eq!(record.next(), fields.next);
}

/// Words that are all 0 but for the edition.
fn blank() -> [u32; WORDS] {
    let mut words = [0; WORDS];
    words[numbers("KURDAVEL_WORD_")["EDITION"] as usize] = Edition::First.number();
    words
}

/// The switch is 0 or 1, or the words are no record's.
#[test]
fn switches_of_a_record() {
    let word = numbers("KURDAVEL_WORD_")["SWITCHED"] as usize;
    for number in [0, 1, 2, 256, 257, u32::MAX] {
        let mut words = blank();
        words[word] = number;
        let said = Record::from_words(words).fields();
        let switched = said.map(|fields| u32::from(fields.switched));
        assert_eq!(switched, (number < 2).then_some(number));
    }
}

/// The edition is 1 or 2, or the words are no record's.
#[test]
fn editions_of_a_record() {
    let word = numbers("KURDAVEL_WORD_")["EDITION"] as usize;
    for number in [0, 1, 2, 3, 257, 258, u32::MAX] {
        let mut words = blank();
        words[word] = number;
        let said = Record::from_words(words).fields();
        let edition = said.map(|fields| fields.edition.number());
        assert_eq!(edition, [1, 2].contains(&number).then_some(number));
    }
}

/// The operations under way are those that the wrapper knows, and no more.
#[test]
fn pending() {
    let mut stated: Vec<u32> = numbers("KURDAVEL_PENDING_").into_values().collect();
    stated.sort_unstable();
    assert!(stated.iter().copied().eq(0..stated.len() as u32));
    let tag_word = numbers("KURDAVEL_WORD_")["PENDING"] as usize;
    let known = |tag: &u32| {
        let mut words = blank();
        words[tag_word] = *tag;
        let said = Record::from_words(words).fields();
        said.is_some_and(|fields| *Record::of(fields).words() == words)
    };
    assert!(stated.iter().all(known));
    assert!(!known(&(stated.len() as u32)));
}

#[test]
fn version() {
    let stated = numbers("KURDAVEL_VERSION_");
    let version = format!("{}.{}.0", stated["MAJOR"], stated["MINOR"]);
    assert_eq!(version, env!("CARGO_PKG_VERSION"));
}
