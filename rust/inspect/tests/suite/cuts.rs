//! Random histories, cut after every store of every operation: what is told of the operation under way holds each time.

use inspect::between::explanations;
use inspect::entries::Reason;
use inspect::plans::Operation as Told;
use inspect::report::Report;
use inspect::under_way::{Candidate, Doubt, Finding};
use reference::book::Operation;
use reference::Pending;

use crate::player::{Player, Under};

/// How many cuts of one kind of operation were looked at, and how well they were told.
#[derive(Default, Debug)]
struct Tally {
    operations: u32,
    cuts: u32,
    /// Cuts at which something that the report names as a doubt is the case.
    doubted: u32,
    /// Cuts of these at which more stores are called certain than are done.
    wrong: u32,
    /// Some store is told to be certain.
    certain: u32,
    /// One number of stores is told.
    exact: u32,
    /// The most that is told is the true number.
    most_is_true: u32,
    /// With the image before the operation: no byte differs yet.
    unseen_between: u32,
    /// One operation after one number of stores is told.
    exact_between: u32,
    /// The most that is told of the true operation is the true number.
    most_is_true_between: u32,
}

/// One tally for writes, deletes, cleanings and full deletes each.
type Tallies = [Tally; 4];

fn tally<'a>(tallies: &'a mut Tallies, under: &Under) -> &'a mut Tally {
    let number = match (&under.operation, under.started.pending) {
        (_, Pending::Forget { .. }) => 3,
        (Operation::Write(..), _) => 0,
        (Operation::Delete(_), _) => 1,
        (Operation::Clean(_), _) => 2,
    };
    &mut tallies[number]
}

/// Whether what is told may be this operation.
fn is_same(told: Told, under: &Under) -> bool {
    match (&under.operation, told) {
        (Operation::Write(_, value), Told::Write(bytes, _)) => value.len() == bytes,
        (Operation::Delete(key), Told::Delete(told)) => told.is_none_or(|told| told == *key),
        (Operation::Delete(key), Told::FullDelete(told, _)) => told.is_none_or(|told| told == *key),
        (Operation::Clean(victims), Told::Clean(told)) => told == *victims,
        (Operation::Clean(_), Told::NewHead) => true,
        _ => false,
    }
}

/// Whether the operation is among the candidates, with this number of stores.
fn holds(candidates: &[Candidate], under: &Under, done: usize) -> bool {
    let is_right = |one: &Candidate| is_same(one.operation, under) && one.range.has(done);
    candidates.iter().any(is_right)
}

/// Looks at the image after so many stores of an operation.
fn look(player: &Player, under: &Under, done: usize, tally: &mut Tally) {
    let report = Report::of(&player.image);
    let found = report.under_way.as_ref().expect("a store");
    assert_eq!(report.lost, []);
    tally.cuts += 1;
    for finding in &found.findings {
        let here = if finding.site == under.site() {
            done
        } else {
            0
        };
        let is_case = |doubt: &Doubt| player.is_case(*doubt, finding, under);
        let is_sure = !finding.doubts.iter().any(is_case);
        assert!(finding.range.most >= here, "{finding:?}");
        assert!(!is_sure || finding.range.least <= here, "{finding:?}");
        tally.wrong += u32::from(finding.range.least > here);
        if finding.site == under.site() {
            look_at(finding, under, done, is_sure, tally);
        }
    }
    let is_told = found.findings.iter().any(|one| one.site == under.site());
    assert!(is_told, "{found:?}");
    look_between(player, under, done, tally);
}

fn look_at(finding: &Finding, under: &Under, done: usize, is_sure: bool, tally: &mut Tally) {
    let range = finding.range;
    let is_held = done == 0 || !is_sure || holds(&finding.candidates, under, done);
    assert!(is_held, "{:?}, {done} done: {finding:?}", under.operation);
    tally.doubted += u32::from(!is_sure);
    tally.certain += u32::from(is_sure && range.least > 0);
    tally.exact += u32::from(is_sure && range.least == range.most);
    tally.most_is_true += u32::from(range.most == done);
}

fn look_between(player: &Player, under: &Under, done: usize, tally: &mut Tally) {
    let found = explanations(&under.before, &under.recovered, &player.image);
    if player.image == under.before {
        assert!(found.is_empty(), "{found:?}");
        tally.unseen_between += 1;
        return;
    }
    let is_held = holds(&found, under, done);
    assert!(is_held, "{:?}, {done} done: {found:?}", under.operation);
    let is_exact = matches!(&found[..], [one] if one.range.least == one.range.most);
    tally.exact_between += u32::from(is_exact);
    let mut own = found.iter().filter(|one| is_same(one.operation, under));
    tally.most_is_true_between += u32::from(own.any(|one| one.range.most == done));
}

/// The entries called present are what reads give, for every key of the history and of the log.
fn check_present(player: &Player) {
    let report = Report::of(&player.image);
    let keys = report.entries.iter().map(|entry| entry.fields.key);
    for key in keys.chain(player.keys.iter().copied()) {
        let mut present = report
            .entries
            .iter()
            .filter(|entry| entry.fields.key == key && entry.reason == Reason::Present)
            .map(|entry| {
                (
                    entry.fields.version.0,
                    entry.fields.kind,
                    entry.value.clone(),
                )
            });
        assert_eq!(present.next(), player.read(key));
        assert_eq!(present.next(), None);
    }
}

/// What a history is like.
#[derive(Clone, Copy)]
struct Manner {
    /// Whether older bytes are likely to look like new ones.
    is_hard: bool,
    /// One operation in so many is cut short for good.
    cut_rarity: Option<u32>,
}

/// Plays one history.
fn play(seed: u64, manner: Manner, tallies: &mut Tallies) {
    let mut player = Player::new(seed, manner.is_hard);
    if player.rng.one_in(3) {
        player.fill();
    }
    for _ in 0..14 {
        let Some(under) = player.any_operation() else {
            continue;
        };
        let tally = tally(tallies, &under);
        tally.operations += 1;
        look(&player, &under, 0, tally);
        for done in 0..under.stores.len() - 1 {
            player.store(&under, done);
            look(&player, &under, done + 1, tally);
        }
        if manner
            .cut_rarity
            .is_some_and(|rarity| player.rng.one_in(rarity))
        {
            let stores = player.rng.below(under.stores.len() as u32) as usize;
            player.cut(&under, stores);
        } else {
            player.finish(&under);
            look_between(&player, &under, under.stores.len(), tally);
            check_present(&player);
        }
    }
}

fn play_all(seeds: std::ops::Range<u64>, manner: Manner) -> Tallies {
    let mut tallies = Tallies::default();
    for seed in seeds {
        play(seed, manner, &mut tallies);
    }
    for (name, tally) in ["write", "delete", "cleaning", "full delete"]
        .iter()
        .zip(&tallies)
    {
        println!("{name}: {tally:?}");
        assert!(
            tally.operations > 5 && tally.certain > 50,
            "{name}: {tally:?}"
        );
    }
    tallies
}

/// Nothing was cut short before: the range that is told holds each time.
#[test]
fn one_cut() {
    let manner = Manner {
        is_hard: false,
        cut_rarity: None,
    };
    let tallies = play_all(0..70, manner);
    assert!(tallies.iter().all(|tally| tally.wrong == 0), "{tallies:?}");
    // How well it is told; docs/INSPECT.md gives the numbers.
    let [_, _, cleaning, _] = tallies;
    assert!(cleaning.exact > 20, "{cleaning:?}");
    assert!(
        cleaning.most_is_true * 10 > cleaning.cuts * 8,
        "{cleaning:?}"
    );
    assert!(
        cleaning.exact_between * 10 > cleaning.cuts * 7,
        "{cleaning:?}"
    );
}

/// Every other operation is cut short for good, so that older stores stand where the next operation makes its own: the
/// range is wrong only where the report says that it may be.
#[test]
fn cut_again_and_again() {
    let manner = Manner {
        is_hard: false,
        cut_rarity: Some(2),
    };
    let tallies = play_all(1000..1050, manner);
    let wrong: u32 = tallies.iter().map(|tally| tally.wrong).sum();
    assert!(wrong > 100, "{tallies:?}");
}

/// The same over bytes that look like new ones without any cut: small numbers, and stores from before a format.
#[test]
fn likely_bytes() {
    let manner = Manner {
        is_hard: true,
        cut_rarity: Some(4),
    };
    let tallies = play_all(2000..2050, manner);
    let wrong: u32 = tallies.iter().map(|tally| tally.wrong).sum();
    assert!(wrong > 20, "{tallies:?}");
}
