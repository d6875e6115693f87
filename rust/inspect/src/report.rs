//! All that is told of one image.

use reference::segment::Digest;

use crate::entries::{of_log, of_slots, Entry};
use crate::image::{Image, Log};
use crate::lost::{lost, Lost};
use crate::slots::{rows, Row};
use crate::under_way::{under_way, UnderWay};
use crate::verdict::{verdict, Recovered, Refused};

/// What an image holds and why.
pub struct Report {
    /// What recovery says.
    pub verdict: Result<Recovered, Refused>,
    /// The log, if the head's digest is possible.
    pub log: Option<Log>,
    /// The slots.
    pub rows: Vec<Row>,
    /// The entries of the log; without a log, those of all slots with a digest.
    pub entries: Vec<Entry>,
    /// Keys that are present with an older version than one that once counted.
    pub lost: Vec<Lost>,
    /// What was under way, if recovery is accepted.
    pub under_way: Option<UnderWay>,
}

impl Report {
    /// The report of an image.
    pub fn of(image: &Image) -> Report {
        let verdict = verdict(image);
        let log = match &verdict {
            Ok(Recovered { record, .. }) => Some(Log {
                map: record.map,
                head: record.head,
            }),
            Err(refused) => refused.cause.log,
        };
        let entries = entries(image, &verdict, log);
        let recovered = verdict.as_ref().ok();
        let lost = log.map_or(Vec::new(), |log| lost(image, log, &entries));
        Report {
            lost,
            rows: rows(image, log, &entries, recovered),
            under_way: recovered.map(|recovered| under_way(image, recovered)),
            entries,
            log,
            verdict,
        }
    }

    /// How many keys are present.
    pub fn present(&self) -> usize {
        let is_present = |entry: &&Entry| entry.reason == crate::entries::Reason::Present;
        self.entries.iter().filter(is_present).count()
    }
}

fn entries(image: &Image, verdict: &Result<Recovered, Refused>, log: Option<Log>) -> Vec<Entry> {
    let entries_hold = match verdict {
        Ok(_) => true,
        Err(refused) => refused.cause.entries_hold,
    };
    match log {
        Some(log) if entries_hold => of_log(image, log.map),
        Some(log) => of_slots(image, log.map.slots()),
        None => {
            let has_digest = |slot: &u32| Digest::read(image.segment(*slot)).is_some();
            of_slots(image, (0..image.slots).filter(has_digest))
        }
    }
}
