//! A store that is written for long while its live bytes stay the same: which key is written next, and what is done where
//! there is no room.

use crate::book::Operation;
use crate::edition::Layout;
use crate::rng::Rng;
use crate::Key;

/// How the writes are spread over the keys.
#[derive(Clone, Copy, PartialEq, Eq, Debug)]
pub enum Spread {
    /// Every key as often as any other.
    Uniform,
    /// Nine writes in ten go to a tenth of the keys, the others to all others.
    HotAndCold,
    /// All writes go to a tenth of the keys.
    Hot,
}

/// The keys of a store, each with a value of a length of its own, so that overwriting one changes no live bytes.
#[derive(Clone, Debug)]
pub struct Load {
    layout: &'static Layout,
    lengths: Vec<usize>,
    hot: usize,
    spread: Spread,
    rng: Rng,
}

impl Load {
    /// As many keys, with values of these lengths in turn, as have at most so many live bytes.
    pub fn new(
        layout: &'static Layout,
        live_bytes: usize,
        lengths: &[usize],
        spread: Spread,
        seed: u64,
    ) -> Load {
        let mut load = Load {
            layout,
            lengths: Vec::new(),
            hot: 0,
            spread,
            rng: Rng::new(seed),
        };
        let mut live = 0;
        for &length in lengths.iter().cycle() {
            live += layout.tombstone_bytes() + length;
            if live > live_bytes {
                break;
            }
            load.lengths.push(length);
        }
        load.hot = load.lengths.len().div_ceil(10);
        load
    }

    /// How many keys there are.
    pub fn keys(&self) -> usize {
        self.lengths.len()
    }

    /// Live bytes once every key is written.
    pub fn live_bytes(&self) -> usize {
        let entry = self.layout.tombstone_bytes();
        self.lengths.iter().map(|length| entry + length).sum()
    }

    /// The write of a key. The hot keys are the last ones, so that a first round leaves them together.
    pub fn write(&mut self, number: usize) -> Operation {
        let key = Key {
            table: 1,
            key: number as u32,
        };
        let mut value = vec![0; self.lengths[number]];
        self.rng.fill(&mut value);
        Operation::Write(key, value)
    }

    /// The next write of a history that goes on.
    pub fn next_write(&mut self) -> Operation {
        let (keys, hot) = (self.keys() as u32, self.hot as u32);
        let number = match self.spread {
            Spread::Uniform => self.rng.below(keys),
            Spread::HotAndCold if self.rng.one_in(10) => self.rng.below(keys - hot),
            Spread::HotAndCold | Spread::Hot => keys - hot + self.rng.below(hot),
        };
        self.write(number as usize)
    }
}

/// The bytes of the entry that a write lays down.
pub fn entry_bytes(layout: &Layout, write: &Operation) -> u64 {
    let entry = layout.tombstone_bytes();
    match write {
        Operation::Write(_, value) => (entry + value.len()) as u64,
        Operation::Delete(_) => entry as u64,
        Operation::Clean(_) => 0,
    }
}
