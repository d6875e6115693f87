//! Two ways to do the same, timed in turns.

use std::hint::black_box;
use std::time::{Duration, Instant};

/// How long one sample lasts at least: short, so that nothing else runs during some.
const SAMPLE: Duration = Duration::from_micros(300);
/// How many rounds of one sample each there are: the most, and the least where they take longer than `LIMIT`.
const ROUNDS: usize = 800;
const LEAST_ROUNDS: usize = 16;
/// How long the rounds of one case may take.
const LIMIT: Duration = Duration::from_millis(1000);

/// What timing the two gave. A time is the least of all samples: what else runs only adds to a sample.
#[derive(Clone, Copy)]
pub struct Timing {
    /// Nanoseconds of the proved one.
    pub proved: f64,
    /// Nanoseconds of the reference.
    pub reference: f64,
    /// How far apart the reference's own times are between even and odd rounds, as a part of them.
    pub noise: f64,
}

impl Timing {
    /// The times of one of so many that were timed together.
    pub fn each(self, count: u32) -> Timing {
        Timing {
            proved: self.proved / f64::from(count),
            reference: self.reference / f64::from(count),
            ..self
        }
    }
}

/// Times both in turns, so that what slows the machine slows both.
pub fn compare<S>(
    state: &mut S,
    mut proved: impl FnMut(&mut S),
    mut reference: impl FnMut(&mut S),
) -> Timing {
    let times = calibrate(state, &mut reference);
    let mut least = f64::INFINITY;
    let mut base = [f64::INFINITY; 2];
    let begun = Instant::now();
    for round in 0..ROUNDS {
        if round >= LEAST_ROUNDS && begun.elapsed() >= LIMIT {
            break;
        }
        least = sample(state, &mut proved, times).min(least);
        base[round % 2] = sample(state, &mut reference, times).min(base[round % 2]);
    }
    let reference = base[0].min(base[1]);
    Timing {
        proved: least,
        reference,
        noise: base[0].max(base[1]) / reference - 1.0,
    }
}

/// How often to run it for a sample.
fn calibrate<S>(state: &mut S, run: &mut impl FnMut(&mut S)) -> u32 {
    let mut times = 1;
    loop {
        let start = Instant::now();
        repeat(state, run, times);
        if start.elapsed() >= SAMPLE {
            return times;
        }
        times *= 2;
    }
}

fn repeat<S>(state: &mut S, run: &mut impl FnMut(&mut S), times: u32) {
    for _ in 0..times {
        run(state);
        black_box(());
    }
}

/// Nanoseconds of one run.
fn sample<S>(state: &mut S, run: &mut impl FnMut(&mut S), times: u32) -> f64 {
    let start = Instant::now();
    repeat(state, run, times);
    start.elapsed().as_nanos() as f64 / f64::from(times)
}
