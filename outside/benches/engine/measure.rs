//! Medians of interleaved samples.

use std::hint::black_box;
use std::time::{Duration, Instant};

/// Short samples by turns, so that what else the machine does falls on both sides alike.
const SAMPLES: usize = 101;
const SAMPLE: Duration = Duration::from_millis(1);
const WARM_UP: u32 = 20;

/// Nanoseconds for a call, of the archive and of what stands beside it.
pub struct Times {
    pub archive: f64,
    pub beside: f64,
    /// The middle half of the samples lies within this part of the median, for both.
    pub spread: f64,
}

impl Times {
    /// From the samples of both sides, in nanoseconds for a call.
    pub fn new(archive: Vec<f64>, beside: Vec<f64>) -> Times {
        let (archive, archive_spread) = median(archive);
        let (beside, beside_spread) = median(beside);
        Times {
            archive,
            beside,
            spread: archive_spread.max(beside_spread),
        }
    }

    pub fn ratio(&self) -> f64 {
        self.archive / self.beside
    }
}

/// Warms both sides up, then samples them in turn; each goes first in half of the turns.
pub fn interleaved<A, B>(mut archive: impl FnMut() -> A, mut beside: impl FnMut() -> B) -> Times {
    let archive_calls = calls(&mut archive);
    let beside_calls = calls(&mut beside);
    let (mut archive_samples, mut beside_samples) = (Vec::new(), Vec::new());
    for turn in 0..SAMPLES {
        if turn % 2 == 0 {
            archive_samples.push(sample(&mut archive, archive_calls));
        }
        beside_samples.push(sample(&mut beside, beside_calls));
        if turn % 2 == 1 {
            archive_samples.push(sample(&mut archive, archive_calls));
        }
    }
    Times::new(archive_samples, beside_samples)
}

/// How many calls fill a sample; finding it warms up.
fn calls<A>(call: &mut impl FnMut() -> A) -> u32 {
    let start = Instant::now();
    let mut made = 0u32;
    while start.elapsed() < WARM_UP * SAMPLE {
        black_box(call());
        made += 1;
    }
    (made / WARM_UP).max(1)
}

fn sample<A>(call: &mut impl FnMut() -> A, calls: u32) -> f64 {
    let start = Instant::now();
    for _ in 0..calls {
        black_box(call());
    }
    start.elapsed().as_nanos() as f64 / f64::from(calls)
}

/// The median, and how far the quartiles lie from it.
fn median(mut samples: Vec<f64>) -> (f64, f64) {
    samples.sort_by(f64::total_cmp);
    let at = |part: f64| samples[((samples.len() - 1) as f64 * part).round() as usize];
    let median = at(0.5);
    let spread = (at(0.75) - median).max(median - at(0.25)) / median;
    (median, spread)
}
