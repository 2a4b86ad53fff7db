//! Times of several runs that are taken in turn, so that all of them meet the same disturbances.

use std::time::Instant;

/// How often each is timed.
const SAMPLES: usize = 101;

/// The nanoseconds that one sample takes at least: few, so that most samples escape what else the machine does.
const SAMPLE: f64 = 1e6;

pub type Run<'a> = Box<dyn FnMut() + 'a>;

/// Nanoseconds for one run of each, sample by sample.
pub fn samples<const COUNT: usize>(mut runs: [Run; COUNT]) -> Vec<[f64; COUNT]> {
    let repeats = runs.each_mut().map(enough);
    let sample = |_| {
        let mut repeats = repeats.iter();
        runs.each_mut().map(|run| time(run, *repeats.next().expect("a number for each run")))
    };
    (0..SAMPLES).map(sample).collect()
}

/// The median of something made from each sample: of a ratio of times that were taken side by side, for one, which
/// is steadier than a ratio of two medians.
pub fn median<const COUNT: usize>(samples: &[[f64; COUNT]], made: impl Fn(&[f64; COUNT]) -> f64) -> f64 {
    let mut values: Vec<f64> = samples.iter().map(made).collect();
    values.sort_by(f64::total_cmp);
    values[values.len() / 2]
}

/// The shortest time of one of the runs: what it takes when nothing disturbs it.
pub fn shortest<const COUNT: usize>(samples: &[[f64; COUNT]], run: usize) -> f64 {
    samples.iter().map(|times| times[run]).fold(f64::INFINITY, f64::min)
}

/// So many repeats that they fill a sample, also when nothing disturbs them.
fn enough(run: &mut Run) -> u32 {
    let mut repeats = 1;
    while (0..3).any(|_| time(run, repeats) * f64::from(repeats) < SAMPLE) {
        repeats *= 2;
    }
    repeats
}

fn time(run: &mut Run, repeats: u32) -> f64 {
    let start = Instant::now();
    for _ in 0..repeats {
        run();
    }
    start.elapsed().as_nanos() as f64 / f64::from(repeats)
}
