//! Times of two sides, measured in turns.

use std::ops::{Div, Sub};
use std::time::Instant;

/// The time of one call, in microseconds. On a machine that does other things
/// too, the least time is the steadier one.
#[derive(Clone, Copy, Debug)]
pub struct Time {
    pub median: f64,
    pub least: f64,
}

impl Time {
    /// Of some samples, at least one.
    pub fn new(mut samples: Vec<f64>) -> Time {
        samples.sort_unstable_by(f64::total_cmp);
        Time {
            median: samples[samples.len() / 2],
            least: samples[0],
        }
    }
}

/// The time of one call by either side.
#[derive(Clone, Copy, Debug)]
pub struct Times {
    pub engine: Time,
    pub tuned: Time,
}

impl Sub for Time {
    type Output = Time;
    fn sub(self, other: Time) -> Time {
        Time {
            median: self.median - other.median,
            least: self.least - other.least,
        }
    }
}

/// How many times another time: a multiple of the medians and of the least.
impl Div for Time {
    type Output = Time;
    fn div(self, other: Time) -> Time {
        Time {
            median: self.median / other.median,
            least: self.least / other.least,
        }
    }
}

impl Sub for Times {
    type Output = Times;
    fn sub(self, other: Times) -> Times {
        Times {
            engine: self.engine - other.engine,
            tuned: self.tuned - other.tuned,
        }
    }
}

/// Calls both sides on copies of the book. A sample is the mean of a batch of
/// calls, each on its own copy; samples of the two sides take turns, and so does
/// the side that goes first.
pub fn times(
    book: &[u8],
    (samples, batch): (usize, usize),
    mut engine: impl FnMut(&mut [u8]),
    mut tuned: impl FnMut(&mut [u8]),
) -> Times {
    let mut copies = vec![book.to_vec(); batch];
    let mut engine_times = Vec::with_capacity(samples);
    let mut tuned_times = Vec::with_capacity(samples);
    for sample in 0..samples {
        for side in 0..2 {
            if (sample + side) % 2 == 0 {
                engine_times.push(sample_time(book, &mut copies, &mut engine));
            } else {
                tuned_times.push(sample_time(book, &mut copies, &mut tuned));
            }
        }
    }
    Times {
        engine: Time::new(engine_times),
        tuned: Time::new(tuned_times),
    }
}

/// The mean time of a call over the copies, which are made anew before. In
/// microseconds.
pub fn sample_time(book: &[u8], copies: &mut [Vec<u8>], call: &mut impl FnMut(&mut [u8])) -> f64 {
    for copy in copies.iter_mut() {
        copy.copy_from_slice(book);
    }
    let start = Instant::now();
    for copy in copies.iter_mut() {
        call(copy);
    }
    let time = start.elapsed();
    1e6 * time.as_secs_f64() / copies.len() as f64
}
