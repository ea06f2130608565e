//! Nanoseconds: the sides by turns, and the median of each.

use crate::line::{Figure, Go, Line, SIDES};
use std::time::Instant;

/// A sample takes about as long at least, so that the clock does not matter.
const SAMPLE: f64 = 50_000.0;

/// Nanoseconds a go, for each side.
#[derive(Default)]
pub struct Samples([Vec<f64>; SIDES.len()]);

impl Samples {
    pub fn take(&mut self, line: &mut Line, repetitions: usize) {
        let goes = goes_in_a_sample(&mut line.sides);
        for _ in 0..repetitions {
            for (side, times) in line.sides.iter_mut().zip(&mut self.0) {
                times.push(time(goes, side));
            }
        }
    }

    pub fn medians(self) -> Figure {
        self.0.map(median)
    }
}

/// Nanoseconds a unit, for each side.
pub fn of_line(line: &mut Line, repetitions: usize) -> Figure {
    let mut samples = Samples::default();
    samples.take(line, repetitions);
    samples.medians().map(|time| Some(time? / line.units as f64))
}

/// As many for all sides, by the fastest one. The least of a few times leaves interruptions out.
fn goes_in_a_sample(sides: &mut [Go]) -> usize {
    let mut least = f64::INFINITY;
    for side in sides {
        for _ in 0..5 {
            least = least.min(time(1, side));
        }
    }
    (SAMPLE / least).ceil().clamp(1.0, 10_000.0) as usize
}

/// Nanoseconds a go.
fn time(goes: usize, side: &mut Go) -> f64 {
    let start = Instant::now();
    for _ in 0..goes {
        side();
    }
    start.elapsed().as_nanos() as f64 / goes as f64
}

/// None of no times.
fn median(mut times: Vec<f64>) -> Option<f64> {
    times.sort_unstable_by(f64::total_cmp);
    times.get(times.len() / 2).copied()
}
