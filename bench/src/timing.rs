//! Times a row.

use crate::abi::{is_tuned, Side, PLAIN, PROVED, TUNED};
use crate::rows::Row;
use std::hint::black_box;
use std::time::{Duration, Instant};

/// How often and how long a row is timed. A repeat times `slices` slices of each side in turn. Its time for a side is the
/// median of that side's slices.
pub struct Plan {
    pub repeats: usize,
    pub slices: usize,
    pub slice: Duration,
}

/// The nanoseconds of one call on each side, and the ratio of proved to each other side. They are medians of the repeats.
pub struct Figures {
    pub proved: f64,
    pub plain: f64,
    pub ratio: f64,
    /// The least and the greatest ratio of proved to plain.
    pub least: f64,
    pub most: f64,
    /// The tuned side; none if the call is made there by the same function as on the plain side.
    pub tuned: Option<Tuned>,
}

pub struct Tuned {
    pub time: f64,
    pub ratio: f64,
}

pub fn time(row: &mut Row, plan: &Plan) -> Figures {
    let mut sides = vec![&PROVED, &PLAIN];
    if is_tuned(row.about.call) {
        sides.push(&TUNED);
    }
    let passes = passes_in(row, plan.slice);
    let repeats: Vec<Vec<f64>> = (0..plan.repeats).map(|turn| repeat(row, &sides, plan.slices, passes, turn)).collect();
    let times = |side: usize| repeats.iter().map(|times| times[side]).collect();
    let ratios = |side: usize| -> Vec<f64> { repeats.iter().map(|times| times[0] / times[side]).collect() };
    let least = ratios(1).into_iter().fold(f64::INFINITY, f64::min);
    let most = ratios(1).into_iter().fold(0.0, f64::max);
    let tuned = (sides.len() > 2).then(|| Tuned { time: median(times(2)), ratio: median(ratios(2)) });
    Figures { proved: median(times(0)), plain: median(times(1)), ratio: median(ratios(1)), least, most, tuned }
}

/// One repeat: the time of each side. The side that comes first changes with every turn of slices.
fn repeat(row: &mut Row, sides: &[&Side], slices: usize, passes: usize, turn: usize) -> Vec<f64> {
    let mut times = vec![Vec::new(); sides.len()];
    for slice in 0..slices {
        for next in 0..sides.len() {
            let side = (turn + slice + next) % sides.len();
            times[side].push(a_slice(row, sides[side], passes));
        }
    }
    times.into_iter().map(median).collect()
}

/// The nanoseconds of one call, measured over `passes` passes.
fn a_slice(row: &mut Row, side: &Side, passes: usize) -> f64 {
    let side = black_box(side);
    // The first pass is not timed. It brings the row's memory and the side's code into the caches.
    row.pass.timed(side);
    let start = Instant::now();
    for _ in 0..passes {
        row.pass.timed(side);
    }
    start.elapsed().as_nanos() as f64 / (passes * row.about.calls) as f64
}

/// How many passes of the plain side take at least half the time of a slice.
fn passes_in(row: &mut Row, slice: Duration) -> usize {
    let mut passes = 1;
    loop {
        let start = Instant::now();
        for _ in 0..passes {
            row.pass.timed(black_box(&PLAIN));
        }
        if start.elapsed() * 2 >= slice {
            return passes;
        }
        passes *= 2;
    }
}

fn median(mut values: Vec<f64>) -> f64 {
    values.sort_by(f64::total_cmp);
    let middle = values.len() / 2;
    if values.len() % 2 == 1 {
        values[middle]
    } else {
        (values[middle - 1] + values[middle]) / 2.0
    }
}
