//! The fastest and the median of samples that are taken in turns.

use std::hint::black_box;
use std::time::Instant;

use crate::cases::{Case, Side};

/// Samples of each side.
const SAMPLES: usize = 201;
/// How long a sample should last, in microseconds.
const SAMPLE_LENGTH: f64 = 500.0;

/// Microseconds for a call, and how the two sides stand to each other.
pub struct Times {
    /// The fastest sample of each side, which a busy machine disturbs least.
    pub proved: f64,
    pub ordinary: f64,
    /// Proved by ordinary, of the fastest samples.
    pub ratio: f64,
    /// The same of the samples taken together: median, lower and upper quartile.
    pub median: f64,
    pub lower: f64,
    pub upper: f64,
}

/// How many different depths of the machine stack the samples are taken at.
const DEPTHS: usize = 32;

/// Times both sides of a case, each in turn going first, at the next depth of the
/// stack: what a call costs may hang on how its frame happens to lie.
pub fn measure(case: &mut Case) -> Times {
    let calls = [Side::Proved, Side::Ordinary].map(|side| calls_in_a_sample(case, side));
    let mut proved = Vec::with_capacity(SAMPLES);
    let mut ordinary = Vec::with_capacity(SAMPLES);
    for sample in 0..SAMPLES {
        let depth = sample % DEPTHS;
        let mut proved_once = |case: &mut Case| {
            proved.push(deeper(depth, &mut || time(case, Side::Proved, calls[0])));
        };
        let mut ordinary_once = |case: &mut Case| {
            ordinary.push(deeper(depth, &mut || time(case, Side::Ordinary, calls[1])));
        };
        if sample % 2 == 0 {
            proved_once(case);
            ordinary_once(case);
        } else {
            ordinary_once(case);
            proved_once(case);
        }
    }
    let mut ratios: Vec<f64> = proved.iter().zip(&ordinary).map(|(p, o)| p / o).collect();
    let fastest = [at_part(&mut proved, 0.0), at_part(&mut ordinary, 0.0)];
    Times {
        proved: fastest[0],
        ordinary: fastest[1],
        ratio: fastest[0] / fastest[1],
        median: at_part(&mut ratios, 0.5),
        lower: at_part(&mut ratios, 0.25),
        upper: at_part(&mut ratios, 0.75),
    }
}

/// Enough calls to fill a sample, found after some to warm up.
fn calls_in_a_sample(case: &mut Case, side: Side) -> u32 {
    let mut calls = 1;
    loop {
        let each = time(case, side, calls);
        if f64::from(calls) * each >= SAMPLE_LENGTH / 2.0 {
            return (SAMPLE_LENGTH / each).ceil() as u32;
        }
        calls *= 2;
    }
}

/// What the job answers when it is called so many frames further down.
#[inline(never)]
fn deeper(frames: usize, job: &mut dyn FnMut() -> f64) -> f64 {
    let frame = black_box([0u8; 16]);
    let answer = match frames {
        0 => job(),
        _ => deeper(frames - 1, job),
    };
    black_box(frame);
    answer
}

/// Microseconds for one call, out of this many.
fn time(case: &mut Case, side: Side, calls: u32) -> f64 {
    let started = Instant::now();
    for _ in 0..calls {
        case.call(side);
    }
    started.elapsed().as_secs_f64() * 1e6 / f64::from(calls)
}

/// The value that so great a part of the others lies below.
fn at_part(values: &mut [f64], part: f64) -> f64 {
    values.sort_by(f64::total_cmp);
    let last = values.len() - 1;
    values[(part * last as f64).round() as usize]
}
