//! Run times of two calls side by side, in processor time of this thread. In each turn both sides
//! are timed once, and the side that goes first changes from turn to turn: what slows the machine
//! for a while then meets both, and the ratio within a turn says more than either time.

use std::hint::black_box;

use crate::clock::seconds_used;

/// A turn repeats a short call for at least this many seconds.
const TURN: f64 = 0.005;

/// Seconds for one call of each side, turn by turn.
pub struct Turns {
    pub library: Vec<f64>,
    pub other: Vec<f64>,
}

/// Seconds for one call, over so many calls.
fn timed(calls: u32, call: &mut dyn FnMut() -> i32) -> f64 {
    let start = seconds_used();
    for _ in 0..calls {
        black_box(call());
    }
    (seconds_used() - start) / f64::from(calls)
}

/// How many calls fill a turn: a power of two.
fn calls_in_a_turn(call: &mut dyn FnMut() -> i32) -> u32 {
    let mut calls = 1;
    while timed(calls, call) * f64::from(calls) < TURN {
        calls *= 2;
    }
    calls
}

/// Both sides in so many turns. Both have run for some time before the first.
pub fn measure(
    turns: usize,
    library: &mut dyn FnMut() -> i32,
    other: &mut dyn FnMut() -> i32,
) -> Turns {
    let calls = calls_in_a_turn(library).max(calls_in_a_turn(other));
    let mut times = Turns {
        library: Vec::new(),
        other: Vec::new(),
    };
    for turn in 0..turns {
        if turn % 2 == 0 {
            times.library.push(timed(calls, library));
            times.other.push(timed(calls, other));
        } else {
            times.other.push(timed(calls, other));
            times.library.push(timed(calls, library));
        }
    }
    times
}

/// The value that so many quarters of the values lie below: 0 gives the least, 2 the median, 4 the
/// greatest. Between two values it is taken in proportion.
pub fn quantile(values: &[f64], quarters: usize) -> f64 {
    let mut sorted = values.to_vec();
    sorted.sort_unstable_by(f64::total_cmp);
    let last = sorted.len() - 1;
    let (place, rest) = (last * quarters / 4, last * quarters % 4);
    let next = sorted[last.min(place + 1)];
    sorted[place] + (next - sorted[place]) * rest as f64 / 4.0
}

pub fn least(values: &[f64]) -> f64 {
    quantile(values, 0)
}

pub fn median(values: &[f64]) -> f64 {
    quantile(values, 2)
}

impl Turns {
    /// Library / other in each turn.
    pub fn ratios(&self) -> Vec<f64> {
        let both = self.library.iter().zip(&self.other);
        both.map(|(library, other)| library / other).collect()
    }
}
