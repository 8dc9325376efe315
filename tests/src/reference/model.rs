//! What a plan is, said of a whole placing at once.

use super::cycle::{Cycle, Job};

pub const MOST_ROWS: i64 = 256;

/// Whether f is plausible for the request: it cuts the cycle into rows, they have room for every
/// task, and the window of every job of the cycle holds a whole frame. All windows are walked.
pub fn plausible(cycle: &Cycle, f: i64) -> bool {
    let request = &cycle.request;
    f >= 1
        && cycle.h % f == 0
        && cycle.h / f <= MOST_ROWS
        && request.tasks.iter().all(|task| f >= request.slot(task))
        && cycle
            .jobs
            .iter()
            .all(|job| holds_a_frame(job, f, cycle.h / f))
}

/// All plausible frame lengths, from the largest down.
pub fn plausible_lengths(cycle: &Cycle) -> Vec<i64> {
    (1..=cycle.h)
        .rev()
        .filter(|f| plausible(cycle, *f))
        .collect()
}

pub fn in_window(job: &Job, f: i64, k: i64) -> bool {
    k * f >= job.release && (k + 1) * f <= job.due
}

fn holds_a_frame(job: &Job, f: i64, rows: i64) -> bool {
    (0..2 * rows).any(|k| in_window(job, f, k))
}

/// The frames of a job's window, from the earliest.
pub fn window(job: &Job, f: i64, rows: i64) -> Vec<i64> {
    (0..2 * rows).filter(|k| in_window(job, f, *k)).collect()
}

fn windows_hold(cycle: &Cycle, f: i64, frames: &[i64]) -> bool {
    cycle
        .jobs
        .iter()
        .zip(frames)
        .all(|(job, k)| in_window(job, f, *k))
}

fn rows_hold(cycle: &Cycle, f: i64, frames: &[i64]) -> bool {
    let rows = cycle.h / f;
    (0..rows).all(|row| load(cycle, rows, frames, row) <= f)
}

/// The sum of C + g of the jobs in a row.
fn load(cycle: &Cycle, rows: i64, frames: &[i64], row: i64) -> i64 {
    cycle
        .jobs
        .iter()
        .zip(frames)
        .filter(|(_, k)| **k % rows == row)
        .map(|(job, _)| job.slot)
        .sum()
}

fn frame_of(cycle: &Cycle, frames: &[i64], task: usize, number: i64) -> i64 {
    let place = cycle
        .jobs
        .iter()
        .position(|job| job.task == task && job.number == number)
        .expect("the job exists");
    frames[place]
}

fn order_holds(cycle: &Cycle, frames: &[i64]) -> bool {
    cycle.request.pairs.iter().all(|&(a, b)| {
        let count = cycle.h / cycle.request.tasks[a].t;
        (0..count).all(|j| frame_of(cycle, frames, a, j) <= frame_of(cycle, frames, b, j))
    })
}

/// Whether the frames, one for each job in planning order, are a plan with length f.
pub fn is_plan(cycle: &Cycle, f: i64, frames: &[i64]) -> bool {
    f >= 1
        && cycle.h % f == 0
        && cycle.h / f <= MOST_ROWS
        && frames.len() == cycle.jobs.len()
        && windows_hold(cycle, f, frames)
        && rows_hold(cycle, f, frames)
        && order_holds(cycle, frames)
}
