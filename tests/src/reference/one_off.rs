//! Time for a one-off transfer: refusals 21 and 22.

use super::cycle::Cycle;
use super::{check, read_cycle, table};

/// A one-off transfer: so many ticks, not before the one tick and not after the other.
#[derive(Clone, Copy, Debug, PartialEq, Eq)]
pub struct Asked {
    pub length: u32,
    pub from: u32,
    pub until: u32,
}

/// What the jobs of a row take of it, in every cycle alike.
fn used(cycle: &Cycle, rows: i64, frames: &[i64], row: i64) -> i64 {
    let jobs = cycle.jobs.iter().zip(frames);
    jobs.filter(|(_, k)| *k % rows == row)
        .map(|(job, _)| job.slot)
        .sum()
}

/// The earliest frame of a plan that has time for what is asked, or 21, or 22.
pub fn in_plan(cycle: &Cycle, f: i64, frames: &[i64], asked: Asked) -> Result<i64, i32> {
    let length = i64::from(asked.length);
    let (from, until) = (i64::from(asked.from), i64::from(asked.until));
    if length == 0 || from > until || until > 2 * cycle.h {
        return Err(21);
    }
    let rows = cycle.h / f;
    let mut k = (from + f - 1) / f;
    while (k + 1) * f <= until {
        let unused = f - used(cycle, rows, frames, k % rows);
        if unused - cycle.request.g >= length {
            return Ok(k);
        }
        k += 1;
    }
    Err(22)
}

/// The frame, or 1 to 8, 17, 12 to 14, 21 or 22.
pub fn earliest(request: &[u8], table: &[u8], asked: Asked) -> Result<i64, i32> {
    let cycle = read_cycle(request)?;
    let read = table::decode(table).ok_or(12)?;
    let frames = check::plan_in(&cycle, &read)?;
    in_plan(&cycle, read.f, &frames, asked)
}
